"""Two namespaces with servers, clients and usernet between them; run with --serve it is the servers in Python."""

import asyncio
import contextlib
import glob
import hashlib
import http.server
import os
import pathlib
import shutil
import signal
import socket
import struct
import subprocess
import sys
import tempfile
import threading
import time

GATEWAY, NAMESERVER, FAR = "10.0.2.2", "10.0.2.3", "192.0.2.1"
SERVERS, CLIENTS = "usernet-servers", "usernet-clients"
HERE = pathlib.Path(__file__).resolve().parent
# Seconds that one client may take.
LIMIT = 600


def need(what, found, wanted):
    if found != wanted:
        raise AssertionError(f"{what}: {found!r}, not {wanted!r}")


def made_file(path, length):
    """Bytes that don't repeat; answers their SHA-256."""
    digest, block = hashlib.sha256(), os.urandom(1 << 20)
    with open(path, "wb") as file:
        for number in range(-(-length // len(block))):
            piece = (number.to_bytes(8, "big") + block[8:])[: length - number * len(block)]
            digest.update(piece)
            file.write(piece)
    return digest.hexdigest()


class Handler(http.server.BaseHTTPRequestHandler):
    """GET /N answers N bytes, PUT the SHA-256 of what came. It keeps connections alive."""

    protocol_version, wbufsize = "HTTP/1.1", 65536

    def answer(self, body):
        self.send_response(200)
        self.send_header("Content-Length", str(len(body)))
        self.end_headers()
        self.wfile.write(body)

    def do_GET(self):
        self.answer(bytes(i % 251 for i in range(int(self.path[1:]))))

    def do_PUT(self):
        digest, left = hashlib.sha256(), int(self.headers["Content-Length"])
        while left > 0:
            piece = self.rfile.read(min(left, 1 << 20))
            digest.update(piece)
            left -= len(piece)
        self.answer(digest.hexdigest().encode())

    def log_message(self, *words):
        pass


async def echo(reader, writer):
    with contextlib.suppress(ConnectionError):
        while piece := await reader.read(65536):
            writer.write(piece)
            await writer.drain()
        writer.close()


async def close(_, writer):
    with contextlib.suppress(ConnectionError):
        writer.write(b"closed")
        writer.close()


async def reset(reader, writer):
    with contextlib.suppress(ConnectionError):
        await reader.read(1)
        writer.get_extra_info("socket").setsockopt(socket.SOL_SOCKET, socket.SO_LINGER, struct.pack("ii", 1, 0))
        writer.close()


async def who(reader, writer):
    with contextlib.suppress(ConnectionError):
        await reader.readuntil(b"\r\n\r\n")
        writer.write(b"HTTP/1.0 200 OK\r\n\r\n" + writer.get_extra_info("peername")[0].encode())
        writer.close()


def answer_of(data):
    """What a name server answers (RFC 1035, 4.1): each name that ends in .test has the gateway's address, and no other one is known."""
    end = data.index(0, 12) + 5
    question, kind = data[12:end], data[end - 4 : end - 2]
    is_known = question[:-4].endswith(b"\4test\0")
    has_address = is_known and kind == b"\0\1"
    head = data[:2] + (b"\x81\x80" if is_known else b"\x81\x83") + struct.pack(">HHHH", 1, has_address, 0, 0)
    return head + question + (b"\xc0\x0c\0\1\0\1" + struct.pack(">IH", 60, 4) + socket.inet_aton(GATEWAY) if has_address else b"")


def answer_datagrams(port, answer):
    """Each datagram is answered, an empty one too, which asyncio wouldn't send."""
    end = socket.socket(socket.AF_INET, socket.SOCK_DGRAM)
    end.bind(("127.0.0.1", port))

    def run():
        while True:
            data, peer = end.recvfrom(65536)
            end.sendto(answer(data), peer)

    threading.Thread(target=run, daemon=True).start()


def serve():
    """8081: Handler; 8082: what comes is sent back, and the close after it; 8085: closes at once; 8086: resets what sends anything. And of
    datagrams 8090: what comes is sent back; 53: answer_of. At FAR 8091: the address from which a client comes."""
    web = http.server.ThreadingHTTPServer(("127.0.0.1", 8081), Handler)
    threading.Thread(target=web.serve_forever, daemon=True).start()

    async def run():
        for call, port in (echo, 8082), (close, 8085), (reset, 8086):
            await asyncio.start_server(call, "127.0.0.1", port, backlog=4096)
        await asyncio.start_server(who, FAR, 8091)
        answer_datagrams(8090, lambda data: data)
        answer_datagrams(53, answer_of)
        print("ready", flush=True)
        await asyncio.Event().wait()

    asyncio.run(run())


def serve_slowly():
    """8083: sends for as long as it lives."""

    async def send(reader, writer):
        with contextlib.suppress(ConnectionError):
            while True:
                writer.write(bytes(65536))
                await writer.drain()
                await asyncio.sleep(0.01)

    async def run():
        server = await asyncio.start_server(send, "127.0.0.1", 8083)
        print("ready", flush=True)
        await server.serve_forever()

    asyncio.run(run())


class World:
    """The namespaces, the files and the servers. `size` is that of the large file."""

    program_name = "usernet"

    def __init__(self, size):
        self.folder = pathlib.Path(tempfile.mkdtemp(prefix="usernet."))
        self.folder.chmod(0o755)
        self.size, self.program, self.digests, self.fault = size, None, {}, 0
        self.stack = contextlib.ExitStack()

    def digest(self, name):
        if name not in self.digests:
            lengths = {"large": self.size, "small": 1 << 20, "huge": 5 << 30}
            self.digests[name] = made_file(self.folder / name, lengths[name])
        return self.digests[name]

    def __enter__(self):
        with contextlib.ExitStack() as stack:
            stack.callback(shutil.rmtree, self.folder, ignore_errors=True)
            for name in SERVERS, CLIENTS:
                subprocess.run(["ip", "netns", "delete", name], stderr=subprocess.DEVNULL)
                subprocess.run(["ip", "netns", "add", name], check=True)
                stack.callback(subprocess.run, ["ip", "netns", "delete", name])
            for name, server in (SERVERS, "127.0.0.1"), (CLIENTS, NAMESERVER):
                settings = pathlib.Path("/etc/netns") / name
                settings.mkdir(parents=True, exist_ok=True)
                (settings / "resolv.conf").write_text(f"nameserver {server}\noptions timeout:1 attempts:20\n")
                stack.callback(shutil.rmtree, settings, ignore_errors=True)
            self.server("ip", "link", "set", "lo", "up")
            self.server("ip", "address", "add", FAR, "dev", "lo")
            self.server("sysctl", "-qw", "net.ipv4.ping_group_range=0 2147483647")
            self.digest("large"), self.digest("small")
            self.start_servers(stack)
            self.stack = stack.pop_all()
        return self

    def __exit__(self, *_):
        self.stack.close()

    def words(self, space, words):
        return ["ip", "netns", "exec", space, *map(str, words)]

    def run(self, space, words):
        done = subprocess.run(self.words(space, words), text=True, timeout=LIMIT, stdout=subprocess.PIPE,
                              stderr=subprocess.PIPE)
        if done.returncode != 0:
            raise AssertionError(f"{words}: status {done.returncode}: {done.stdout[-500:]}{done.stderr[-500:]}")
        return done.stdout

    def client(self, *words):
        return self.run(CLIENTS, words)

    def server(self, *words):
        return self.run(SERVERS, words)

    def client_status(self, *words):
        return subprocess.run(self.words(CLIENTS, words), stdout=subprocess.DEVNULL, timeout=LIMIT).returncode

    def server_status(self, *words):
        return subprocess.run(self.words(SERVERS, words), stdout=subprocess.DEVNULL, timeout=LIMIT).returncode

    def start_client(self, *words):
        return Child(self.words(CLIENTS, words), stdout=subprocess.DEVNULL, stderr=subprocess.DEVNULL)

    def start_server(self, stack, *words, is_ready=None):
        child = Child(self.words(SERVERS, words), stdout=subprocess.PIPE, stderr=subprocess.DEVNULL, text=True)
        stack.enter_context(child)
        if is_ready:
            self.until(is_ready)
        else:
            need("first line", child.stdout.readline(), "ready\n")
        return child

    def listens(self, port):
        return lambda: f":{port} " in self.server("ss", "-Htln")

    def until(self, holds, seconds=30):
        end = time.monotonic() + seconds
        while not holds():
            if time.monotonic() > end:
                raise AssertionError("it didn't come in time")
            time.sleep(0.05)

    @contextlib.contextmanager
    def serve_slowly(self):
        with contextlib.ExitStack() as stack:
            yield self.start_server(stack, sys.executable, HERE / "world.py", "--serve-slowly")

    def start_servers(self, stack):
        self.start_server(stack, sys.executable, HERE / "world.py", "--serve")
        self.start_nginx(stack)
        self.start_server(stack, "iperf3", "-s", is_ready=self.listens(5201))
        self.start_server(stack, "redis-server", "--port", "6379", "--save", "", is_ready=self.listens(6379))
        self.start_postgres(stack)
        self.start_sshd(stack)

    def start_nginx(self, stack):
        repository, work = self.folder / "repository.git", self.folder / "work"
        git = ["git", "-c", "user.name=t", "-c", "user.email=t@t", "-C", str(work)]
        subprocess.run(["git", "init", "-q", str(work)], check=True, stderr=subprocess.DEVNULL)
        for number in range(100):
            (work / f"{number}").write_bytes(os.urandom(50000))
        subprocess.run([*git, "add", "."], check=True)
        subprocess.run([*git, "commit", "-qm", "files"], check=True)
        subprocess.run(["git", "clone", "-q", "--bare", str(work), str(repository)], check=True)
        subprocess.run(["git", "-C", str(repository), "update-server-info"], check=True)
        settings = self.folder / "nginx.conf"
        settings.write_text(f"""user root; daemon off; pid {self.folder}/nginx.pid; error_log /dev/null;
events {{ worker_connections 4096; }}
http {{ access_log off; sendfile on; server {{ listen 127.0.0.1:8080 backlog=4096; root {self.folder}; }} }}""")
        self.start_server(stack, "nginx", "-c", settings, is_ready=self.listens(8080))

    def start_postgres(self, stack):
        programs, data = sorted(glob.glob("/usr/lib/postgresql/*/bin"))[-1], self.folder / "postgres"
        os.environ["PATH"] += ":" + programs
        data.mkdir()
        shutil.chown(data, "postgres")
        user = ["setpriv", "--reuid=postgres", "--regid=postgres", "--clear-groups"]
        subprocess.run([*user, "initdb", "-D", str(data), "-A", "trust", "-U", "postgres"], check=True,
                       stdout=subprocess.DEVNULL, cwd=data)
        self.start_server(stack, *user, "postgres", "-D", data, "-k", data, "-c", "listen_addresses=127.0.0.1", "-c",
                          "fsync=off", is_ready=self.listens(5432))

    def start_sshd(self, stack):
        os.makedirs("/run/sshd", exist_ok=True)
        for name in "host_key", "user_key":
            words = ["ssh-keygen", "-q", "-t", "ed25519", "-N", "", "-f", str(self.folder / name)]
            subprocess.run(words, check=True)
        (self.folder / "sshd_config").write_text(f"""Port 2222
ListenAddress 127.0.0.1
HostKey {self.folder}/host_key
AuthorizedKeysFile {self.folder}/user_key.pub
PidFile none
PermitRootLogin yes
StrictModes no
UsePAM no
Subsystem sftp internal-sftp
""")
        (self.folder / "ssh_config").write_text(f"""Host host
HostName {GATEWAY}
Port 2222
User root
IdentityFile {self.folder}/user_key
StrictHostKeyChecking no
UserKnownHostsFile /dev/null
LogLevel ERROR
""")
        self.start_server(stack, shutil.which("sshd") or "/usr/sbin/sshd", "-D", "-f", self.folder / "sshd_config",
                          is_ready=self.listens(2222))

    @contextlib.contextmanager
    def usernet(self, fault, *more):
        """The program between both; `fault` percent of the packets are lost, doubled and late."""
        words = [HERE / "out" / self.program_name, "--netns", CLIENTS, "--stats", "--publish", "127.0.0.1:7000:8000", "--publish",
                 "127.0.0.1:7001:8001", *more]
        self.fault = fault
        if fault:
            words += ["--test-fault", fault]
        with contextlib.ExitStack() as stack:
            self.program = self.start_server(stack, *words)
            yield

    def counters(self):
        self.program.send_signal(signal.SIGUSR1)
        words = self.program.stdout.readline().split()
        return {name: int(value) for name, value in zip(words[::2], words[1::2])}

    def descriptors(self):
        return len(os.listdir(f"/proc/{self.program.pid}/fd"))

    def descriptors_of_connections(self):
        """Those that aren't of flows, which go in their own time. A flow that goes while both are counted makes the first count wrong."""
        while True:
            before, descriptors = self.counters()["flows_now"], self.descriptors()
            if self.counters()["flows_now"] == before:
                return descriptors - before

    def processor_seconds(self):
        """The processor time that the program has had."""
        return int(pathlib.Path(f"/proc/{self.program.pid}/schedstat").read_text().split()[0]) / 1e9

    def resident(self):
        """The bytes of memory that are there for the program."""
        pages = pathlib.Path(f"/proc/{self.program.pid}/statm").read_text().split()[1]
        return int(pages) * os.sysconf("SC_PAGESIZE")


class Child(subprocess.Popen):
    """A process that is killed when it is left."""

    def __exit__(self, *words):
        if self.poll() is None:
            self.terminate()
            with contextlib.suppress(subprocess.TimeoutExpired):
                self.wait(5)
            self.kill()
        super().__exit__(*words)


if __name__ == "__main__":
    serve() if "--serve" in sys.argv else serve_slowly()
