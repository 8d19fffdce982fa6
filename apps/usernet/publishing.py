"""Published ports: by the API's socket in slirp4netns's words, of connections and of datagrams, and where the gateway has few ports. Each test
is a function of the place."""

import asyncio
import concurrent.futures
import contextlib
import json
import os
import random
import socket
import stat
import subprocess
import sys
import time

import world
from world import CLIENTS, SERVERS, need

# What slirp4netns 1.2.0 answers to each of these, in this order; where PORT is not above 65535, which it takes for one.
FIRST = {"proto": "tcp", "host_addr": "127.0.0.1", "host_port": 7100, "guest_addr": "10.0.2.100", "guest_port": 8000}
SECOND = {"proto": "udp", "host_addr": "", "host_port": 7100, "guest_addr": "", "guest_port": 8090}  # as podman has it
LISTED = [{"id": 1, **FIRST}, {"id": 2, "proto": "udp", "host_addr": "0.0.0.0", "host_port": 7100, "guest_addr": "10.0.2.100", "guest_port": 8090}]
WRONG = {"proto": "sctp", "host_addr": "x", "host_port": 0, "guest_addr": "256.0.0.1", "guest_port": 0}


def call(name, arguments=None):
    return json.dumps({"execute": name} | ({} if arguments is None else {"arguments": arguments}))


def fault(text):
    return json.dumps({"error": {"desc": f"bad request: {text}"}}, separators=(",", ":"))


def plain(answer):
    return json.dumps(answer, separators=(",", ":"))


TALK = [
    (call("list_hostfwd"), plain({"entries": []})),
    (call("add_hostfwd", FIRST), plain({"return": {"id": 1}})),
    (call("add_hostfwd", SECOND), plain({"return": {"id": 2}})),
    (call("add_hostfwd", FIRST | {"host_addr": "0.0.0.0"}), fault("add_hostfwd: slirp_add_hostfwd failed")),
    *((call("add_hostfwd", FIRST | {name: value}), fault(f"add_hostfwd: bad arguments.{name}")) for name, value in WRONG.items()),
    (call("list_hostfwd"), plain({"entries": LISTED})),
    (call("remove_hostfwd", {"id": 9}), fault("remove_hostfwd: bad arguments.id")),
    (call("remove_hostfwd"), fault("remove_hostfwd: bad arguments.id")),
    (call("nonsense"), fault("unknown execute")),
    ("{}", fault("no execute found")),
    ('{"execute": 3}', fault("no execute found")),
    ("add_hostfwd", fault("cannot parse JSON")),
    ("", fault("cannot parse JSON")),
]
# What it takes and usernet doesn't: ports that are none, and what stands behind a request.
REFUSED = [
    (call("add_hostfwd", FIRST | {"host_port": 65536}), fault("add_hostfwd: bad arguments.host_port")),
    (call("add_hostfwd", FIRST | {"guest_port": 65536 + 80}), fault("add_hostfwd: bad arguments.guest_port")),
    (call("add_hostfwd", FIRST | {"host_port": 7101.5}), fault("add_hostfwd: bad arguments.host_port")),
    (call("add_hostfwd", FIRST | {"host_port": -7101}), fault("add_hostfwd: bad arguments.host_port")),
    (call("add_hostfwd", FIRST | {"guest_addr": "127.0.0.1"}), fault("add_hostfwd: bad arguments.guest_addr")),
    (call("list_hostfwd") + "{", fault("cannot parse JSON")),
    ("[" * 2000, fault("cannot parse JSON")),
]


def ask(path, request, words=("nc", "-NU")):
    """What is answered, by nc as slirp4netns's manual has it, or by another program's words."""
    done = subprocess.run([*words, path], input=request, stdout=subprocess.PIPE, text=True, timeout=20)
    return done.stdout


def socat(path, request):
    return subprocess.run(["socat", "-t5", "-", f"UNIX-CONNECT:{path}"], input=request, stdout=subprocess.PIPE, text=True, timeout=20).stdout


@contextlib.contextmanager
def with_api(place, *more):
    path = str(place.folder / "api.sock")
    with place.usernet(0, "--api-socket", path, *more):
        # Those of --publish are the first, and aren't of this test.
        for entry in json.loads(ask(path, call("list_hostfwd")))["entries"]:
            need("removed", ask(path, call("remove_hostfwd", {"id": entry["id"]})), plain({"return": {}}))
        yield path


def renumbered(text, by):
    """The numbers that were dealt before count, too."""
    answer = json.loads(text)
    for entry in [answer.get("return", {}), *answer.get("entries", [])]:
        if "id" in entry:
            entry["id"] += by
    return plain(answer)


def api(place):
    """Each request has slirp4netns's answer, by nc and by socat; the socket is its owner's alone."""
    with with_api(place) as path:
        mode = os.stat(path).st_mode
        need("mode", (stat.S_ISSOCK(mode), stat.S_IMODE(mode)), (True, 0o600))
        for request, answer in TALK + REFUSED:
            need(request[:60], ask(path, request), renumbered(answer, 2))
        need("socat", socat(path, call("list_hostfwd")), renumbered(plain({"entries": LISTED}), 2))
        carried_in(place, path)


def serve_page(place):
    return place.start_client(sys.executable, "-m", "http.server", "8000", "--directory", str(place.folder))


def has_page(place, port, host="127.0.0.1"):
    return place.server_status("curl", "-sf", "-o", "/dev/null", "--max-time", "20", f"http://{host}:{port}/small") == 0


def carried_in(place, path):
    """Connections and datagrams go through until their port is removed, which is free then."""
    first, second = 3, 4
    with serve_page(place), place.start_client(sys.executable, __file__, "--echo", "8090"):
        place.until(lambda: has_page(place, 7100))
        place.until(lambda: place.server_status(sys.executable, __file__, "--datagrams", "7100", "30") == 0)
        for number in first, second:
            need("removed", ask(path, call("remove_hostfwd", {"id": number})), plain({"return": {}}))
        need("a page of no port", has_page(place, 7100), False)
        need("the host's ports", ":7100 " in place.server("ss", "-Htlun"), False)
        need("flows", place.counters()["flows_now"], 0)
        need("again", json.loads(ask(path, call("add_hostfwd", FIRST)))["return"]["id"] > second, True)
        need("the page again", has_page(place, 7100), True)


def send_datagrams(port, number, host="127.0.0.1"):
    """So many clients, each of which gets its own answers and no other one's."""
    ends = [socket.socket(socket.AF_INET6 if ":" in host else socket.AF_INET, socket.SOCK_DGRAM) for _ in range(number)]
    for at, end in enumerate(ends):
        end.settimeout(2)
        end.connect((host, port))
        end.send(b"%d" % at)
    for turn in range(3):
        for at, end in enumerate(ends):
            need("an answer", end.recv(65536), b"%d" % at if turn == 0 else b"%d, %d" % (at, turn))
            end.send(b"%d, %d" % (at, turn + 1))


def echo(port):
    with socket.socket(socket.AF_INET, socket.SOCK_DGRAM) as end:
        end.bind(("0.0.0.0", port))
        while True:
            end.sendto(*end.recvfrom(65536))


def api_callers(place):
    """Callers that say nothing keep others waiting for their time and no longer; one whose request is too long gets no answer; so many
    ports are published and no more, and all are listed."""
    with with_api(place) as path:
        silent = [socket.socket(socket.AF_UNIX, socket.SOCK_STREAM) for _ in range(10)]
        for end in silent:
            end.connect(path)
        began = time.monotonic()
        need("behind silent ones", ask(path, call("list_hostfwd")), plain({"entries": []}))
        need("their time", 8 < time.monotonic() - began < 18, True)
        for end in silent:
            end.close()
        need("too long", ask(path, " " * 5000 + call("list_hostfwd")), "")
        need("just not", ask(path, call("list_hostfwd").rjust(4095)), plain({"entries": []}))
        ids = [json.loads(ask(path, call("add_hostfwd", FIRST | {"host_port": 20000 + at}))).get("return", {}).get("id") for at in range(257)]
        need("published", (len(set(ids[:256])), ids[256]), (256, None))
        need("listed", [entry["id"] for entry in json.loads(ask(path, call("list_hostfwd")))["entries"]], ids[:256])
        with concurrent.futures.ThreadPoolExecutor(32) as many:
            answers = many.map(lambda number: ask(path, call("remove_hostfwd", {"id": number})), ids[:256])
            need("removed", set(answers), {plain({"return": {}})})
        place.program.terminate()
        need("status", place.program.wait(10), 0)


def api_place(place):
    """A socket that was left makes way, and a file that is none doesn't; a path that no socket can have is refused."""
    path = place.folder / "api.sock"
    words = ["timeout", 5, world.HERE / "out" / place.program_name, "--netns", CLIENTS, "--api-socket"]
    with contextlib.suppress(FileNotFoundError):
        path.unlink()
    path.write_text("kept")
    for name in path, "/" + "x" * 108, place.folder / "nowhere/api.sock", "":
        done = subprocess.run(place.words(SERVERS, [*words, name]), stdout=subprocess.PIPE, stderr=subprocess.DEVNULL)
        need(str(name), (done.returncode, done.stdout), (1, b""))
    need("the file", path.read_text(), "kept")
    path.unlink()
    for _ in range(2):
        with with_api(place) as api_path:
            need("it is there", ask(api_path, call("list_hostfwd")), plain({"entries": []}))


def api_boxed(place):
    """With sandbox and filter, ports below 1024 among them: by the one right that is kept for it."""
    with with_api(place, "--enable-sandbox", "--enable-seccomp") as path:
        with open(f"/proc/{place.program.pid}/status") as file:
            status = dict(line.rstrip("\n").split(":\t") for line in file if ":\t" in line)
        for name in "CapPrm", "CapEff", "CapBnd":
            need(name, int(status[name], 16), 1 << 10)
        with serve_page(place), place.start_client(sys.executable, __file__, "--echo", "8090"):
            need("port 80", "return" in json.loads(ask(path, call("add_hostfwd", FIRST | {"host_port": 80}))), True)
            need("datagrams", "return" in json.loads(ask(path, call("add_hostfwd", SECOND))), True)
            place.until(lambda: has_page(place, 80))
            place.until(lambda: place.server_status(sys.executable, __file__, "--datagrams", "7100", "30") == 0)
        need("it runs", place.program.poll(), None)


def published_ipv6(place):
    """Ports of IPv6 lead into the namespace, too, beside those of IPv4 with the same number: by the program's words and by the API's."""
    words = ["--publish", "[::1]:7300:8000", "--publish", "[::1]:7301:8090/udp", "--publish", "127.0.0.1:7300:8000"]
    with with_api(place) as path:
        for host in "::1", "::", "0.0.0.0", "127.0.0.1":
            need(host, "return" in json.loads(ask(path, call("add_hostfwd", FIRST | {"host_addr": host, "host_port": 7302 + ("1" in host)}))), True)
        need("a second time", ask(path, call("add_hostfwd", FIRST | {"host_addr": "::1", "host_port": 7303})), fault("add_hostfwd: slirp_add_hostfwd failed"))
        need("listed", [entry["host_addr"] for entry in json.loads(ask(path, call("list_hostfwd")))["entries"]], ["::1", "::", "0.0.0.0", "127.0.0.1"])
        with serve_page(place):
            for host, port in ("[::1]", 7303), ("[::1]", 7302), ("127.0.0.1", 7302), ("127.0.0.1", 7303):
                place.until(lambda host=host, port=port: has_page(place, port, host))
    with place.usernet(0, *words), serve_page(place), place.start_client(sys.executable, __file__, "--echo", "8090"):
        for host in "[::1]", "127.0.0.1":
            place.until(lambda host=host: has_page(place, 7300, host))
        place.until(lambda: place.server_status(sys.executable, __file__, "--datagrams6", "7301", "30") == 0)
        need("flows", place.counters()["flows_now"] >= 30, True)


def few_ports(place):
    """Four ports of the gateway's carry four connections at once, again and again, and no more."""
    with place.usernet(0, "--test-ports", 4), place.start_client(sys.executable, __file__, "--accept", "8000"):
        place.until(lambda: ":8000 " in place.client("ss", "-Htln"))
        for _ in range(3):
            place.until(lambda: place.counters()["now"] == 0)
            place.server(sys.executable, __file__, "--hold", "7000", "4")


def hold(port, number):
    """So many connections get an answer each while all are open; one more is reset."""
    ends = [socket.create_connection(("127.0.0.1", port), timeout=20) for _ in range(number)]
    need("answers", [end.recv(9) for end in ends], [b"here"] * number)
    with contextlib.suppress(ConnectionResetError), socket.create_connection(("127.0.0.1", port), timeout=20) as end:
        need("one more", end.recv(9), None)


def accept(port):
    """Each connection gets a word, and is closed once its client has."""

    async def answer(reader, writer):
        with contextlib.suppress(ConnectionError):
            writer.write(b"here")
            await reader.read()
            writer.close()

    async def run():
        server = await asyncio.start_server(answer, "0.0.0.0", port)
        await server.serve_forever()

    asyncio.run(run())


def mutated(draw, text):
    """A request with some of its bytes changed, doubled or left out."""
    data = bytearray(text.encode())
    for _ in range(draw.randrange(4)):
        at = draw.randrange(len(data) + 1)
        data[at : at + draw.randrange(3)] = draw.choice([b"", b'"', b"{", b"}", b"[", b"\\u00", b"\\", b"-", b"1e9", b"4294967296", b"a" * 100, draw.randbytes(2)])
    return bytes(data)


def noise(path, seed, number):
    """So many requests that are hardly any: each is answered, by JSON, and what was published goes again."""
    draw = random.Random(seed)
    for _ in range(number):
        if draw.randrange(4):
            text = mutated(draw, draw.choice(TALK)[0])
        else:
            text = draw.randbytes(draw.randrange(200))
        with socket.socket(socket.AF_UNIX, socket.SOCK_STREAM) as end:
            end.connect(path)
            end.sendall(text)
            if draw.randrange(8) == 0:
                continue
            end.shutdown(socket.SHUT_WR)
            answer = json.loads(b"".join(iter(lambda: end.recv(65536), b"")))
        if (published := answer.get("return", {}).get("id")) is not None:
            need("removed", ask(path, call("remove_hostfwd", {"id": published})), plain({"return": {}}))


PUBLISHING = [api, api_callers, api_place, published_ipv6, few_ports] + ([] if "WITHOUT_SECCOMP" in os.environ else [api_boxed])

if __name__ == "__main__":
    calls = {"--echo": echo, "--datagrams": send_datagrams, "--datagrams6": lambda port, number: send_datagrams(port, number, "::1"), "--hold": hold, "--accept": accept}
    calls[sys.argv[1]](*map(int, sys.argv[2:]))
