"""Clients in the namespace, each a function of the place, and what they run there: clients.py --WORD [ARGUMENT ..]

Files, answers and echoes are compared byte for byte; iperf3, redis-benchmark and pgbench judge by themselves.
"""

import contextlib
import errno
import hashlib
import http.client
import resource
import select
import shutil
import socket
import sys
import time

from world import FAR, GATEWAY, NAMESERVER, need

MIB = 1 << 20


def sha256_of(path):
    with open(path, "rb") as file:
        return hashlib.file_digest(file, "sha256").hexdigest()


def fetch(place, name, wanted, seconds):
    """curl of one file, its digest compared on the way."""
    text = f"curl -sf --max-time {seconds} http://{GATEWAY}:8080/{name} | sha256sum"
    need(name, place.client("bash", "-o", "pipefail", "-c", text).split()[0], wanted)


def download(place):
    fetch(place, "large", place.digest("large"), 120)


def download_past_all_numbers(place):
    """5 GiB: the sequence numbers wrap, and a signed 32-bit count would too."""
    fetch(place, "huge", place.digest("huge"), 300)


def downloads_at_once(place):
    text = (f"seq 200 | xargs -P 200 -I N sh -c 'curl -sf --max-time 120 http://{GATEWAY}:8080/small | sha256sum'"
            " | sort | uniq -c")
    need("200 at once", place.client("bash", "-c", text).split(), ["200", place.digest("small"), "-"])


def upload(place):
    name = place.folder / "large"
    answer = place.client("curl", "-sf", "--max-time", "120", "-T", str(name), f"http://{GATEWAY}:8081/")
    need("upload", answer, place.digest("large"))


def git_clone(place):
    target = place.folder / "clone"
    shutil.rmtree(target, ignore_errors=True)
    place.client("git", "clone", "-q", f"http://{GATEWAY}:8080/repository.git", str(target))
    place.client("git", "-C", str(target), "fsck", "--strict")


def measured(place, words):
    """Whether the server took a test. It takes one at a time and listens anew behind each: until the last one's end has come to it,
    through the faults, it refuses, or says that it is busy."""
    try:
        place.client("iperf3", "-c", GATEWAY, "-t", "2", *words)
    except AssertionError as fault:
        if "unable to connect" in str(fault) or "busy" in str(fault):
            return False
        raise
    return True


def iperf(place):
    for words in [], ["-R"], ["--bidir"]:
        place.until(lambda words=words: measured(place, words))


def redis(place):
    text = place.client("redis-benchmark", "-h", GATEWAY, "-n", "5000", "-c", "50", "-t", "ping,set,get,lrange_100", "-q")
    need("redis answers", text.count("requests per second") >= 4, True)


def postgres(place):
    words = ["-h", GATEWAY, "-U", "postgres"]
    place.client("pgbench", "-i", "-q", *words, "postgres")
    text = place.client("pgbench", "-c", "8", "-j", "2", "-t", "100", *words, "postgres")
    need("pgbench", "800/800" in text, True)


def keep_alive(place):
    place.client(sys.executable, __file__, "--requests", GATEWAY)


def requests(host):
    """A hundred requests over one connection, small and large."""
    connection = http.client.HTTPConnection(host, 8081, timeout=60)
    for i in range(100):
        connection.request("GET", f"/{i * 977}")
        body = connection.getresponse().read()
        need(f"answer {i}", body, bytes(j % 251 for j in range(i * 977)))


def secure_copy(place):
    source, target = place.folder / "small", place.folder / "copied"
    words = ["-q", "-F", str(place.folder / "ssh_config")]
    need("ssh", place.client("ssh", *words, "host", "echo", "hello").strip(), "hello")
    place.client("scp", *words, str(source), f"host:{target}")
    need("scp there", sha256_of(target), place.digest("small"))
    place.client("scp", *words, f"host:{target}", str(place.folder / "back"))
    need("scp back", sha256_of(place.folder / "back"), place.digest("small"))


def refused(place):
    """A port at which nobody listens is refused at once, and a published one carries in."""
    began = time.monotonic()
    status = place.client_status("curl", "-s", "--max-time", "20", f"http://{GATEWAY}:9/")
    need("curl's status", status, 7)
    need("at once", time.monotonic() - began < 5, True)


def by_name(place):
    """A name is asked for at the name server that the namespace has, and leads to the gateway."""
    text = "curl -sf --max-time 60 http://files.test:8080/small | sha256sum"
    need("by name", place.client("bash", "-o", "pipefail", "-c", text).split()[0], place.digest("small"))
    need("getent of no name", place.client_status("getent", "ahostsv4", "files.nowhere"), 2)


def datagrams(place):
    before = place.counters()["datagrams"]
    place.client(sys.executable, __file__, "--datagrams", GATEWAY)
    need("datagrams that went through", place.counters()["datagrams"] - before >= 2 * len(LENGTHS) * 20, True)


LENGTHS = [0, 1, 2, 3, 500, 1471, 1472]


def asked(end, text, earlier=()):
    """The answer to a datagram, which is sent again where it or its answer is lost. What was doubled is passed over, and what was late:
    answers to earlier ones."""
    for _ in range(50):
        end.send(text)
        while select.select([end], [], [], 0.5)[0]:
            if (found := end.recv(65536)) not in earlier:
                return found
    raise AssertionError("no answer")


def send_long(host):
    """Datagrams that the namespace cuts into pieces, since they are longer than its device's MTU, come back whole."""
    for number in range(20):
        with socket.socket(socket.AF_INET, socket.SOCK_DGRAM) as end:
            end.connect((host, 8090))
            texts = [bytes((number * 7 + at * at) % 251 for at in range(length)) for length in (1473, 2953, 9000, 65507)]
            for at, text in enumerate(texts):
                need(f"a datagram of {len(text)}", asked(end, text, texts[:at]) == text, True)


def send_datagrams(host):
    """Twenty sockets; each datagram comes back as it was. And where nobody is the sender is told."""
    ends = [socket.socket(socket.AF_INET, socket.SOCK_DGRAM) for _ in range(20)]
    for number, end in enumerate(ends):
        end.connect((host, 8090))
        texts = [bytes((number + at) % 251 for at in range(length)) for length in LENGTHS]
        for at, text in enumerate(texts):
            need(f"a datagram of {len(text)}", asked(end, text, texts[:at]), text)
    nobody = socket.socket(socket.AF_INET, socket.SOCK_DGRAM)
    nobody.connect((host, 9))
    with contextlib.suppress(ConnectionRefusedError):
        asked(nobody, b"?")
        raise AssertionError("nobody answered")


def pings(place):
    """Of the gateway, and of a host behind it; where some are lost one of ten is enough, which ping's status says."""
    for host in GATEWAY, NAMESERVER, FAR:
        text = place.client("ping", "-c", "10", "-i", "0.1", "-W", "1", host)
        need(f"echoes of {host}", place.fault > 0 or " 10 received, 0% packet loss" in text, True)


def published(place):
    """From the host into the namespace; and a reset where nobody listens there."""
    with place.start_client(sys.executable, "-m", "http.server", "8000", "--directory", str(place.folder)):
        place.until(lambda: place.server_status("curl", "-sf", "-o", "/dev/null", "http://127.0.0.1:7000/small") == 0)
        text = "curl -sf --max-time 60 http://127.0.0.1:7000/small | sha256sum"
        need("carried in", place.server("bash", "-c", text).split()[0], place.digest("small"))
    status = place.server_status("curl", "-s", "--max-time", "20", "http://127.0.0.1:7001/")
    need("curl was reset, or refused", status in (7, 56), True)


def half_close(place):
    """Each side closes in turn: what comes after the first close still arrives."""
    place.client(sys.executable, __file__, "--half-close", GATEWAY)


def half_closing(host):
    with socket.create_connection((host, 8082), timeout=60) as connection:
        connection.sendall(b"x" * 100000)
        connection.shutdown(socket.SHUT_WR)
        found = b"".join(iter(lambda: connection.recv(65536), b""))
        need("echoed after the close", found, b"x" * 100000)


def killed_server(place):
    """A server that is killed in mid-transfer: its client fails and doesn't hang."""
    with place.serve_slowly() as server:
        client = place.start_client("curl", "-s", "-o", "/dev/null", "--max-time", "60", f"http://{GATEWAY}:8083/")
        time.sleep(0.5)
        server.kill()
        with client:
            need("curl failed", client.wait(20) != 0, True)


def killed_clients(place):
    """Clients that are killed in mid-transfer: nothing of them is left."""
    clients = [place.start_client("curl", "-s", "-o", "/dev/null", "--limit-rate", "100k",
                                  f"http://{GATEWAY}:8080/large") for _ in range(20)]
    place.until(lambda: place.counters()["now"] >= 20, 20)
    for client in clients:
        client.kill()
        client.wait()
    place.until(lambda: place.counters()["now"] == 0, 20)


def counted_again(place):
    """Each request for the counts is answered, however soon it comes after another."""
    for _ in range(1000):
        place.counters()


def many(place, at_once, in_turn):
    """So many connections at once and then in turn: memory, descriptors and the time of one stay level."""
    descriptors, held = place.descriptors_of_connections(), place.counters()["held"]
    place.client(sys.executable, __file__, "--many", GATEWAY, str(at_once), "0")
    need("most at once", place.counters()["most"] >= at_once, True)
    place.until(lambda: place.counters()["now"] == 0, 30)
    resident, spent = place.resident(), [place.processor_seconds()]
    for _ in range(2):
        place.client(sys.executable, __file__, "--many", GATEWAY, "0", str(in_turn // 2))
        spent.append(place.processor_seconds())
    place.until(lambda: place.counters()["now"] == 0, 30)
    need("later ones take as long", spent[2] - spent[1] <= 2 * (spent[1] - spent[0]), True)
    need("descriptors left", place.descriptors_of_connections(), descriptors)
    need("less than 16 KiB left", place.counters()["held"] < held + MIB // 64, True)
    need("resident memory grew by less than 4 MiB", place.resident() < resident + 4 * MIB, True)


def connect_many(host, at_once, in_turn):
    resource.setrlimit(resource.RLIMIT_NOFILE, (at_once + 1000,) * 2)
    ends = [socket.create_connection((host, 8082), timeout=60) for _ in range(at_once)]
    for i, end in enumerate(ends):
        end.sendall(b"%d" % i)
    for i, end in enumerate(ends):
        need(f"echo {i}", end.recv(100), b"%d" % i)
        end.close()
    for i in range(in_turn):
        with socket.create_connection((host, 8082), timeout=60) as end:
            end.sendall(b"%d" % i)
            need(f"echo in turn {i}", end.recv(100), b"%d" % i)


def stalled(place):
    """Downloads that nobody reads fill the buffers of their ends; once they are closed their memory is the system's again, whatever was
    held beside them meanwhile."""
    before = place.resident()
    for turn in range(6):
        with place.start_client(sys.executable, __file__, "--stall", GATEWAY, "1000") as client:
            place.until(lambda: place.counters()["now"] >= 1000)
            place.until(lambda: place.resident() > before + 100 * MIB)
            client.kill()
        place.until(lambda: place.counters()["now"] == 0)
    need(f"resident memory grew by less than 8 MiB, from {before >> 10} to {place.resident() >> 10} KiB", place.resident() < before + 8 * MIB, True)


def stall(host, number):
    """So many requests for the large file, of which nothing is read."""
    resource.setrlimit(resource.RLIMIT_NOFILE, (number + 100,) * 2)
    ends = []
    for _ in range(number):
        end = socket.socket()
        end.setsockopt(socket.SOL_SOCKET, socket.SO_RCVBUF, 4096)
        end.connect((host, 8080))
        end.sendall(b"GET /large HTTP/1.0\r\n\r\n")
        ends.append(end)
    time.sleep(60)


def killed_program(place):
    """The program is killed: its clients and servers are told by their kernels, or by the device that is gone."""
    client = place.start_client("curl", "-s", "-o", "/dev/null", "--max-time", "60", "--limit-rate", "100k",
                                f"http://{GATEWAY}:8080/large")
    time.sleep(0.5)
    place.program.kill()
    place.program.wait()
    place.until(lambda: "8080" not in place.server("ss", "-Htn", "state", "established"), 20)
    client.kill()
    client.wait()


def sent_to_many(place):
    """What goes to many hosts, or by broadcast, is answered by nothing."""
    before = place.counters()
    place.client(sys.executable, __file__, "--to-many", "224.0.0.251", "255.255.255.255")
    after = place.counters()
    need("answers", [after[name] - before[name] for name in ("unreachable", "strays", "flows")], [0, 0, 0])
    need("packets", after["arrived"] - before["arrived"] >= 20, True)


def send_to_many(hosts):
    for host in hosts:
        with socket.socket(socket.AF_INET, socket.SOCK_DGRAM) as end:
            end.setsockopt(socket.SOL_SOCKET, socket.SO_BROADCAST, 1)
            for _ in range(10):
                end.sendto(b"?", (host, 5353))
    time.sleep(0.2)


def flows_go(place):
    """Questions to the name server from 300 ports: their sockets are closed some ten seconds later."""
    descriptors = place.descriptors_of_connections()
    place.client(sys.executable, __file__, "--questions", NAMESERVER, "300")
    need("flows", place.counters()["flows_now"] >= 250, True)  # a port may be drawn again
    place.until(lambda: place.counters()["flows_now"] < 250, 30)
    need("descriptors", place.descriptors_of_connections(), descriptors)


def question(name):
    labels = b"".join(bytes([len(label)]) + label.encode() for label in name.split("."))
    return b"\0\1\1\0\0\1\0\0\0\0\0\0" + labels + b"\0\0\1\0\1"


def ask(host, ports):
    """From so many ports, each with its answer."""
    for _ in range(ports):
        with socket.socket(socket.AF_INET, socket.SOCK_DGRAM) as end:
            end.connect((host, 53))
            need("the address", asked(end, question("a.test"))[-4:], socket.inet_aton(GATEWAY))


def forbidden(host, port):
    """A datagram to there is answered by ICMP: the host can't be reached."""
    with socket.socket(socket.AF_INET, socket.SOCK_DGRAM) as end:
        end.connect((host, port))
        try:
            asked(end, b"?")
        except OSError as fault:
            need("the fault", fault.errno in (errno.EHOSTUNREACH, errno.EACCES), True)
        else:
            raise AssertionError("it was answered")


CLIENTS = [download, downloads_at_once, upload, git_clone, iperf, redis, postgres, keep_alive, secure_copy, refused, by_name, datagrams, pings,
           published, half_close, killed_server, killed_clients, counted_again]


if __name__ == "__main__":
    if "--requests" in sys.argv:
        requests(sys.argv[2])
    elif "--half-close" in sys.argv:
        half_closing(sys.argv[2])
    elif "--datagrams" in sys.argv:
        send_datagrams(sys.argv[2])
    elif "--long" in sys.argv:
        send_long(sys.argv[2])
    elif "--questions" in sys.argv:
        ask(sys.argv[2], int(sys.argv[3]))
    elif "--to-many" in sys.argv:
        send_to_many(sys.argv[2:])
    elif "--forbidden" in sys.argv:
        forbidden(sys.argv[2], int(sys.argv[3]))
    elif "--stall" in sys.argv:
        stall(sys.argv[2], int(sys.argv[3]))
    elif "--many" in sys.argv:
        connect_many(sys.argv[2], int(sys.argv[3]), int(sys.argv[4]))
