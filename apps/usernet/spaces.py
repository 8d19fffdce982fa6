"""Which namespace gets the device: never the program's own, and one that isn't there yet is waited for. And the example of the manual page, typed
into a terminal. Each test is a function of the place."""

import contextlib
import os
import pty
import select
import subprocess
import time

import world
from world import HERE, SERVERS, need

NOBODY = ["setpriv", "--reuid=65534", "--regid=65534", "--clear-groups", "--inh-caps=-all"]
# Whoever runs these has left the namespace of the servers a second later, as where a machine has much to do.
LATE = "sleep 1; exec unshare --net sleep 60", "sleep 1; exec unshare --user --map-root-user --net sleep 60"


def devices(place):
    return place.server("ip", "-o", "link")


def started(place, words):
    return subprocess.Popen(place.words(SERVERS, [HERE / "out" / place.program_name, *words]), stdout=subprocess.DEVNULL, stderr=subprocess.PIPE, text=True)


def own_space(place):
    """The program's own namespace is refused, by whatever it is named, and gets no device."""
    before = devices(place)
    with place.start_server(contextlib.ExitStack(), "sh", "-c", "echo ready; exec sleep 60") as child:
        for program in [started(place, words) for words in (["--netns-type=path", "/proc/self/ns/net"], ["--netns", SERVERS], [child.pid])]:
            faults = program.communicate(timeout=30)[1]
            need(str(program.args), (program.returncode, "namespace that usernet runs in" in faults), (1, True))
        child.kill()
    need("devices", devices(place), before)


@contextlib.contextmanager
def with_device(place):
    """A device of the kernel that everybody may open, in the place of /dev/net/tun where commands run."""
    path = place.folder / "tun"
    if not path.exists():
        subprocess.run(["mknod", "-m", "666", path, "c", "10", "200"], check=True)
        path.chmod(0o666)
    yield ["sh", "-c", f'mount --bind {path} /dev/net/tun && exec "$@"', "sh", *NOBODY]


def late(place, words, script):
    """The program is started with a process that has its namespace a second later."""
    before = devices(place)
    with world.Child(place.words(SERVERS, [*words, "sh", "-c", script]), stdout=subprocess.DEVNULL) as child:
        # `ip netns exec` and the words before the script are gone by then.
        place.until(lambda: open(f"/proc/{child.pid}/cmdline", "rb").read().startswith(b"sh\0-c\0" + script.encode()))
        program = [*words, HERE / "out" / place.program_name, child.pid]
        with world.Child(place.words(SERVERS, program), stdout=subprocess.PIPE, text=True) as running:
            need("ready", running.stdout.readline(), "ready\n")
            inside = ["nsenter", "-t", str(child.pid), "-n", "ip", "-o", "link"]
            found = subprocess.run(inside, stdout=subprocess.PIPE, text=True, check=True).stdout
            need("the device", "tun0" in found, True)
            need("devices", devices(place), before)
            running.terminate()
            need("status", running.wait(10), 0)
        child.kill()


def late_space(place):
    """A process that leaves for a namespace of its own a second after it was named, as root, and as a user."""
    late(place, [], LATE[0])
    with with_device(place) as words:
        late(place, words, LATE[1])


def race(place):
    """Right behind `unshare`, again and again."""
    before = devices(place)
    script = 'unshare --net sleep 60 & "$0" $! & sleep 0.3; kill %2; kill %1; wait; true'
    for _ in range(20):
        place.server("bash", "-c", script, HERE / "out" / place.program_name)
        need("devices", devices(place), before)


def example():
    """What the manual page has typed first."""
    text = (HERE / "usernet.1").read_text().split(".Sh EXAMPLES\n")[1].split(".Ed\n")[0].split(".Bd -literal -offset indent\n")[1]
    return [line.removeprefix("$ ").removeprefix("# ") for line in text.replace("\\\\", "\\").splitlines()]


class Terminal:
    """A shell at a terminal, as a user has it."""

    def __init__(self, words):
        child, self.end = pty.fork()
        if child == 0:
            os.execvp(words[0], words)
        self.child, self.text = child, ""

    def read(self, seconds):
        end = time.monotonic() + seconds
        while select.select([self.end], [], [], max(0, end - time.monotonic()))[0]:
            try:
                self.text += os.read(self.end, 65536).decode(errors="replace")
            except OSError:
                return

    def type(self, line, seconds=0.5):
        self.text = ""
        os.write(self.end, line.encode() + b"\n")
        self.read(seconds)

    def until(self, word):
        """Waits until it has said so behind what was typed last."""
        end = time.monotonic() + 30
        while word not in self.text:
            if time.monotonic() > end:
                raise AssertionError(f"no {word!r} in {self.text!r}")
            self.read(0.2)


def typed(place):
    """The example of the manual page works as it is typed, as a user, by name, and where the host's name server is on its loopback; the program
    ends with the shell. Whoever has the host's port gets what the shell serves."""
    with with_device(place) as words:
        space = place.words(SERVERS, ["env", f"PATH={place.folder}/bin:{os.environ['PATH']}", "HOME=/tmp", "PS1=# ", *words, "bash", "--norc", "-i"])
        (place.folder / "bin").mkdir(exist_ok=True)
        program = place.folder / "bin/usernet"
        program.unlink(missing_ok=True)
        program.symlink_to(HERE / "out" / place.program_name)
        terminal = Terminal(space)
        for line in example():
            terminal.type(line, 1)
        terminal.type("curl -sS --max-time 20 http://files.test:8081/5 | od -An -tu1; echo status $((40 + 2))")
        terminal.until("status 42")
        need("by name", "0   1   2   3   4" in terminal.text, True)
        terminal.type("socat TCP-LISTEN:80,fork,reuseaddr SYSTEM:'echo hello' &")
        place.until(lambda: place.server("sh", "-c", "socat -u TCP:127.0.0.1:8000 - || true") == "hello\n", 20)
        running = ["pgrep", "-f", "^usernet -e 0 --publish 127.0.0.1:8000:80 "]
        need("it runs", subprocess.run(running, stdout=subprocess.DEVNULL).returncode, 0)
        terminal.type("kill %1; exit", 1)
        place.until(lambda: subprocess.run(running, stdout=subprocess.DEVNULL).returncode == 1)
        os.close(terminal.end)
        os.waitpid(terminal.child, 0)


SPACES = [own_space, late_space, race, typed]
