"""What the benches of `dispatch run` share whose exchanges are processes of their own: ports, the desk's file, and a desk
that runs, with what hands sweeps in at its doors."""

import gzip
import os
import queue
import socket
import subprocess
import sys
import threading
import time
from contextlib import contextmanager, suppress
from pathlib import Path

ROOT = Path(__file__).resolve().parents[1]
PEERS = ROOT / "bench" / "wire_peer"
QUICKFIX = Path("/usr/include/quickfix/Session.h")
# How long a day may take to end, in seconds: late in a long one it tells each sweep.
MOST_END = 600


class Doubt(Exception):
    """A run whose figures would say nothing."""


def free_ports(count):
    """The first of so many free ports behind one another. Benches that run side by side look from places of their own."""
    for port in range(21000 + os.getpid() % 100 * 100, 60000, 100):
        try:
            for place in range(count):
                with socket.create_server(("127.0.0.1", port + place)):
                    pass
            return port
        except OSError:
            continue
    sys.exit(f"{sys.argv[0]}: no ports")


def day_file(folder, port, venues, page=None):
    """Writes a desk's file with so many venues at the ports from this one on, with a page at a port, if one is given.
    JOURNAL in the environment, `process` or `power`, has the day keep a journal that outlives this."""
    file = Path(folder) / "desk.toml"
    durable = os.environ.get("JOURNAL")
    journal = f'journal = "days{time.time_ns()}"\ndurable = "{durable}"\n' if durable else ""
    file.write_text('[desk]\nsender = "DESK"\n' + journal + (f'page = "127.0.0.1:{page}"\n' if page else "") + "".join(
        f'\n[[venue]]\nname = "V{venue}"\naddress = "127.0.0.1:{port + venue}"\ntarget = "V{venue}"\n'
        for venue in range(venues)))
    return str(file)


def build(folder, *names):
    """Builds programs of `bench/wire_peer` into a folder, and the desk on QuickFIX, `lines`."""
    for name in names:
        if name == "lines":
            command = ["make", "-s", "-C", ROOT / "peers" / "quickfix", f"OUT={folder}", f"{folder}/lines"]
        else:
            command = ["cc", "-O2", "-D_GNU_SOURCE", "-pthread", "-o", f"{folder}/{name}", PEERS / f"{name}.c"]
        subprocess.run(command, check=True)


def shipped(folder):
    """The shipped program, unpacked into a folder."""
    program = Path(folder) / "dispatch"
    program.write_bytes(gzip.decompress((ROOT / "shipped/dispatch.gz").read_bytes()))
    program.chmod(0o755)
    return str(program)


def ask(port, path):
    """Asks a page for something, on a connection of its own."""
    with socket.create_connection(("127.0.0.1", port)) as it:
        it.sendall(f"GET {path} HTTP/1.1\r\nHost: 127.0.0.1:{port}\r\nConnection: close\r\n\r\n".encode())
        while it.recv(65536):
            pass


@contextmanager
def open_page(port, looks=("/api/venues", "/api/sweeps?after=0")):
    """Does what an open page does, in a thread of its own, where there is a port: it asks for the page, follows the events,
    and looks at some things every two seconds, on connections of their own."""
    stop = threading.Event()

    def look():
        with socket.create_connection(("127.0.0.1", port)) as events:
            events.sendall(f"GET /api/events HTTP/1.1\r\nHost: 127.0.0.1:{port}\r\n\r\n".encode())
            while not stop.wait(2):
                with suppress(BlockingIOError):
                    events.recv(65536, socket.MSG_DONTWAIT)
                for path in looks:
                    ask(port, path)

    follower = threading.Thread(target=look)
    if port:
        ask(port, "/")
        follower.start()
    try:
        yield
    finally:
        stop.set()
        if port:
            follower.join()


def sweep_line(venues):
    """A line for a sweep with a leg for each venue."""
    return ("sweep " + " + ".join(f"V{venue} IBM buy 10 10" for venue in range(venues)) + "\n").encode()


class Lines(threading.Thread):
    """Reads lines as they come, in a thread of its own, and notes when each was there, in nanoseconds of the monotonic
    clock."""

    def __init__(self, file):
        super().__init__(daemon=True)
        self.file, self.lines, self.last = file, queue.SimpleQueue(), b""
        self.start()

    def run(self):
        for self.last in self.file:
            self.lines.put((time.monotonic_ns(), self.last))

    def wait_for(self, beginning):
        """Waits for the next line with this beginning, and gives when it was there."""
        with suppress(queue.Empty):
            while True:
                at, line = self.lines.get(timeout=60)
                if line.startswith(beginning):
                    return at
        raise Doubt(f"no line {beginning.decode()}")

    def rest(self):
        """The last line, once there is no more."""
        self.join(MOST_END)
        return self.last


class Desk:
    """A desk that runs on an engine (`raw`, `QuickFIX`, `threaded`, or the path of `dispatch`), before exchanges outside
    that give each order three reports; the raw sender reads none, and gets none. Orders of sweeps before the number
    `first` are counted, and not written down. `under` is what the engine runs under. `dispatch` tells news on its standard
    output unless it is quiet."""

    def __init__(self, engine, folder, venues, sweeps=0, first=0, is_served=False, under=(), is_quiet=True):
        self.engine, self.folder, self.venues, self.placed, self.came = engine, Path(folder), venues, 0, {}
        port = free_ports(venues + 1)
        self.page = port + venues
        page = [self.page] if is_served else []
        reports = 0 if engine == "raw" else 3
        self.sink = self.start("sink", port, venues, self.folder / "came", reports, first, stderr=None)
        self.sink.stdout.readline()
        if engine == "raw":
            self.run = self.start("raw", port, venues, sweeps, *page)
        elif engine in ("QuickFIX", "threaded"):
            words = ["--port", port, "--venues", venues, "--threaded", "yes" if engine == "threaded" else "no"]
            self.run = self.start("lines", *words, under=under)
        else:
            words = ["run", *(["--quiet"] if is_quiet else []), day_file(folder, port, venues, *page)]
            self.run = self.start(engine, *words, under=under)
        try:
            self.wait_until_up()
        except Doubt:
            self.stop()
            raise

    def start(self, program, *words, under=(), stderr=subprocess.PIPE):
        # A path of its own stays, behind the folder.
        command = list(map(str, [*under, self.folder / program, *words]))
        return subprocess.Popen(command, stdin=subprocess.PIPE, stdout=subprocess.PIPE, stderr=stderr, bufsize=0)

    def is_dispatch(self):
        return self.engine not in ("raw", "QuickFIX", "threaded")

    def wait_until_up(self):
        for _ in range(1000):
            if self.is_dispatch():
                self.run.stdin.write(b"status\n")
                said = [self.run.stdout.readline() for _ in range(self.venues)]
            else:
                said = [self.run.stderr.readline()]
            if all(line.endswith(b"up\n") for line in said):
                return
            time.sleep(0.1)
        raise Doubt(f"{self.engine}: its venues aren't up: {said}")

    def hand_in(self, *command):
        """Runs what hands sweeps in, and gives what it says of each of its parts, as names and numbers."""
        ran = subprocess.run(list(map(str, command)), stdin=self.run.stdout, stdout=self.run.stdin, stderr=subprocess.PIPE,
                             text=True)
        if ran.returncode:
            raise Doubt(f"{self.engine}: {ran.stderr}")
        said = {}
        for line in ran.stderr.splitlines():
            words = line.split()
            said[words[0]] = dict(zip(words[::2], map(float, words[1::2])))
        self.placed += sum(int(part.get("placed", part.get("before"))) for part in said.values())
        return said

    def feed(self, before, sweeps, pause):
        """Hands in lines: some as fast as they are taken, and then some at a beat, in microseconds."""
        return self.hand_in(self.folder / "feed", self.venues, before, sweeps, pause, self.folder / "sent")

    def feed_one_by_one(self, sweeps):
        """Hands in lines, each once all that the one before led to is done, however busy the machine is."""
        for _ in range(sweeps):
            self.run.stdin.write(sweep_line(self.venues))
            if not self.run.stdout.readline().startswith(b"placed "):
                raise Doubt(f"{self.engine}: a sweep isn't placed")
            self.wait_until_quiet()
        self.placed += sweeps

    def wait_until_quiet(self):
        """Waits until each thread of the desk and of the exchanges waits, at each of several looks."""
        seen = 0
        while seen < 3:
            time.sleep(0.0005)
            states = [path.read_text().rsplit(")", 1)[1].split()[0] for pid in (self.run.pid, self.sink.pid)
                      for path in Path(f"/proc/{pid}/task").glob("*/stat")]
            seen = seen + 1 if set(states) == {"S"} else 0

    def ask(self, sweeps, clients, pause):
        """Hands in sweeps over HTTP, by so many clients, each at a beat."""
        return self.hand_in(self.folder / "ask", self.page, self.venues, sweeps, clients, pause, self.folder / "sent")["beat"]

    def end(self, lines=None):
        """Ends the day: it ended well, and each order has come. When the last one came is left in `last`. What reads the
        lines of its standard output, if something does, is given."""
        time.sleep(0.5)
        self.run.stdin.close()
        said, faults = lines.rest() if lines else self.run.stdout.read(), self.run.stderr.read()
        status = self.run.wait(MOST_END)
        words = self.sink.communicate(timeout=MOST_END)[0].split()
        if status or self.sink.returncode or (self.is_dispatch() and not said.endswith(b"audit ok\n")):
            raise Doubt(f"{self.engine}: status {status}, {said[-80:]}, {faults[-200:]}")
        orders, self.last = int(words[1]), int(words[3])
        if orders != self.placed * self.venues:
            raise Doubt(f"{self.engine}: {orders} orders of {self.placed} sweeps")

    def arrivals(self, sweep):
        """When each order of a sweep came, in nanoseconds of the monotonic clock; the day has ended."""
        if not self.came:
            self.came = {order: int(at) for order, at in map(str.split, open(self.folder / "came"))}
        return [self.came[f"S{sweep}L{leg}"] for leg in range(1, self.venues + 1)]

    def times(self):
        """For each sweep of the last beat that was placed, when it was handed in, and when each of its orders came, in
        nanoseconds of the monotonic clock; the day has ended."""
        sent = [line.split() for line in open(self.folder / "sent")]
        return [(int(at), self.arrivals(number)) for number, at in sent]

    def threads(self, file, key):
        """The sum of a figure over the threads that run now: of what stands behind a word in a file of /proc."""
        found = 0
        for path in Path(f"/proc/{self.run.pid}/task").glob(f"*/{file}"):
            words = path.read_text().split()
            found += int(words[words.index(key) + 1] if key else words[0])
        return found

    def processor_ns(self):
        return self.threads("schedstat", None)

    def wakes(self):
        """How often its threads waited, and so were woken."""
        return self.threads("status", "voluntary_ctxt_switches:")

    def stop(self):
        """Ends what runs still, where a doubt came up."""
        for it in (self.run, self.sink):
            it.kill()
            it.wait()
