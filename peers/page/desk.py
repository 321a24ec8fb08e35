"""A day of `dispatch run` behind its page: sixteen venues, most of them simulated, the others in trouble of each kind.
"""

import json
import random
import re
import signal
import socket
import subprocess
import tempfile
import time
import urllib.request
from contextlib import suppress
from pathlib import Path

from exchange import Exchange

# A wait for what has to come; a slow machine needs most of it nowhere.
MOST_SECONDS = 300
NAMES = ("NYSE", "ARCA", "NSDQ", "BATS", "EDGX", "EDGA", "BATY", "BX", "PHLX", "IEX", "MEMX", "MIAX", "LTSE", "CHX",
         "AMEX", "NSX")
# The venues that aren't simulated, by how their exchange behaves: `refused` has none, and `served` is the program's.
MANNERS = {"NSDQ": "keeping", "BATS": "refused", "EDGA": "mute", "PHLX": "deaf", "MEMX": "wild", "LTSE": "parting",
           "CHX": "served"}
# Where the session can come up.
CALM = tuple(name for name in NAMES if MANNERS.get(name, "served") in ("served", "keeping", "wild"))
FILLED = tuple(name for name in NAMES if name not in MANNERS)
SYMBOLS = ("BRK.B", "F", "GE", "IBM", "KO", "MSFT", "T")
NOBODY = 1


def free_port():
    """A port below those that the system takes for connections, so that none takes it before the program does."""
    while True:
        port = random.randint(15000, 31999)
        with suppress(OSError), socket.create_server(("127.0.0.1", port)):
            return port


def leg_of(order):
    return f"{order.choice(FILLED)} {order.choice(SYMBOLS)} {order.choice(('buy', 'sell'))} " \
           f"{order.choice((40, 60, 100, 200))} {order.choice(('10.25', '187.5', '412.25'))}"


def lines_of(count, seed=1):
    """So many sweeps of one to three legs, the sweep N under the reference R-N."""
    order = random.Random(seed)
    for number in range(1, count + 1):
        legs = " + ".join(leg_of(order) for _ in range(order.choice((1, 1, 1, 2, 3))))
        yield f"sweep ref=R-{number} {legs}"


# Lines that go in at once: so many legs find room at each venue.
AT_ONCE = 100


class Desk:
    """A desk that can be stopped, killed and started again on its port."""

    def __init__(self, program):
        self.program = program
        self.room = tempfile.TemporaryDirectory(prefix="page_desk.")
        self.port = free_port()
        self.base = f"http://127.0.0.1:{self.port}"
        self.served = None
        self.process = None
        self.file = Path(self.room.name) / "desk.toml"
        self.out = Path(self.room.name) / "out"
        self.file.write_text(self.text())
        self.start()

    def text(self):
        tables = [f'[desk]\nsender = "DESK"\npage = "127.0.0.1:{self.port}"\n']
        for name in NAMES:
            address = self.address(name, MANNERS.get(name))
            fill = "fill = 60\n" if address == "simulated" else ""
            tables.append(f'[[venue]]\nname = "{name}"\naddress = "{address}"\ntarget = "{name}"\n{fill}')
        return "\n".join(tables)

    def address(self, name, manner):
        if manner is None:
            return "simulated"
        if manner == "served":
            port = free_port()
            words = ["exchange", "--port", str(port), "--sender", name, "--target", "DESK", "--fill", "60"]
            self.served = subprocess.Popen([self.program, *words], stdout=subprocess.DEVNULL)
            return f"127.0.0.1:{port}"
        return f"127.0.0.1:{NOBODY if manner == 'refused' else Exchange(name, manner).port}"

    def start(self):
        """Begins a new day, and waits until the venues that can be up are."""
        words = [self.program, "run", "--quiet", "--patience", "2", str(self.file)]
        with self.out.open("wb") as out:
            self.process = subprocess.Popen(words, stdin=subprocess.PIPE, stdout=out)
        self.until(self.are_up, "its venues are up")

    def ask(self, path):
        with urllib.request.urlopen(self.base + path, timeout=MOST_SECONDS) as answer:
            return json.load(answer)

    def until(self, is_so, what):
        end = time.monotonic() + MOST_SECONDS
        while time.monotonic() < end:
            with suppress(OSError, ValueError):
                if is_so():
                    return
            time.sleep(0.02)
        raise TimeoutError(f"not within {MOST_SECONDS} s: {what}")

    def are_up(self):
        venues = {venue["venue"]: venue for venue in self.ask("/api/venues")["venues"]}
        names = [name for name in CALM if name != self.dropped or self.served.poll() is None]
        return all(venues[name]["state"] == "up" and venues[name]["doubt"] == 0 for name in names)

    def place(self, *lines):
        """Hands in sweeps by lines, and waits until each is placed and sent."""
        for begin in range(0, len(lines), AT_ONCE):
            some = lines[begin : begin + AT_ONCE]
            wanted = self.placed() + len(some)
            self.process.stdin.write("".join(f"{line}\n" for line in some).encode())
            self.process.stdin.flush()
            self.until(lambda: self.placed() == wanted and self.unsent() == 0, f"{len(some)} sweeps are placed")

    def placed(self):
        """How many sweeps were placed."""
        with urllib.request.urlopen(f"{self.base}/metrics", timeout=MOST_SECONDS) as answer:
            return int(re.search(r"^dispatch_sweeps_placed_total (\d+)$", answer.read().decode(), re.MULTILINE)[1])

    def unsent(self):
        return sum(venue["unsent"] for venue in self.ask("/api/venues")["venues"])

    def stop(self):
        self.process.send_signal(signal.SIGSTOP)

    def go_on(self):
        self.process.send_signal(signal.SIGCONT)

    @property
    def dropped(self):
        """The venue whose exchange is a program of its own, which can be ended."""
        return next(name for name, manner in MANNERS.items() if manner == "served")

    def drop(self):
        self.served.kill()

    def kill(self):
        self.process.kill()
        self.process.wait()

    def ended(self):
        """The exit status of a day that was closed, and the last line that it printed."""
        status = self.process.wait(timeout=MOST_SECONDS)
        return status, (self.out.read_text().splitlines() or [""])[-1]

    def close(self):
        self.kill()
        self.served.kill()
        self.served.wait()
        self.room.cleanup()
