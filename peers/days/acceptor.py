"""The exchange of a day: the acceptor on QuickFIX, in a folder of the day's own."""

import random
import socket
import subprocess
from contextlib import suppress
from dataclasses import dataclass

DESK = "DESK"

# How long it may take to stop.
MOST_SECONDS = 60


@dataclass(frozen=True)
class Order:
    """An order that the exchange took, as it wrote it down."""

    id: str
    venue: str
    number: int
    shares: int
    is_ignored: bool
    # Microseconds since 1970.
    taken_at: int = 0


def order_of(line):
    id, venue, number, shares, taken_at, *ignored = line.split()
    return Order(id, venue, int(number), int(shares), ignored == ["ignored"], int(taken_at))


def free_port():
    """A port below those that the system takes for connections, so that none takes it while the exchange is stopped."""
    while True:
        port = random.randint(15000, 31999)
        with suppress(OSError), socket.create_server(("127.0.0.1", port)):
            return port


class Acceptor:
    def __init__(self, program, folder, venues, fill, faults):
        self.port = free_port()
        self._orders = folder / "orders"
        self._said = folder / "acceptor.log"
        options = {
            "port": self.port,
            "venues": ",".join(venues),
            "peer": DESK,
            "fill": fill,
            "orders": self._orders,
            "store": folder / "store",
            **faults,
        }
        self._command = [program, *(str(word) for name, value in options.items() for word in (f"--{name}", value))]
        self._process = None
        self.start()

    def start(self):
        """Starts it, also on the numbers of the one before, and waits until it listens."""
        with self._said.open("a") as said:
            self._process = subprocess.Popen(self._command, stdout=subprocess.PIPE, stderr=said, text=True)
        if self._process.stdout.readline() != "listening\n":
            raise RuntimeError(f"the acceptor doesn't listen: {self._said.read_text()}")

    def stop(self):
        """Stops it behind the message that it has in hand. Sessions that are logged on are sent a Logout."""
        self._process.terminate()
        self._process.wait(MOST_SECONDS)
        self._process.stdout.close()

    def kill(self):
        self._process.kill()
        self._process.wait()

    def orders(self):
        """The orders that it took, in order."""
        return [order_of(line) for line in self._orders.read_text().splitlines()]


def logs(folder, venue):
    """QuickFIX's own log of the messages of a venue, in the folder of a day."""
    return list(folder.glob(f"store/*-{venue}-*.messages.current.log"))


def frames(folder, venue, kind):
    """The frames of a kind that the exchange received or sent at a venue, by QuickFIX's own log, as fields by tag."""
    for log in logs(folder, venue):
        for line in log.read_text().splitlines():
            fields = dict(field.split("=", 1) for field in line[line.index("8=FIX") :].split("\x01") if field)
            if fields["35"] == kind:
                yield fields
