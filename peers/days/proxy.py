"""What stands between the desk and its exchange: it delays, splits, stalls and cuts the bytes that go through."""

import socket
import threading
import time
from dataclasses import dataclass
from random import Random

MOST_READ = 4096


@dataclass(frozen=True)
class Weather:
    """How the bytes of a direction fare; the times are in seconds."""

    most_delay: float = 0.0
    # How many bytes go through together; 0 for as many as came.
    most_piece: int = 0
    stall_chance: float = 0.0
    stall: float = 0.0
    # About how many bytes go through before both directions are cut; 0 for all.
    bytes_to_cut: int = 0


CALM = Weather()


class Proxy:
    """Where a connection is cut is told by the seed, its number and the direction; when its bytes come isn't."""

    def __init__(self, port, weather=CALM, seed=0):
        self._port = port
        self._weather = weather
        self._seed = seed
        self._listener = socket.create_server(("127.0.0.1", 0))
        self.port = self._listener.getsockname()[1]
        self._lock = threading.Lock()
        self._pairs = []
        self._is_open = True
        threading.Thread(target=self._accept, daemon=True).start()

    def close(self):
        """Cuts every connection, and each new one at once, until it is opened again."""
        with self._lock:
            self._is_open = False
            pairs, self._pairs = self._pairs, []
        for pair in pairs:
            cut(pair)

    def open(self):
        with self._lock:
            self._is_open = True

    def end(self):
        self._listener.close()
        self.close()

    def _accept(self):
        number = 0
        while True:
            try:
                client, _ = self._listener.accept()
            except OSError:
                return
            number += 1
            self._join(client, number)

    def _join(self, client, number):
        """Joins a client to the exchange, where it may."""
        try:
            server = socket.create_connection(("127.0.0.1", self._port))
        except OSError:
            client.close()
            return
        pair = (client, server)
        with self._lock:
            if not self._is_open:
                cut(pair)
                return
            self._pairs.append(pair)
        for one in pair:
            one.setsockopt(socket.IPPROTO_TCP, socket.TCP_NODELAY, 1)
        for direction, (source, sink) in (("out", (client, server)), ("in", (server, client))):
            random = Random(f"{self._seed} {number} {direction}")
            threading.Thread(target=self._pump, args=(source, sink, random, pair), daemon=True).start()

    def _piece(self, random, most):
        """How many bytes go through next, of so many."""
        piece = random.randint(1, self._weather.most_piece) if self._weather.most_piece else MOST_READ
        return max(1, min(piece, int(most)))

    def _pump(self, source, sink, random, pair):
        weather = self._weather
        left = random.expovariate(1 / weather.bytes_to_cut) if weather.bytes_to_cut else float("inf")
        try:
            while left > 0 and (came := source.recv(MOST_READ)):
                while came and left > 0:
                    size = self._piece(random, min(left, len(came)))
                    time.sleep(random.uniform(0, weather.most_delay))
                    if random.random() < weather.stall_chance:
                        time.sleep(weather.stall)
                    sink.sendall(came[:size])
                    came = came[size:]
                    left -= size
        except OSError:
            pass
        cut(pair)


def cut(pair):
    """Ends a connection in both directions."""
    for one in pair:
        try:
            one.shutdown(socket.SHUT_RDWR)
        except OSError:
            pass
        one.close()
