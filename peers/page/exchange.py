"""An exchange in FIX 4.4 that behaves as no good one does, for days on which a page has to show trouble."""

import re
import socket
import threading
import time

FRAME = re.compile(rb"8=FIX\.4\.4\x01.*?\x0110=\d{3}\x01", re.DOTALL)


def stamp():
    return time.strftime("%Y%m%d-%H:%M:%S.000", time.gmtime())


class Exchange(threading.Thread):
    """Takes one connection after the other, on numbers that go on. Its manner is one of these:

    - `mute`: it takes the connection, and says nothing;
    - `deaf`: it answers the Logon, and no TestRequest, so nothing is settled;
    - `wild`: of each order it fills one share, reports a fill of shares that weren't ordered, and cancels the rest;
    - `keeping`: it keeps each order, and reports nothing;
    - `parting`: it answers the Logon by a Logout with a text of its own.
    """

    def __init__(self, name, manner, port=0):
        super().__init__(daemon=True)
        self.name_49 = name
        self.manner = manner
        self.listener = socket.create_server(("127.0.0.1", port))
        self.port = self.listener.getsockname()[1]
        self.sent = 0
        self.start()

    def run(self):
        while True:
            line, _ = self.listener.accept()
            with line:
                try:
                    self.serve(line)
                except OSError:
                    pass

    def send(self, line, kind, *fields):
        self.sent += 1
        body = [(35, kind), (49, self.name_49), (56, "DESK"), (34, self.sent), (52, stamp()), *fields]
        text = "".join(f"{tag}={value}\x01" for tag, value in body)
        whole = f"8=FIX.4.4\x019={len(text)}\x01{text}"
        line.sendall(f"{whole}10={sum(whole.encode()) % 256:03}\x01".encode())

    def serve(self, line):
        """Answers the messages of a connection until it ends."""
        held = b""
        while more := line.recv(65536):
            held += more
            while found := FRAME.match(held):
                held = held[found.end() :]
                if self.manner != "mute":
                    self.hear(line, dict(re.findall(r"(\d+)=([^\x01]*)\x01", found[0].decode())))

    def hear(self, line, message):
        kind = message["35"]
        if kind == "A" and self.manner == "parting":
            self.send(line, "5", (58, "no trading before 14:30"))
        elif kind == "A":
            self.send(line, "A", (98, 0), (108, message["108"]))
        elif kind == "1" and self.manner != "deaf":
            self.send(line, "0", (112, message["112"]))
        elif kind == "5":
            self.send(line, "5")
        elif kind == "D" and self.manner == "wild":
            self.take(line, message)

    def take(self, line, order):
        """Reports on an order: a share is filled, more than were ordered are, and the rest is cancelled."""
        id, shares, price = order["11"], int(order["38"]), (31, order["44"])
        self.report(line, order, f"F{id}", "F", "1", (32, 1), price, (14, 1), (151, shares - 1))
        self.report(line, order, f"W{id}", "F", "1", (32, 2 * shares), price, (14, 1), (151, 0), (58, "late report"))
        self.report(line, order, f"C{id}", "4", "4", (14, 1), (151, 0))

    def report(self, line, order, exec_id, kind, status, *fields):
        about = [(37, f"O{order['11']}"), (11, order["11"]), (17, exec_id), (150, kind), (39, status)]
        self.send(line, "8", *about, (55, order["55"]), (54, order["54"]), *fields)
