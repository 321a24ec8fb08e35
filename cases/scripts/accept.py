"""accept.py PORT STEP..: an exchange NYSE of the desk DESK at a port of this machine. It takes a connection for each step.
In each but `hold` and `forget` it answers the Logon, and the TestRequests behind it, until a line comes on standard input;
then it does the step:

    cut      it closes the connection
    logout   it logs out, and waits for the end
    hush     it says nothing any more, and waits for the end
    junk     it sends a frame that is no message, as it has no number, and waits for the end
    again    it uses a number again, and waits for the end
    serve    it answers TestRequests until the desk logs out, and then that; no line is wanted
    hold     it says nothing, and waits for the end
    forget   it answers the Logon, asks again for all from number 1 on, and waits for the end; no line is wanted
    late     as `serve`, but it waits for the line before it answers the Logon
    say      as `serve`, but once an order came it sends, for each line on standard input, the next line of the file $SAYS:
             the kind of a message and its fields, with | for SOH, and @S1L2 for the number of that order's message"""

import os
import re
import select
import socket
import sys
import time

SOH = b"\x01"
# Unbuffered, so that what is there of it can be waited for.
ACTS = open(0, "rb", buffering=0)


def has_act():
    return bool(select.select([ACTS], [], [], 0)[0])


class Session:
    """The exchange's end of the session, over all connections."""

    def __init__(self):
        self.number = 0
        self.orders = {}
        self.link = None
        self.unread = b""

    def take(self, link):
        self.link = link
        self.unread = b""

    def frame(self, fields):
        body = fields.replace(b"|", SOH)
        text = b"8=FIX.4.4" + SOH + b"9=%d" % len(body) + SOH + body
        self.link.sendall(text + b"10=%03d" % (sum(text) % 256) + SOH)

    def write(self, kind, fields=b"", again=False):
        self.number += 0 if again else 1
        stamp = time.strftime("%Y%m%d-%H:%M:%S", time.gmtime()).encode()
        self.frame(b"35=%s|49=NYSE|56=DESK|34=%d|52=%s|" % (kind, self.number, stamp) + fields)

    def unread_message(self):
        """The next message of those that have come, as its fields."""
        end = self.unread.find(SOH + b"10=")
        if end < 0 or SOH not in self.unread[end + 1 :]:
            return None
        cut = self.unread.index(SOH, end + 1) + 1
        message, self.unread = self.unread[:cut], self.unread[cut:]
        return dict(field.split(b"=", 1) for field in message.split(SOH)[:-1])

    def read(self):
        """The next message as its fields, or none at the end of the connection."""
        while not (message := self.unread_message()):
            try:
                more = self.link.recv(4096)
            except OSError:
                more = b""
            if not more:
                return None
            self.unread += more
        return message

    def log_on(self):
        if self.read():
            self.write(b"A", b"98=0|108=30|")

    def await_end(self):
        while self.read():
            pass

    def answer(self, message):
        if message[b"35"] == b"1":
            self.write(b"0", b"112=%s|" % message[b"112"])
        elif message[b"35"] == b"5":
            self.write(b"5")
        elif message[b"35"] == b"D":
            self.orders[message[b"11"]] = message[b"34"]

    def number_of(self, order):
        """The number of an order's message, once it came."""
        while order not in self.orders:
            self.answer(self.read())
        return self.orders[order]

    def serve(self):
        while message := self.read():
            self.answer(message)

    def serve_until_act(self):
        """Answers until a line comes on standard input, or the connection ends. What came behind that line isn't answered."""
        while not has_act():
            select.select([self.link, ACTS], [], [])
            if has_act():
                break
            message = self.read()
            if not message:
                return
            while message and not has_act():
                self.answer(message)
                message = self.unread_message()
        ACTS.readline()


def say(session):
    session.number_of(b"S1L1")
    with open(os.environ["SAYS"], "rb") as lines:
        for line in lines:
            session.serve_until_act()
            kind, fields = line.rstrip(b"\n").split(b"|", 1)
            session.write(kind, re.sub(rb"@(\w+)", lambda order: session.number_of(order[1]), fields))
    session.serve()


def play(session, step):
    if step == "hold":
        return session.await_end()
    if step == "late":
        ACTS.readline()
    session.log_on()
    if step == "forget":
        session.write(b"2", b"7=1|16=0|")
        return session.await_end()
    if step == "say":
        return say(session)
    if step in ("late", "serve"):
        return session.serve()
    session.serve_until_act()
    if step == "logout":
        session.write(b"5")
    elif step == "junk":
        session.frame(b"35=0|49=NYSE|56=DESK|")
    elif step == "again":
        session.write(b"0", again=True)
    if step != "cut":
        session.await_end()


def main():
    port, steps = int(sys.argv[1]), sys.argv[2:]
    session = Session()
    with socket.create_server(("127.0.0.1", port)) as server:
        for step in steps:
            link, _ = server.accept()
            with link:
                session.take(link)
                play(session, step)


main()
