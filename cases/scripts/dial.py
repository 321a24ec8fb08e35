"""dial.py PORT: dials an exchange at a port of this machine and sends each line of standard input as the fields of a
frame, with | for SOH. In front of the fields stands how many frames are answered, or `end` where the connection ends behind
them: for that it waits, and then until nothing has come for half a second. It prints the fields of each frame that comes,
but for its sending time (52), and `ended` where the connection ends."""

import socket
import sys
import time

# How many seconds it waits for the exchange to listen, and for an answer.
MOST_SECONDS = 100
PAUSE = 0.5


def frame(fields):
    body = fields.encode().replace(b"|", b"\x01")
    text = b"8=FIX.4.4\x019=%d\x01%s" % (len(body), body)
    return text + b"10=%03d\x01" % (sum(text) % 256)


def dialled(port):
    end = time.monotonic() + MOST_SECONDS
    while time.monotonic() < end:
        try:
            return socket.create_connection(("127.0.0.1", port))
        except ConnectionRefusedError:
            time.sleep(0.05)
    sys.exit("nobody listens")


def frames_of(came):
    """The fields of each whole frame."""
    return [text.decode().split("\x01")[1:-2] for text in came.split(b"8=FIX.4.4\x01")[1:] if b"\x0110=" in text[:-4]]


def heard(link, count):
    """What comes: so many frames at least, and what comes within a pause behind them. Says also whether the connection goes
    on."""
    came = b""
    try:
        while True:
            link.settimeout(PAUSE if len(frames_of(came)) >= count else MOST_SECONDS)
            more = link.recv(4096)
            if not more:
                return came, False
            came += more
    except socket.timeout:
        return came, True


def main():
    link = dialled(int(sys.argv[1]))
    for line in sys.stdin:
        wanted, _, fields = line.rstrip("\n").partition(" ")
        link.sendall(frame(fields))
        came, goes_on = heard(link, float("inf") if wanted == "end" else int(wanted))
        for fields in frames_of(came):
            print("|".join(field for field in fields if not field.startswith("52=")))
        if not goes_on:
            print("ended")
            return


main()
