#!/usr/bin/env python3
"""Submits sweeps over a socket, with nothing but Python's standard library: docs/run.md, "Lines over sockets".

    examples/lines.py [--name WORD] [--token WORD] 127.0.0.1:8081 < examples/morning.sweeps
    examples/lines.py [--name WORD] [--token WORD] desk.sock < examples/morning.sweeps

Each sweep gets a reference, as `WORD-17`, unless its line has one. After a lost connection the same line is sent again:
the desk answers it as the first time, and places it once. A desk that is started again knows it only if it keeps a
journal; one without would place it twice. The answers are printed in the order of the lines.
"""
import argparse
import socket
import sys
import time
import uuid


class Over(Exception):
    """No line is answered any more."""


class Desk:
    def __init__(self, address, token):
        self.address = address
        self.token = token
        self.stream = None

    def connect(self):
        """A connection on which the desk knows us."""
        host, _, port = self.address.rpartition(":")
        if port.isdigit():
            self.stream = socket.create_connection((host, int(port)), timeout=30)
            self.stream.setsockopt(socket.IPPROTO_TCP, socket.TCP_NODELAY, 1)
        else:
            self.stream = socket.socket(socket.AF_UNIX)
            self.stream.settimeout(30)
            self.stream.connect(self.address)
        self.answers = self.stream.makefile("rb")
        if self.token:
            said = self.exchange(f"token {self.token}")
            if said.startswith("refused"):
                raise Over(said)
            if not said.startswith("ok "):
                raise OSError(said)

    def exchange(self, line):
        """What one line is answered on this connection."""
        self.stream.sendall(line.encode() + b"\n")
        said = self.answers.readline()
        if not said.endswith(b"\n"):
            raise OSError("the connection is lost")
        return said.decode().rstrip("\n")

    def ask(self, line):
        """What one line is answered, on a new connection if the old one is lost."""
        while True:
            try:
                if self.stream is None:
                    self.connect()
                said = self.exchange(line)
                if not said.startswith(("full: ", "day ")):
                    return said
                if said.startswith("day "):
                    raise Over(said)
            except OSError:
                pass
            self.close()
            time.sleep(0.1)

    def close(self):
        if self.stream is not None:
            self.stream.close()
            self.stream = None


def under(line, reference):
    """A sweep's line with a reference."""
    words = line.split()
    if len(words) > 1 and words[1].startswith("ref="):
        return line
    return " ".join(["sweep", f"ref={reference}", *words[1:]])


def main():
    words = argparse.ArgumentParser(description=__doc__, formatter_class=argparse.RawDescriptionHelpFormatter)
    words.add_argument("address")
    words.add_argument("--name", default=uuid.uuid4().hex[:12])
    words.add_argument("--token")
    asked = words.parse_args()
    desk = Desk(asked.address, asked.token)
    sweeps = (line.strip() for line in sys.stdin if line.startswith("sweep "))
    try:
        for number, line in enumerate(sweeps):
            print(desk.ask(under(line, f"{asked.name}-{number}")), flush=True)
    except Over as over:
        sys.exit(str(over))
    finally:
        desk.close()


main()
