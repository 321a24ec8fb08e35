#!/usr/bin/env python3
"""Plays a text of events, as break.play, on a core in this process, and prints it with what the core says. Where all is
as wanted, that is the text itself.

    play.py LIBRARY TEXT
"""
import ctypes
import socket
import sys
import threading

MOST_IN_PACKET = 65536


class Core:
    """A core of a day of these venues, on a thread of its own."""

    def __init__(self, library, setup):
        self.library = ctypes.CDLL(library)
        self.library.dispatch_run.argtypes = [ctypes.c_char_p, ctypes.c_size_t, ctypes.c_int32]
        self.library.dispatch_run.restype = ctypes.c_uint32
        self.host, end = socket.socketpair(socket.AF_UNIX, socket.SOCK_SEQPACKET)
        self.ended = None
        # The core owns its end, and closes it.
        self.thread = threading.Thread(target=self.run, args=(setup, end.detach()))
        self.thread.start()

    def run(self, setup, end):
        self.ended = self.library.dispatch_run(setup, len(setup), end)

    def tell(self, event):
        """The answer to an event: for each thing that is said a venue and its frame, or no venue and a line."""
        self.host.send(event)
        said = []
        while True:
            packet = self.host.recv(MOST_IN_PACKET)
            if not packet:
                raise EOFError("the core has ended")
            while packet:
                line, _, packet = packet.partition(b"\n")
                if line == b"done":
                    return said
                if line.startswith(b"write "):
                    _, venue, length = line.split()
                    said.append((venue.decode(), packet[:int(length)]))
                    packet = packet[int(length) + 1:]
                else:
                    said.append((None, line))

    def close(self):
        """Ends the core, and says how it ended."""
        self.host.close()
        self.thread.join()
        return self.ended


def frame_of(fields):
    """The frame of these fields, with `|` for SOH."""
    body = fields.replace("|", "\x01").encode()
    frame = b"8=FIX.4.4\x019=%d\x01%s" % (len(body), body)
    return frame + b"10=%03d\x01" % (sum(frame) % 256)


def fields_of(frame):
    """The fields of a frame between BodyLength (9) and CheckSum (10)."""
    return frame.split(b"\x01", 2)[2][:-7].decode().replace("\x01", "|")


def main(library, text):
    setup = b""
    core = None
    at = ""
    for line in open(text, encoding="ascii").read().splitlines():
        if line[:1] in (">", "="):
            continue
        print(line)
        if line.startswith("venue "):
            setup += line[6:].encode() + b"\n"
        elif line.startswith("at "):
            at = line[3:]
        elif line[:1] in ("!", "<"):
            core = core or Core(library, setup)
            if line[0] == "!":
                event = f"{at} {line[2:]}".encode()
            else:
                _, venue, fields = line.split(" ", 2)
                event = f"{at} received {venue}\n".encode() + frame_of(fields)
            for venue, said in core.tell(event):
                print(f"> {venue} {fields_of(said)}" if venue else f"= {said.decode()}")
    return core.close() if core else 0


if __name__ == "__main__":
    sys.exit(main(*sys.argv[1:]))
