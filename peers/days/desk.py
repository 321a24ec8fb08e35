"""A run of `dispatch run`, as a desk sees it: lines in, lines out."""

import queue
import re
import subprocess
import threading
import time
from contextlib import suppress

from days.acceptor import DESK

# How long a refused sweep waits before it is tried again, and how long the desk is left alone between two looks whether
# its venues have settled all, in seconds.
PAUSE = 0.02
LOOK = 0.25

# The folder of the message logs, from the desk's file on.
LOGS = "logs"


class Late(Exception):
    """A day has come to its deadline."""


class Ended(RuntimeError):
    """The run has ended."""

    def __init__(self):
        super().__init__("dispatch run ended while it was asked for a sweep")


def file_of(venues, port, heartbeat, words="", desk=""):
    """The desk's file, for venues that one exchange serves at a port, each with these lines besides, and the desk with
    those."""
    tables = [f'[desk]\nsender = "{DESK}"\nlog = "{LOGS}"\n{desk}']
    for venue in venues:
        tables.append(
            f'[[venue]]\nname = "{venue}"\ntarget = "{venue}"\naddress = "127.0.0.1:{port}"\nheartbeat = {heartbeat}\n{words}'
        )
    return "\n".join(tables)


class Desk:
    def __init__(self, program, folder, text, deadline, options=()):
        self.lines = []
        self._deadline = deadline
        self._heard = queue.Queue()
        self._kept = (folder / "news").open("a")
        self._errors = folder / "errors"
        file = folder / "desk.toml"
        file.write_text(text)
        command = [program, "run", file, *options]
        with self._errors.open("a") as errors:
            self._process = subprocess.Popen(
                command, stdin=subprocess.PIPE, stdout=subprocess.PIPE, stderr=errors, text=True
            )
        threading.Thread(target=self._listen, daemon=True).start()

    def _listen(self):
        for line in self._process.stdout:
            # what a kill cut off is no line
            if line.endswith("\n"):
                self._heard.put(line.rstrip("\n"))
        self._heard.put(None)

    def _next(self, seconds=None):
        """The next line; None at the end of the output, or where none comes for so many seconds."""
        left = self._deadline - time.monotonic()
        if left <= 0:
            raise Late("the day came to no end")
        try:
            line = self._heard.get(timeout=left if seconds is None else min(left, seconds))
        except queue.Empty:
            return None if seconds is not None else self._next()
        if line is None:
            self._heard.put(None)
        else:
            self.lines.append(line)
            print(line, file=self._kept, flush=True)
        return line

    def ask(self, line):
        try:
            self._process.stdin.write(line + "\n")
            self._process.stdin.flush()
        except BrokenPipeError:
            raise Ended from None

    def answer(self):
        """The answer to a sweep: other lines are news."""
        while (line := self._next()) is not None:
            if re.match("placed|refused|bad line", line):
                return line
        raise Ended

    def place(self, line):
        """Asks for a sweep until it is placed, and gives its number."""
        while True:
            self.ask(line)
            answer = self.answer()
            if placed := re.fullmatch(r"placed (\d+) shares \d+", answer):
                return int(placed[1])
            if not re.match("refused R0[45]", answer):
                raise RuntimeError(f"{answer}: {line}")
            time.sleep(PAUSE)

    def settle(self, venues):
        """Waits until each venue is up with nothing unsent or in doubt: a fence behind the last report came back."""
        while not all(self._is_settled(venue) for venue in venues):
            time.sleep(LOOK)
        while self._next(LOOK) is not None:
            pass

    def _is_settled(self, venue):
        self.ask("status")
        while (line := self._next()) is not None:
            if line.startswith(f"status venue {venue} "):
                return re.search(r" unsent 0 doubt 0 lost \d+ up$", line) is not None
        raise Ended

    def close(self):
        """Ends the day, if it hasn't ended, and gives the exit status."""
        with suppress(BrokenPipeError):
            self._process.stdin.close()
        while self._next() is not None:
            pass
        self._kept.close()
        return self._process.wait(max(1, self._deadline - time.monotonic()))

    def errors(self):
        """The lines of standard error."""
        return self._errors.read_text().splitlines()

    def kill(self):
        if self._process.poll() is None:
            self._process.kill()
            self._process.wait()
