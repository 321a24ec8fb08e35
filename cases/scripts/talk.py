"""talk.py WORDS..: a day of `dispatch run WORDS..` that is handed each line when it is time for it, so that a case waits for
what happens, and not for seconds. It prints what the day prints, and ends as the day does. The lines of standard input are
handed in, but for these:

    until PATTERN             it waits until a line that has this was printed; the second time, until two were
    soon PATTERN              the same, but it looks 160 times alone, and rests 50 ms between: eight seconds, or longer where
                              the machine is busy
    ask LINE until PATTERN    it hands the line in until an answer to it has this, and prints that answer alone
    act                       the exchange of accept.py takes its next step: $ACTS is its pipe"""

import os
import re
import subprocess
import sys
import threading
import time
from collections import Counter

# How many seconds it waits for one line. A wait in vain is printed.
MOST_SECONDS = 100
# How often it looks for what is to come soon, and how long it rests between.
LOOKS, LOOK_SECONDS = 160, 0.05
# A line that is no command, so that its answer ends those to the line before.
MARK = "talk"


class Day:
    """A day that runs, and the lines that it has printed."""

    def __init__(self, words):
        pipe = subprocess.PIPE
        # The day has the files that the case has open, and ignores the signals that the case ignores.
        given = {"close_fds": False, "restore_signals": False}
        self.run = subprocess.Popen(["dispatch", "run", *words], stdin=pipe, stdout=pipe, text=True, bufsize=1, **given)
        self.lines = []
        self.asked = None
        self.has_ended = False
        self.news = threading.Condition()
        self.reader = threading.Thread(target=self.read)
        self.reader.start()

    def read(self):
        for line in self.run.stdout:
            with self.news:
                self.take(line.rstrip("\n"))
                self.news.notify_all()
        with self.news:
            self.has_ended = True
            self.news.notify_all()

    def take(self, line):
        """Prints a line, or keeps it back where it answers what is asked."""
        if self.asked is not None and f"no command {MARK}" in line:
            self.asked.append(None)
        elif self.asked is not None and line.startswith(("status ", '{"status":')):
            self.asked.append(line)
        else:
            self.lines.append(line)
            print(line, flush=True)

    def has(self, pattern, times):
        return sum(bool(re.search(pattern, line)) for line in self.lines) >= times

    def wait(self, has_come):
        """Waits until that has come or the day has ended, and says whether it has come."""
        with self.news:
            self.news.wait_for(lambda: self.has_ended or has_come(), MOST_SECONDS)
            return has_come()

    def hand_in(self, line):
        try:
            self.run.stdin.write(line + "\n")
        except BrokenPipeError:
            pass

    def until(self, pattern, times):
        if not self.wait(lambda: self.has(pattern, times)):
            print(f"no line has {pattern}", flush=True)

    def soon(self, pattern, times):
        for _ in range(LOOKS):
            if self.has(pattern, times):
                return
            time.sleep(LOOK_SECONDS)
        print(f"no line has {pattern} so soon", flush=True)

    def ask(self, line, pattern):
        end = time.monotonic() + MOST_SECONDS
        while not self.has_ended and time.monotonic() < end:
            self.asked = []
            self.hand_in(line)
            self.hand_in(MARK)
            self.wait(lambda: None in self.asked)
            found = next((answer for answer in self.asked if answer and re.search(pattern, answer)), None)
            self.asked = None
            if found:
                return print(found, flush=True)
            time.sleep(0.02)
        return print(f"no answer to {line} has {pattern}", flush=True)

    def end(self):
        try:
            self.run.stdin.close()
        except BrokenPipeError:
            pass
        self.reader.join()
        return self.run.wait()


def main():
    day = Day(sys.argv[1:])
    waits = Counter()
    for line in map(str.rstrip, sys.stdin):
        word, _, rest = line.partition(" ")
        if word in ("until", "soon"):
            waits[rest] += 1
            (day.until if word == "until" else day.soon)(rest, waits[rest])
        elif word == "ask":
            day.ask(*rest.split(" until ", 1))
        elif line == "act":
            with open(os.environ["ACTS"], "w") as acts:
                acts.write("act\n")
        else:
            day.hand_in(line)
    sys.exit(day.end())


main()
