"""Counts of a desk that runs, over sweeps that are dealt with one by one: its system calls, by perf or strace, and its
instructions in user mode, by callgrind. What it does by the clock meanwhile is counted too."""

import os
import shutil
import signal
import subprocess
import time
from contextlib import suppress
from pathlib import Path

# How many legs are counted at once, and how often.
LEGS, TRIES = 768, 3
# For how many seconds a desk that has taken many sweeps at once goes on to tell of them, at least.
SETTLES = 3
# Who may read it may count system calls by perf.
TRACEPOINT = "/sys/kernel/tracing/events/raw_syscalls/sys_enter/id"


def callgrind(folder):
    """What a desk is started under so that its instructions can be counted; until then it runs without being counted."""
    return ["valgrind", "-q", "--tool=callgrind", "--instr-atstart=no", f"--callgrind-out-file={folder}/counted"]


def missing():
    """The packages of Debian that are wanted before anything can be counted."""
    return [package for package, programs in [("valgrind", ["valgrind"]), ("strace", ["perf", "strace"])]
            if not any(map(shutil.which, programs))]


def after(desk, gone, count):
    """A count for each leg after so many sweeps of the day: the middle one of several."""
    desk.feed(gone - desk.placed, 0, 1)
    time.sleep(SETTLES)
    desk.wait_until_quiet()
    return sorted(count(desk) for _ in range(TRIES))[TRIES // 2]


def calls(desk):
    """The system calls of a desk for each of some legs."""
    pid, file = str(desk.run.pid), f"{desk.folder}/calls"
    if os.access(TRACEPOINT, os.R_OK) and shutil.which("perf"):
        command = ["perf", "stat", "-x,", "-e", "raw_syscalls:sys_enter", "-p", pid, "-o", file]
        counts = has_events
    else:
        command = ["strace", "-c", "-f", "-U", "calls,name", "-p", pid, "-o", file]
        counts = traces
    counter = subprocess.Popen(command, stderr=subprocess.DEVNULL)
    while counter.poll() is None and not counts(counter.pid, desk.run.pid):
        time.sleep(0.05)
    time.sleep(0.5)
    desk.feed_one_by_one(LEGS // desk.venues)
    counter.send_signal(signal.SIGINT)
    counter.wait()
    # perf writes one line, and strace's last is the total.
    return int(Path(file).read_text().split("\n")[-2].replace(",", " ").split()[0]) / LEGS


def has_events(perf, pid):
    """Whether perf has an event open for each thread of a process at least."""
    with suppress(OSError):
        events = sum("perf_event" in os.readlink(file) for file in Path(f"/proc/{perf}/fd").iterdir())
        return events >= len(os.listdir(f"/proc/{pid}/task"))
    return False


def traces(strace, pid):
    """Whether strace is attached to each thread of a process."""
    with suppress(OSError):
        return all(f"\nTracerPid:\t{strace}\n" in path.read_text()
                   for path in Path(f"/proc/{pid}/task").glob("*/status"))
    return False


def instructions(desk):
    """The instructions in user mode of a desk under callgrind, for each of some legs."""
    for file in desk.folder.glob("counted*"):
        file.unlink()
    control(desk, "--instr=on")
    control(desk, "--zero")
    desk.feed_one_by_one(LEGS // desk.venues)
    control(desk, "--dump")
    control(desk, "--instr=off")
    (file,) = desk.folder.glob("counted.*")
    (total,) = [line for line in open(file) if line.startswith("summary: ")]
    return int(total.split()[1]) / LEGS


def control(desk, word):
    subprocess.run(["callgrind_control", word, str(desk.run.pid)], check=True, capture_output=True)
