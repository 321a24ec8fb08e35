"""What `dispatch check` says of the logs that a day left."""

import re
import subprocess

from days.desk import LOGS

MOST_SECONDS = 600

# What a check says of a line that breaks a rule.
FINDING = re.compile(r"line \d+ [a-z-]+: ")

# What a run and a check say of a sweep. A run says behind it what was paid.
SWEEP = re.compile(r"sweep \d+ legs .* open \d+")


def log_faults(dispatch, folder, venues, dialect="plain"):
    """Where a log is missing, can't be read, shows a rule broken, by the session or by the exchange, or isn't what the
    session writes in this dialect."""
    for venue in venues:
        command = [dispatch, "check", "--exact", dialect, folder / LOGS / f"{venue}.log"]
        ran = subprocess.run(command, capture_output=True, text=True, timeout=MOST_SECONDS)
        if ran.returncode not in (0, 8):
            yield f"{venue}: {ran.stderr or ran.returncode}"
        for said in ran.stdout.splitlines():
            if FINDING.match(said):
                yield f"{venue}: {said}"


def has_logged_out(log):
    """Whether the last message that the session sent is a Logout."""
    sent = [line for line in log.read_text().splitlines() if line[21:24] == " > "]
    return bool(sent) and "|35=5|" in sent[-1]


def sweeps_in(lines):
    """What these lines say of sweeps, without what was paid."""
    return [found[0] for found in map(SWEEP.match, lines) if found]


def unless_unsent(said):
    """What is said of a sweep, with its withdrawn and its open shares as one: where a session never logged out, no log
    shows that the desk withdrew what was never sent."""
    *head, withdrawn, _, still_open = said.split()
    return [*head, int(withdrawn) + int(still_open)]


def truth_faults(dispatch, folder, venues, lines, count):
    """Where a check of the whole day says otherwise of one of so many sweeps than the run did at its end, in these lines."""
    logs = [folder / LOGS / f"{name}.log" for name in (*venues, "sweeps")]
    ran = subprocess.run([dispatch, "check", *logs], capture_output=True, text=True, timeout=MOST_SECONDS)
    by_check = sweeps_in(ran.stdout.splitlines())
    by_run = sweeps_in(lines)[-count:]
    if len(by_check) != count:
        yield f"the check of the day tells {len(by_check)} sweeps of {count}: {ran.stderr}"
    told = str if all(has_logged_out(log) for log in logs[:-1]) else unless_unsent
    for run, check in zip(by_run, by_check):
        if told(run) != told(check):
            yield f"the run says {run}, its logs {check}"
