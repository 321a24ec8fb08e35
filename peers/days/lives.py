"""Days on which `dispatch run` keeps a journal, is killed at random moments, and goes on with its day."""

import re
import subprocess
import sys
import time
from contextlib import suppress
from dataclasses import dataclass
from itertools import islice
from random import Random
from signal import SIGKILL
from subprocess import TimeoutExpired
from threading import Timer

from days.acceptor import DESK, Acceptor, frames, logs
from days.compare import day_faults, execution_faults, received_faults
from days.days import FILL, HEARTBEAT, MOST_SECONDS, ROUGH, Played
from days.desk import Desk, Ended, Late, file_of
from days.logs import FINDING
from days.proxy import Proxy, Weather
from days.sweeps import sweeps_of

JOURNAL = "journal"

# How many sweeps are handed in before their answers are read, and again at the end of the day.
MOST_AT_ONCE = 4
MOST_AGAIN = 100

# All times are in seconds: from a start to a kill, between two tries of what was refused, and of a life at most, of
# which a slow machine may want more.
START = 0.3
PAUSE = 0.02
MOST_SECONDS_OF_A_LIFE = 10

# How often a life may be killed before it answered. For the others, how long it is at most from the first answers to the
# kill, and from some sweeps to the next.
EARLY_CHANCE = 0.3
PACES = ((0.1, 0), (0.5, PAUSE))

PLACED = re.compile(r"placed (\d+) shares (\d+)( again)?")
RESTORED = re.compile(r"restored sweeps (\d+) legs ")


@dataclass(frozen=True)
class LivesDay:
    name: str
    kills: int = 10
    venues: int = 3
    most_legs: int = 8
    weather: Weather | None = None
    seed: int = 1


LIVES_DAYS = (
    LivesDay("lives"),
    LivesDay("lives on a rough line", kills=5, weather=ROUGH, seed=2),
)


@dataclass
class Sweep:
    """A sweep under a reference."""

    legs: list
    line: str
    # Whether its last answer was missed.
    is_missed: bool = False
    # Its number, once it was answered.
    number: int | None = None


class Caller:
    """Hands sweeps in, and again where it missed the answer."""

    def __init__(self, venues, most_legs, seed):
        self.sweeps, self.faults = [], []
        # How many answers it missed, and how many of these sweeps were placed nevertheless.
        self.missed, self.kept = 0, 0
        self._waiting, self._answered = [], []
        self._new = sweeps_of(venues, sys.maxsize, most_legs, seed)
        self._random = Random(seed)

    def numbers(self):
        return [sweep.number for sweep in self._answered]

    def hand_in(self, desk):
        """Hands in what waits, new sweeps behind it, and one that was answered."""
        missing = self._random.randint(1, MOST_AT_ONCE) - len(self._waiting)
        for legs, line in islice(self._new, max(0, missing)):
            sweep = Sweep(legs, f"sweep ref=R{len(self.sweeps) + 1} {line.removeprefix('sweep ')}")
            self.sweeps.append(sweep)
            self._waiting.append(sweep)
        self._ask(desk, [*self._waiting, *self._random.sample(self._answered, min(1, len(self._answered)))])

    def hand_all_in(self, desk):
        """Hands in some more, what waits until it is placed, and each sweep of the day again."""
        for _ in range(MOST_AT_ONCE):
            self.hand_in(desk)
        while self._waiting:
            self._ask(desk, list(self._waiting))
            time.sleep(PAUSE)
        for first in range(0, len(self.sweeps), MOST_AGAIN):
            self._ask(desk, self.sweeps[first : first + MOST_AGAIN])

    def _ask(self, desk, sweeps):
        could_be_placed = [sweep.is_missed for sweep in sweeps]
        for sweep in sweeps:
            desk.ask(sweep.line)
            sweep.is_missed = True
            self.missed += 1
        for sweep, was_missed in zip(sweeps, could_be_placed):
            self._take(sweep, was_missed, desk.answer())
            sweep.is_missed = False
            self.missed -= 1

    def _take(self, sweep, was_missed, answer):
        """Takes an answer: a reference is placed once, and is answered with one number from then on."""
        placed = PLACED.fullmatch(answer)
        if placed is None:
            is_right = sweep.number is None and re.match("refused R0[45] ", answer)
        elif sweep.number is None:
            is_right = was_missed or not placed[3]
            sweep.number = int(placed[1])
            self.kept += bool(placed[3])
            self._waiting.remove(sweep)
            self._answered.append(sweep)
        else:
            is_right = placed[3] and sweep.number == int(placed[1])
        if not is_right or placed and int(placed[2]) != sum(leg.shares for leg in sweep.legs):
            self.faults.append(f"{answer}, for sweep {sweep.number}, {sweep.line}")


@dataclass(frozen=True)
class LivesPlayed(Played):
    """A day of several lives: its sweeps, the answers that were missed, the sweeps that were placed without an answer,
    the lives that went on with the day, and the executions of the exchange."""

    lives: int
    restored: int
    sweeps: int
    missed: int
    kept: int
    executions: int

    def __str__(self):
        return (
            f"{self.lives} lives, {self.restored} restored, {self.sweeps} sweeps, {self.missed} answers missed and "
            f"{self.kept} of these sweeps placed, {self.executions} executions, {super().__str__()}"
        )


def live(desk, caller, random):
    """A life that is killed at a random moment, of its start or of its sweeps. Gives the exit status."""
    is_early = random.random() < EARLY_CHANCE
    work, pause = random.choice(PACES)
    killer = Timer(random.uniform(0, START if is_early else work), desk.kill)
    with suppress(Ended):
        if not is_early:
            caller.hand_in(desk)
        killer.start()
        while True:
            caller.hand_in(desk)
            time.sleep(random.uniform(0, pause))
    killer.cancel()
    return desk.close()


def start_faults(number, desk, answered):
    """Whether a life began with the sweeps that were answered before it, as far as it has said anything."""
    restored = RESTORED.match(desk.lines[0]) if desk.lines else None
    if desk.lines and answered and (restored is None or int(restored[1]) < max(answered)):
        yield f"life {number} began with {desk.lines[0]}, and {max(answered)} was answered before"


def number_faults(caller):
    """Where the sweeps aren't placed under the numbers from 1 on, each under one."""
    if sorted(caller.numbers()) != list(range(1, len(caller.sweeps) + 1)):
        yield f"{len(caller.sweeps)} references have the numbers {sorted(caller.numbers())}"


def wire_faults(dispatch, folder, venues):
    """What a check finds in QuickFIX's own logs."""
    for venue in venues:
        command = [dispatch, "check", "--from", "quickfix", "--desk", DESK, *logs(folder, venue)]
        ran = subprocess.run(command, capture_output=True, text=True, timeout=MOST_SECONDS)
        if ran.returncode != 0:
            yield f"{venue}: the check of its log ended with status {ran.returncode} {ran.stderr}"
        yield from (f"{venue}: {said}" for said in ran.stdout.splitlines() if FINDING.match(said))


def journal_faults(dispatch, folder, venues):
    """Where the folder of the journal isn't whole."""
    command = [dispatch, "journal", folder / JOURNAL]
    ran = subprocess.run(command, capture_output=True, text=True, timeout=MOST_SECONDS)
    whole = re.findall(r"^journal (\S+)\nwords .*\nend whole files \d+ lines \d+$", ran.stdout, re.MULTILINE)
    if ran.returncode != 0 or whole != sorted([*venues, "desk"]):
        yield f"dispatch journal ended with status {ran.returncode} and said {ran.stdout}{ran.stderr}"


def end_faults(dispatch, folder):
    """Where the day can be started again."""
    command = [dispatch, "run", folder / "desk.toml"]
    ran = subprocess.run(command, capture_output=True, text=True, stdin=subprocess.DEVNULL, timeout=MOST_SECONDS)
    if ran.returncode != 3 or "the day ended at" not in ran.stderr:
        yield f"a start behind the end had status {ran.returncode} and said {ran.stdout}{ran.stderr}"


def play_lives(day, dispatch, acceptor_program, folder):
    """Plays a day in a folder of its own."""
    began = time.monotonic()
    most_seconds = MOST_SECONDS + MOST_SECONDS_OF_A_LIFE * day.kills
    venues = [f"V{number}" for number in range(1, day.venues + 1)]
    acceptor = Acceptor(acceptor_program, folder, venues, FILL, {"seconds": most_seconds})
    proxy = Proxy(acceptor.port, day.weather, day.seed) if day.weather else None
    text = file_of(venues, proxy.port if proxy else acceptor.port, HEARTBEAT, desk=f'journal = "{JOURNAL}"\n')
    caller, random = Caller(venues, day.most_legs, day.seed), Random(day.seed)
    restored, faults, desk = 0, [], None
    try:
        for life in range(1, day.kills + 2):
            is_last = life > day.kills
            answered = caller.numbers()
            desk = Desk(dispatch, folder, text, began + most_seconds, ["--executions"] if is_last else [])
            if is_last:
                caller.hand_all_in(desk)
                desk.settle(venues)
                status = desk.close()
            elif (ended := live(desk, caller, random)) != -SIGKILL:
                raise RuntimeError(f"life {life} ended by itself with status {ended}")
            restored += bool(desk.lines) and RESTORED.match(desk.lines[0]) is not None
            faults += start_faults(life, desk, answered)
        reports = {venue: list(frames(folder, venue, "8")) for venue in venues}
        received = [order["11"] for venue in venues for order in frames(folder, venue, "D")]
        faults += caller.faults
        faults += number_faults(caller)
        placed = {sweep.number: sweep.legs for sweep in caller.sweeps}
        faults += day_faults(placed, acceptor.orders(), FILL, status, desk.lines)
        faults += received_faults(received, acceptor.orders())
        faults += execution_faults(reports, desk.lines)
        faults += wire_faults(dispatch, folder, venues)
        faults += journal_faults(dispatch, folder, venues)
        faults += end_faults(dispatch, folder)
    except (Late, RuntimeError, OSError, TimeoutExpired) as fault:
        faults += [*caller.faults, str(fault), *(desk.errors() if desk else [])]
    finally:
        if desk:
            desk.kill()
        acceptor.kill()
        if proxy:
            proxy.end()
    made = {report["17"] for venue in venues for report in frames(folder, venue, "8")}
    return LivesPlayed(
        seconds=time.monotonic() - began,
        legs=sum(len(sweep.legs) for sweep in caller.sweeps),
        orders=len(acceptor.orders()),
        faults=faults,
        lives=day.kills + 1,
        restored=restored,
        sweeps=len(caller.sweeps),
        missed=caller.missed,
        kept=caller.kept,
        executions=len(made),
    )
