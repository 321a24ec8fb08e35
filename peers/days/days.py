"""Days of `dispatch run` against an exchange on QuickFIX, each with something that goes wrong."""

import time
from dataclasses import dataclass, field
from random import Random
from subprocess import TimeoutExpired

from days.acceptor import Acceptor
from days.compare import day_faults
from days.desk import Desk, Late, file_of
from days.logs import log_faults, truth_faults
from days.proxy import Proxy, Weather
from days.sweeps import sweeps_of, wide_sweeps_of

# How many shares of an order the exchange trades at most.
FILL = 6

# All times are in seconds: of a day at most, of which a slow machine may want more; of a heartbeat interval; and of the
# quiet before a stop.
MOST_SECONDS = 600
HEARTBEAT = 2
SETTLING = 0.3

ROUGH = Weather(most_delay=0.003, most_piece=400, stall_chance=0.002, stall=0.6, bytes_to_cut=12_000)


@dataclass(frozen=True)
class Day:
    name: str
    venues: int = 3
    sweeps: int = 150
    most_legs: int = 8
    # Whether each sweep has one leg for each venue.
    is_wide: bool = False
    # What the exchange does wrong: options of the acceptor.
    faults: dict = field(default_factory=dict)
    # What stands between the two, if anything does.
    weather: Weather | None = None
    # How often the exchange is stopped and started again.
    stops: int = 0
    # Whether it logs out as it is stopped, which venues with `reopen` outlive.
    logs_out: bool = False
    seed: int = 1


DAYS = (
    Day("plain"),
    Day("connections are dropped", faults={"drop-every": 7}),
    Day("connections are dropped all the time", sweeps=40, faults={"drop-every": 3}),
    Day("orders are ignored", faults={"ignore-every": 5}),
    Day("it tests the dispatcher", faults={"test-every": 3}),
    Day("sixteen venues", venues=16, sweeps=60, is_wide=True),
    Day("it is stopped and started again", weather=Weather(most_delay=0.005), stops=4),
    Day("it logs out, and is started again", stops=3, logs_out=True),
    Day("sixteen venues log out, and are started again", venues=16, sweeps=40, is_wide=True, stops=2, logs_out=True),
    Day("bytes come late and in pieces", weather=Weather(most_delay=0.004, most_piece=60), sweeps=60),
    Day("bytes stall", weather=Weather(stall_chance=0.02, stall=1.2), sweeps=60),
    Day("the line is rough", weather=ROUGH, seed=2),
    Day("the line is rough once more", weather=ROUGH, seed=3),
    Day("sixteen venues on a rough line", venues=16, sweeps=40, is_wide=True, weather=ROUGH, seed=4),
    Day(
        "all of it at once",
        weather=ROUGH,
        faults={"drop-every": 11, "ignore-every": 7, "test-every": 5},
        stops=3,
        seed=5,
    ),
)


def random_day(seed):
    """A day with things that go wrong, all of it by a seed."""
    random = Random(seed)
    venues = random.choice((1, 2, 3, 5, 8, 16))
    faults = {
        name: random.randint(least, 15)
        for name, least in (("drop-every", 5), ("ignore-every", 3), ("test-every", 3))
        if random.random() < 0.4
    }
    weather = Weather(
        most_delay=random.choice((0, 0.002, 0.005)),
        most_piece=random.choice((0, 0, 60, 400)),
        stall_chance=random.choice((0, 0, 0.002)),
        stall=0.6,
        bytes_to_cut=random.choice((0, 0, 8_000, 20_000)),
    )
    stops = random.choice((0, 0, 0, 1, 3))
    return Day(
        f"random {seed}",
        venues=venues,
        sweeps=random.randint(20, 80),
        most_legs=random.randint(1, 12),
        is_wide=random.random() < 0.3,
        faults=faults,
        weather=weather if stops or random.random() < 0.7 else None,
        stops=stops,
        seed=seed,
    )


@dataclass(frozen=True)
class Played:
    """A day that was played: how long it took, what was accepted of what was placed, and what was wrong."""

    seconds: float
    legs: int
    orders: int
    faults: list

    def __str__(self):
        return f"{self.orders} of {self.legs} legs accepted, {self.seconds:.1f} s"


def sweeps(day, venues):
    if day.is_wide:
        return list(wide_sweeps_of(venues, day.sweeps, day.seed))
    return list(sweeps_of(venues, day.sweeps, day.most_legs, day.seed))


def start_again(acceptor, proxy):
    """Stops the exchange while its connections are cut, so that it sends no Logout, and starts it on the same numbers.
    What was on its way is lost. Without a proxy it logs out."""
    if proxy:
        proxy.close()
        time.sleep(SETTLING)
    acceptor.stop()
    acceptor.start()
    if proxy:
        proxy.open()


def place_all(day, desk, venues, acceptor, proxy, placed):
    """Asks for the sweeps of a day, and keeps the legs of each that is placed by its number."""
    between_stops = day.sweeps // (day.stops + 1)
    for count, (legs, line) in enumerate(sweeps(day, venues)):
        if day.stops and count and count % between_stops == 0:
            start_again(acceptor, proxy)
        placed[desk.place(line)] = legs


def play(day, dispatch, acceptor_program, folder):
    """Plays a day in a folder of its own."""
    began = time.monotonic()
    venues = [f"V{number}" for number in range(1, day.venues + 1)]
    acceptor = Acceptor(acceptor_program, folder, venues, FILL, day.faults)
    proxy = Proxy(acceptor.port, day.weather, day.seed) if day.weather else None
    words = "reopen = true\n" if day.logs_out else ""
    text = file_of(venues, proxy.port if proxy else acceptor.port, HEARTBEAT, words)
    desk = Desk(dispatch, folder, text, began + MOST_SECONDS)
    placed, faults = {}, []
    try:
        place_all(day, desk, venues, acceptor, proxy, placed)
        desk.settle(venues)
        status = desk.close()
        faults += day_faults(placed, acceptor.orders(), FILL, status, desk.lines)
        if not day.logs_out:
            # QuickFIX goes on sending behind its Logout, which the session doesn't hear: its log shows that rule broken
            faults += log_faults(dispatch, folder, venues)
        faults += truth_faults(dispatch, folder, venues, desk.lines, len(placed))
    except (Late, RuntimeError, OSError, TimeoutExpired) as fault:
        faults += [str(fault), *desk.errors()]
    finally:
        desk.kill()
        acceptor.kill()
        if proxy:
            proxy.end()
    return Played(time.monotonic() - began, sum(map(len, placed.values())), len(acceptor.orders()), faults)
