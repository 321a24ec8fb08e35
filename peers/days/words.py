"""Days at an exchange that knows one table of words: orders that are spelled by it are taken, others are refused. On some
of them the table says all that a desk's file can: fields of headers and of Logons too."""

import re
import time
from dataclasses import dataclass, field, replace
from subprocess import TimeoutExpired

from days.acceptor import Acceptor, Order, frames
from days.compare import day_faults, end_faults, wanted_end
from days.days import FILL, HEARTBEAT, MOST_SECONDS, Played, place_all
from days.desk import Desk, Late, file_of
from days.dictionary import Needs, Own, dictionary_of
from days.logs import log_faults, truth_faults
from days.proxy import Proxy, Weather

# SessionRejectReason (373).
MISSING, NOT_OF_THE_MESSAGE, OUT_OF_RANGE = "1", "2", "5"

# The file of the password, in the folder of a day.
SECRET = "secret"


@dataclass(frozen=True)
class Table:
    """How a venue spells its orders: what the desk's file says, and what has to stand on the wire then."""

    name: str
    # The lines of a `[[venue]]`.
    lines: str
    # ClOrdID (11): the digits of the sweep and of the leg.
    id: str
    # Price (44), and Symbol (55) with SymbolSfx (65), of the prices and symbols of `days.sweeps`.
    price: str
    symbols: tuple
    # The mark, and the fields that each order has besides.
    own: tuple
    base: int = 10
    # Whether a check of the whole day tells a leg by such a number: where a dialect has it (docs/check.md).
    is_told: bool = True
    # The fields of each header, and of the Logon, where the password is the last.
    header: tuple = ()
    logon: tuple = ()

    def leg(self, id):
        """The number of a leg, as the comparison has it."""
        sweep, leg = re.fullmatch(self.id, id).groups()
        return f"S{int(sweep, self.base)}L{int(leg, self.base)}"

    def needs(self):
        """What an exchange needs that knows this table."""
        has_suffix = any(suffix for _, suffix in self.symbols)
        return Needs(order=self.own, header=self.header, logon=self.logon, has_suffix=has_suffix)


def in_one_field(separator):
    return (("IBM", None), (f"BRK{separator}B", None), ("MSFT", None), ("F", None))


IN_TWO_FIELDS = (("IBM", None), ("BRK", "B"), ("MSFT", None), ("F", None))

DIGITS = Table(
    "digits, and four fields",
    'words = { id = "000000000012-03", price = 2, symbol = "slash" }\n'
    'order = ["1=ACC7", "47=P", "528=P", "8014=Y"]\n',
    id=r"(\d{12})-(\d{2})",
    price=r"[1-9]\d?\.25",
    symbols=in_one_field("/"),
    own=(Own(18, "f"), Own(1, "ACC7"), Own(47, "P"), Own(528, "P"), Own(8014, "Y")),
)
HEXADECIMAL = Table(
    "hexadecimal digits, a mark of its own, and two fields",
    'words = { id = "000000000c03", mark = "9002=SWEEP", price = 4, symbol = "55+65" }\n'
    'order = ["1=ACC7", "21=1"]\n',
    id=r"([\da-f]{10})([\da-f]{2})",
    price=r"[1-9]\d?\.2500",
    symbols=IN_TWO_FIELDS,
    own=(Own(9002, "SWEEP"), Own(1, "ACC7"), Own(21, "1")),
    base=16,
    is_told=False,
)
DIALECT_WITH_A_FIELD = Table(
    "a dialect, and a field",
    'dialect = "split"\norder = ["1=ACC7"]\n',
    id=r"(\d{12})-(\d{2})",
    price=r"[1-9]\d?\.2500",
    symbols=IN_TWO_FIELDS,
    own=(Own(18, "f"), Own(1, "ACC7")),
)
ALL_OF_IT = replace(
    DIGITS,
    name="a user, and fields of headers",
    lines=DIGITS.lines + 'header = ["50=TRADER1", "57=ROUTER"]\n'
    'logon = ["553=DESKUSER"]\n'
    f'password_file = "{SECRET}"\n',
    header=(Own(50, "TRADER1"), Own(57, "ROUTER")),
    logon=(Own(553, "DESKUSER"), Own(554, "tr0ub4dor=3 x")),
)


@dataclass(frozen=True)
class WordsDay:
    name: str
    table: Table
    # What the desk's file says in place of the table's lines, and with which reason the exchange refuses the orders.
    written: str | None = None
    reason: str | None = None
    venues: int = 3
    sweeps: int = 40
    most_legs: int = 8
    is_wide: bool = False
    # What goes wrong, as on a day of `days`.
    faults: dict = field(default_factory=dict)
    weather: Weather | None = None
    stops: int = 0
    seed: int = 1


def refusals_of(table, last, tells_without):
    """The days on which the desk's file says something else than the table that the exchange knows."""
    yield WordsDay(f"words, {table.name}: a field less", table, table.lines.replace(last, ""), MISSING)
    account = table.lines.replace("1=ACC7", "1=ACC8")
    yield WordsDay(f"words, {table.name}: another account", table, account, OUT_OF_RANGE)
    more = table.lines.replace('"1=ACC7"', '"1=ACC7", "58=NOTE"')
    yield WordsDay(f"words, {table.name}: a field more", table, more, NOT_OF_THE_MESSAGE)
    yield WordsDay(f"words, {table.name}: no table", table, tells_without, MISSING)


# The days of a table that says all: orders are taken, also over breaks and restarts; and those of another account are
# refused.
ALL_OF_IT_DAYS = (
    WordsDay(f"words, {ALL_OF_IT.name}", ALL_OF_IT),
    WordsDay(f"words, {ALL_OF_IT.name}: connections are dropped", ALL_OF_IT, sweeps=150, faults={"drop-every": 20}),
    WordsDay(
        f"words, {ALL_OF_IT.name}: it is stopped and started again",
        ALL_OF_IT,
        sweeps=300,
        weather=Weather(most_delay=0.005),
        stops=2,
    ),
    WordsDay(
        f"words, {ALL_OF_IT.name}: another account",
        ALL_OF_IT,
        ALL_OF_IT.lines.replace("1=ACC7", "1=ACC8"),
        OUT_OF_RANGE,
    ),
)

WORDS_DAYS = (
    *ALL_OF_IT_DAYS,
    *(WordsDay(f"words, {table.name}", table) for table in (DIGITS, HEXADECIMAL, DIALECT_WITH_A_FIELD)),
    *refusals_of(DIGITS, ', "8014=Y"', ""),
    *refusals_of(HEXADECIMAL, ', "21=1"', ""),
    *refusals_of(DIALECT_WITH_A_FIELD, '"1=ACC7"', 'dialect = "split"\n'),
)


def spelling_faults(table, orders):
    """Where orders aren't spelled by the table, by what the exchange received."""
    own = {(str(field.tag), field.value) for field in table.own}
    for order in orders:
        well = (
            re.fullmatch(table.id, order["11"])
            and re.fullmatch(table.price, order["44"])
            and (order["55"], order.get("65")) in table.symbols
            and own <= order.items()
        )
        if not well:
            yield f"an order is spelled otherwise: {order}"


def taken_faults(day, folder, venues, placed, orders, status, lines):
    """What is wrong with a day whose orders are all spelled by the table."""
    received = [frame for venue in venues for frame in frames(folder, venue, "D")]
    if len(received) < len(orders) or not orders:
        yield f"{len(received)} orders were received, and {len(orders)} taken"
    yield from (f"refused: {frame}" for venue in venues for frame in frames(folder, venue, "3"))
    spelled_otherwise = list(spelling_faults(day.table, received))
    yield from spelled_otherwise
    if not spelled_otherwise:
        by_leg = [replace(order, id=day.table.leg(order.id)) for order in orders]
        yield from day_faults(placed, by_leg, FILL, status, lines)


def refused_faults(day, folder, venues, placed, orders, status, lines):
    """What is wrong with a day whose orders the exchange refuses, all of them: each is cancelled, and none trades."""
    if status != 0:
        yield f"dispatch run ended with status {status}"
    yield from (f"the exchange took {order}" for order in orders)
    legs = [
        Order(f"S{number}L{place}", leg.venue, 0, leg.shares, False)
        for number, legs in placed.items()
        for place, leg in enumerate(legs, 1)
    ]
    yield from end_faults(lines, wanted_end(placed, legs, 0))
    reasons = [frame.get("373") for venue in venues for frame in frames(folder, venue, "3")]
    if reasons != [day.reason] * len(legs):
        yield f"{len(legs)} orders were to be refused for {day.reason}, and were for {sorted(set(reasons), key=str)}"


def write_files(table, folder, venues):
    """Writes the data dictionary of each venue, and the desk's password, where the table has one. Gives the folder of
    the dictionaries."""
    dictionaries = folder / "dictionaries"
    dictionaries.mkdir()
    for venue in venues:
        (dictionaries / f"{venue}.xml").write_text(dictionary_of(table.needs()))
    if table.logon:
        secret = folder / SECRET
        secret.write_text(table.logon[-1].value + "\n")
        secret.chmod(0o600)
    return dictionaries


def play_words(day, dispatch, acceptor_program, folder):
    """Plays a day in a folder of its own."""
    began = time.monotonic()
    venues = [f"V{number}" for number in range(1, day.venues + 1)]
    options = {"dictionaries": write_files(day.table, folder, venues), **day.faults}
    acceptor = Acceptor(acceptor_program, folder, venues, FILL, options)
    proxy = Proxy(acceptor.port, day.weather, day.seed) if day.weather else None
    written = day.table.lines if day.written is None else day.written
    text = file_of(venues, proxy.port if proxy else acceptor.port, HEARTBEAT, written)
    desk = Desk(dispatch, folder, text, began + MOST_SECONDS)
    placed, faults = {}, []
    try:
        place_all(day, desk, venues, acceptor, proxy, placed)
        desk.settle(venues)
        status = desk.close()
        found = refused_faults if day.reason else taken_faults
        faults += found(day, folder, venues, placed, acceptor.orders(), status, desk.lines)
        faults += log_faults(dispatch, folder, venues, "auto")
        if day.table.is_told:
            faults += truth_faults(dispatch, folder, venues, desk.lines, len(placed))
    except (Late, RuntimeError, OSError, TimeoutExpired) as fault:
        faults += [str(fault), *desk.errors()]
    finally:
        desk.kill()
        acceptor.kill()
        if proxy:
            proxy.end()
    return Played(time.monotonic() - began, sum(map(len, placed.values())), len(acceptor.orders()), faults)
