"""The sweeps of a day, as a desk writes them."""

from dataclasses import dataclass
from random import Random

SYMBOLS = ("IBM", "BRK.B", "MSFT", "F")


@dataclass(frozen=True)
class Leg:
    venue: str
    shares: int
    # Its limit, in dollars.
    price: str


def line_of(legs, random):
    """The line that asks for these legs."""
    return "sweep " + " + ".join(
        f"{leg.venue} {random.choice(SYMBOLS)} {random.choice(('buy', 'sell'))} {leg.shares} {leg.price}"
        for leg in legs
    )


def price_of(random):
    return f"{random.randint(1, 99)}.25"


def sweeps_of(venues, count, most_legs, seed):
    """So many sweeps, each as its legs and its line. The legs of a sweep have 1, 2, 4, 8 shares and so on, in any
    order: no two sets of them have the same sum."""
    random = Random(seed)
    for _ in range(count):
        shares = [2**power for power in range(random.randint(1, most_legs))]
        random.shuffle(shares)
        legs = [Leg(random.choice(venues), number, price_of(random)) for number in shares]
        yield legs, line_of(legs, random)


def wide_sweeps_of(venues, count, seed):
    """The same with one leg for each venue."""
    random = Random(seed)
    for _ in range(count):
        shares = [2**power for power in range(len(venues))]
        random.shuffle(shares)
        legs = [Leg(venue, number, price_of(random)) for venue, number in zip(venues, shares)]
        yield legs, line_of(legs, random)
