"""Whether the desk's side of a day and its exchange's agree."""

import re
from collections import Counter, defaultdict
from decimal import ROUND_HALF_UP, Decimal


def leg_of(id):
    """The sweep and the leg of a ClOrdID such as S12L3."""
    sweep, leg = re.fullmatch(r"S(\d+)L(\d+)", id).groups()
    return int(sweep), int(leg)


def order_faults(placed, orders):
    """What is wrong with the orders that the exchange took, by the legs of each sweep that was placed."""
    of_venue = defaultdict(list)
    for order in orders:
        of_venue[order.venue].append(order)
        sweep, leg = leg_of(order.id)
        wanted = placed[sweep][leg - 1] if sweep in placed and leg <= len(placed[sweep]) else None
        if wanted is None or (wanted.venue, wanted.shares) != (order.venue, order.shares):
            yield f"{order.id} was placed otherwise: {order}"
    for id, count in Counter(order.id for order in orders).items():
        if count > 1:
            yield f"{id} was accepted {count} times"
    for venue, taken in of_venue.items():
        for before, order in zip(taken, taken[1:]):
            if leg_of(before.id) > leg_of(order.id):
                yield f"{venue} accepted {order.id} behind {before.id}"
            if before.number >= order.number:
                yield f"{venue} took number {order.number} behind {before.number}"


def filled_of(order, fill):
    return 0 if order.is_ignored else min(fill, order.shares)


def dollars(amount):
    """An amount to eight decimals, without zeros behind the last digit."""
    return f"{amount.quantize(Decimal('1e-8'), ROUND_HALF_UP):f}".rstrip("0").rstrip(".")


def price_of(order, legs):
    """The limit at which an order trades; one that was never placed has none."""
    place = leg_of(order.id)[1] - 1
    return Decimal(legs[place].price if place < len(legs) else 0)


def paid_words(legs, orders, fill):
    """What is said of the money behind a sweep's parts: each order trades at its limit."""
    filled = sum(filled_of(order, fill) for order in orders)
    paid = sum(filled_of(order, fill) * price_of(order, legs) for order in orders)
    return f" paid {dollars(paid)} average {dollars(paid / filled)}" if filled else ""


def sweep_line(number, legs, orders, fill):
    """What the dispatcher has to say of a sweep at the end, by those of its legs that were accepted."""
    shares = sum(leg.shares for leg in legs)
    accepted = sum(order.shares for order in orders)
    filled = sum(filled_of(order, fill) for order in orders)
    still_open = sum(order.shares for order in orders if order.is_ignored)
    return (
        f"sweep {number} legs {shares} filled {filled} busted 0 cancelled {accepted - filled - still_open} "
        f"withdrawn {shares - accepted} open {still_open}{paid_words(legs, orders, fill)}"
    )


def wanted_end(placed, orders, fill):
    """The last lines of the day: each sweep's, the sums, and the audit."""
    of_sweep = defaultdict(list)
    for order in orders:
        of_sweep[leg_of(order.id)[0]].append(order)
    shares = sum(leg.shares for legs in placed.values() for leg in legs)
    still_open = sum(order.shares for order in orders if order.is_ignored)
    return [
        *(sweep_line(number, legs, of_sweep[number], fill) for number, legs in sorted(placed.items())),
        f"day placed {shares} resolved {shares - still_open} open {still_open}",
        "audit ok",
    ]


def end_faults(lines, wanted):
    """Where the last lines of a day are others than wanted."""
    ended = lines[-len(wanted) :]
    ended += ["nothing"] * (len(wanted) - len(ended))
    for line, want in zip(ended, wanted):
        if line != want:
            yield f"wanted {want}, was told {line}"


def received_faults(received, orders):
    """What is wrong with the ClOrdIDs that came to the exchange, whether it took them or not."""
    for id, count in Counter(received).items():
        if count > 1:
            yield f"{id} came {count} times"
    for order in orders:
        if order.id not in received:
            yield f"{order.id} was taken, and never came"


def kind_of(report):
    """What a report of the exchange says, in the words of `dispatch run`."""
    words = {"0": "new", "4": "cancelled", "F": f"fill {report.get('32')} at {report.get('31')}"}
    return words.get(report["150"], report["150"])


def execution_faults(reports, lines):
    """Where the executions that were told aren't those that the exchange reported, each once. Of each venue these are
    its reports, some of them sent again."""
    made = {
        f"{venue} {report['11']} {kind_of(report)} id {report['17']}"
        for venue, sent in reports.items()
        for report in sent
    }
    told = []
    for line in lines:
        if found := re.match(r"execution (\d+) (\S+ \S+ .*? id \S+)", line):
            told.append(found[2])
            if int(found[1]) != len(told):
                yield f"it isn't the execution {len(told)} of the day: {line}"
        elif line.startswith("unbooked execution"):
            yield line
    yield from (f"{one} was reported, and not booked" for one in sorted(made.difference(told)))
    yield from (f"{one} was booked, and not reported" for one in sorted(set(told) - made))
    yield from (f"{one} was booked {count} times" for one, count in Counter(told).items() if count > 1)


def day_faults(placed, orders, fill, status, lines):
    """All that is wrong with a day that has ended."""
    if status != 0:
        yield f"dispatch run ended with status {status}"
    yield from order_faults(placed, orders)
    yield from end_faults(lines, wanted_end(placed, orders, fill))
