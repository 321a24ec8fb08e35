"""Tries the comparison on days that went well and on days that went wrong."""

import unittest

from days.acceptor import Order
from days.compare import day_faults, execution_faults, received_faults
from days.sweeps import Leg

PLACED = {
    1: [Leg("V1", 1, "10.25"), Leg("V2", 8, "20.5")],
    2: [Leg("V1", 16, "30"), Leg("V1", 2, "40.25")],
}
ORDERS = [
    Order("S1L1", "V1", 2, 1, False),
    Order("S1L2", "V2", 2, 8, False),
    Order("S2L1", "V1", 3, 16, False),
    Order("S2L2", "V1", 4, 2, False),
]
# At most 6 shares of an order trade.
LINES = [
    "placed 1 shares 9",
    "sweep 1 legs 9 filled 7 busted 0 cancelled 2 withdrawn 0 open 0 paid 133.25 average 19.03571429",
    "sweep 2 legs 18 filled 8 busted 0 cancelled 10 withdrawn 0 open 0 paid 260.5 average 32.5625",
    "day placed 27 resolved 27 open 0",
    "audit ok",
]

REPORTS = {
    "V1": [
        {"11": "S1L1", "17": "E1", "150": "0"},
        {"11": "S1L1", "17": "E2", "150": "F", "32": "1", "31": "10.25"},
        {"11": "S1L1", "17": "E2", "150": "F", "32": "1", "31": "10.25", "43": "Y"},
    ],
    "V2": [{"11": "S1L2", "17": "E1", "150": "4"}],
}
EXECUTIONS = [
    "execution 1 V1 S1L1 new id E1 order O1",
    "sweep 1 legs 9 filled 0 busted 0 cancelled 0 withdrawn 0 open 9",
    "execution 2 V2 S1L2 cancelled id E1 order O2",
    "execution 3 V1 S1L1 fill 1 at 10.25 id E2 order O1",
]


def faults(orders=ORDERS, status=0, lines=LINES):
    return list(day_faults(PLACED, orders, 6, status, lines))


def changed(line, text):
    """The lines with another one in place of that number."""
    return [*LINES[:line], text, *LINES[line + 1 :]]


class DaysThatWentWell(unittest.TestCase):
    def test_all_is_accepted(self):
        self.assertEqual(faults(), [])

    def test_a_leg_is_withdrawn(self):
        lines = changed(2, "sweep 2 legs 18 filled 2 busted 0 cancelled 0 withdrawn 16 open 0 paid 80.5 average 40.25")
        self.assertEqual(faults([ORDERS[0], ORDERS[1], ORDERS[3]], lines=lines), [])

    def test_an_order_is_ignored(self):
        lines = changed(1, "sweep 1 legs 9 filled 1 busted 0 cancelled 0 withdrawn 0 open 8 paid 10.25 average 10.25")
        lines[3] = "day placed 27 resolved 19 open 8"
        self.assertEqual(faults([ORDERS[0], Order("S1L2", "V2", 2, 8, True), *ORDERS[2:]], lines=lines), [])


class DaysThatWentWrong(unittest.TestCase):
    def test_the_status(self):
        self.assertEqual(faults(status=7), ["dispatch run ended with status 7"])

    def test_no_audit(self):
        self.assertEqual(len(faults(lines=LINES[:-1])), 4)

    def test_nothing_is_told(self):
        self.assertEqual(len(faults(lines=[])), 4)

    def test_an_order_is_accepted_twice(self):
        again = Order("S1L1", "V1", 5, 1, False)
        self.assertIn("S1L1 was accepted 2 times", faults([*ORDERS, again]))

    def test_orders_are_accepted_in_another_order(self):
        orders = [ORDERS[2], Order("S1L1", "V1", 4, 1, False), ORDERS[1], Order("S2L2", "V1", 5, 2, False)]
        self.assertEqual(faults(orders), ["V1 accepted S1L1 behind S2L1"])

    def test_numbers_fall(self):
        orders = [*ORDERS[:3], Order("S2L2", "V1", 3, 2, False)]
        self.assertEqual(faults(orders), ["V1 took number 3 behind 3"])

    def test_a_leg_of_another_venue(self):
        orders = [Order("S1L1", "V2", 1, 1, False), *ORDERS[1:]]
        self.assertEqual(len(faults(orders)), 1)

    def test_a_leg_with_other_shares(self):
        orders = [Order("S1L1", "V1", 2, 3, False), *ORDERS[1:]]
        self.assertIn("S1L1 was placed otherwise", faults(orders)[0])

    def test_a_leg_that_was_never_placed(self):
        for id in ("S1L3", "S3L1"):
            found = faults([*ORDERS, Order(id, "V2", 3, 1, False)])
            self.assertIn(f"{id} was placed otherwise", found[0])

    def test_a_leg_is_called_withdrawn_that_was_accepted(self):
        lines = changed(2, "sweep 2 legs 18 filled 2 busted 0 cancelled 0 withdrawn 16 open 0")
        self.assertEqual(len(faults(lines=lines)), 1)

    def test_another_leg_is_called_withdrawn(self):
        lines = changed(2, "sweep 2 legs 18 filled 6 busted 0 cancelled 10 withdrawn 2 open 0")
        self.assertEqual(len(faults([ORDERS[0], ORDERS[1], ORDERS[3]], lines=lines)), 1)

    def test_other_shares_are_told(self):
        self.assertEqual(len(faults(lines=changed(1, LINES[1].replace("filled 7", "filled 6")))), 1)

    def test_another_price_is_told(self):
        self.assertEqual(len(faults(lines=changed(1, LINES[1].replace("paid 133.25", "paid 133.5")))), 1)

    def test_another_sum_is_told(self):
        self.assertEqual(len(faults(lines=changed(3, "day placed 27 resolved 26 open 1"))), 1)

    def test_an_order_comes_twice(self):
        self.assertEqual(list(received_faults(["S1L1", "S1L2", "S1L1"], [])), ["S1L1 came 2 times"])

    def test_an_order_is_taken_that_never_came(self):
        self.assertEqual(len(list(received_faults(["S1L1", "S1L2", "S2L1"], ORDERS))), 1)


class Executions(unittest.TestCase):
    def test_all_are_booked(self):
        self.assertEqual(list(execution_faults(REPORTS, EXECUTIONS)), [])

    def test_one_is_missing(self):
        self.assertEqual(len(list(execution_faults(REPORTS, EXECUTIONS[:-1]))), 1)

    def test_one_is_booked_twice(self):
        again = "execution 4 V1 S1L1 new id E1 order O1"
        self.assertEqual(list(execution_faults(REPORTS, [*EXECUTIONS, again])), ["V1 S1L1 new id E1 was booked 2 times"])

    def test_one_is_made_up(self):
        self.assertEqual(len(list(execution_faults({"V1": REPORTS["V1"]}, EXECUTIONS))), 1)

    def test_another_price(self):
        lines = [*EXECUTIONS[:-1], EXECUTIONS[-1].replace("10.25", "10.5")]
        self.assertEqual(len(list(execution_faults(REPORTS, lines))), 2)

    def test_a_number_is_missing(self):
        lines = [*EXECUTIONS[:-1], EXECUTIONS[-1].replace("execution 3", "execution 4")]
        self.assertEqual(len(list(execution_faults(REPORTS, lines))), 1)

    def test_one_is_unbooked(self):
        unbooked = "unbooked execution 4 V1 S1L1 fill 1 at 10.25 id E2 order O1: duplicate"
        self.assertEqual(list(execution_faults(REPORTS, [*EXECUTIONS, unbooked])), [unbooked])
