"""A model of a script's world, with crashes, written after docs/script.md, docs/session.md, docs/exchange.md and
docs/desk_and_book.md, and not after the code."""
import copy

DOWN, LOGON, SETTLING, UP, CLOSING, LOGOUT, CLOSED = "down", "logon", "settling", "up", "closing", "logout", "closed"
CONNECTED = {LOGON, SETTLING, UP, CLOSING, LOGOUT}


class Session:
    def __init__(self, top, chose):
        self.top, self.chose = top, chose
        self.phase = DOWN
        self.next = 1            # the number of the next own message
        self.expected = 1
        self.conn = 0
        self.settled = 0
        self.fences = []
        self.close_asked = False
        self.closing_fence = 0
        self.legs = {}           # ordinal: [number, state]
        self.silent_called = False
        self.asked = None
        self.logon = 0

    # what is written: a list of messages (dicts)
    def number(self):
        if self.next >= self.top:
            return None
        self.next += 1
        return self.next - 1

    def end(self, e07=False):
        self.phase = CLOSED if (self.phase == LOGOUT or e07) else DOWN
        self.fences = []

    def fence(self, out):
        k = self.number()
        if k is None:
            return False
        self.fences.append(k)
        out.append({"35": "1", "34": k, "112": "F%d" % k})
        return True

    def connect(self, out):
        if self.phase != DOWN or self.next >= self.top:
            return False
        k = self.number()
        self.conn += 1
        self.phase = LOGON
        self.asked, self.silent_called, self.fences, self.logon = None, False, [], k
        m = {"35": "A", "34": k}
        if self.chose:
            m["789"] = self.expected
        out.append(m)
        return True

    def send(self, ordinal, leg, out):
        """'sent', 'spent' or 'refused'"""
        if self.phase != UP:
            return "refused"
        if self.legs and ordinal <= max(self.legs):
            return "refused"
        k = self.number()
        if k is None:
            return "spent"
        self.legs[ordinal] = [k, "doubt", leg]
        out.append({"35": "D", "34": k, "leg": leg})
        return "sent"

    def quiet(self, out):
        if self.phase in (DOWN, CLOSED, LOGON, LOGOUT):
            return
        k = self.number()
        if k is not None:
            out.append({"35": "0", "34": k})

    def silent(self, out):
        if self.phase in (DOWN, CLOSED):
            return
        if self.silent_called:
            self.end()
            return
        if self.phase in (SETTLING, UP, CLOSING):
            if not self.fence(out):
                return
        self.silent_called = True

    def close(self, out):
        """whether it isn't refused"""
        if self.phase in (DOWN, CLOSED):
            return False
        if self.phase == UP:
            if not self.fence(out):
                return False
            self.closing_fence = self.fences[-1]
            self.close_asked = True
            self.phase = CLOSING
        elif self.phase in (LOGON, SETTLING):
            self.close_asked = True
        return True

    def abandon(self):
        self.phase = CLOSED
        self.fences = []

    def broken(self):
        if self.phase in CONNECTED:
            self.end()

    def doubt(self):
        return [o for o in sorted(self.legs) if self.legs[o][1] == "doubt"]

    def take_below(self, number):
        for o in self.doubt():
            if self.legs[o][0] < number:
                self.legs[o][1] = "taken"

    def settle(self, number):
        self.take_below(number)
        gone = self.doubt()
        for o in gone:
            self.legs[o][1] = "withdrawn"
        return gone

    def logout(self, out):
        k = self.number()
        if k is not None:
            out.append({"35": "5", "34": k})
        self.phase = LOGOUT

    def receive(self, m, out):
        """The ordinals that are withdrawn, and the note."""
        self.silent_called = False
        kind, n, dup = m["35"], m["34"], m.get("43") == "Y"
        gone, note = [], None
        if self.phase == LOGON and kind != "A":
            self.end()
            return gone, note
        if n < self.expected:
            if not dup:
                self.end()
            return gone, note
        due = n == self.expected
        count_to = n + 1
        if kind == "A":
            if self.phase != LOGON:
                self.end()
                return gone, note
            said = m.get("789") if self.chose else None
            if said is not None and said > self.logon + 1:
                self.end()
                return gone, note
            if said is not None:
                gone = self.settle(said)
                if said <= self.logon:
                    out.append({"35": "4", "34": said, "36": self.logon + 1, "43": "Y"})
            if not due:
                k = self.number()
                if k is not None:
                    out.append({"35": "2", "34": k, "7": self.expected})
                    self.asked = self.expected
            self.fence(out)
            self.phase = SETTLING
            if due:
                self.expected = count_to
            return gone, note
        if kind == "2":
            b, e = m["7"], 0
            last = self.next - 1
            if b == 0 or b > last:
                self.end()
                return gone, note
            if self.phase == SETTLING:
                gone = self.settle(b)
                out.append({"35": "4", "34": b, "36": last + 1, "43": "Y"})
                self.fence(out)
            else:
                if b > self.settled:
                    self.end()
                    return gone, note
                out.append({"35": "4", "34": b, "36": self.settled + 1, "43": "Y"})
        elif kind == "0":
            tag = m.get("112")
            named = [f for f in self.fences if tag == "F%d" % f]
            if named:
                f = named[0]
                self.take_below(f)
                self.settled = f
                self.fences = [g for g in self.fences if g > f]
                if self.phase == SETTLING:
                    if self.close_asked:
                        self.logout(out)
                    else:
                        self.phase = UP
                elif self.phase == CLOSING and f >= self.closing_fence:
                    self.logout(out)
        elif kind == "1":
            if due and self.phase != LOGOUT:
                k = self.number()
                if k is not None:
                    out.append({"35": "0", "34": k, "112": m["112"]})
        elif kind == "4":
            if due:
                if m["36"] <= n:
                    self.end()
                    return gone, note
                count_to = m["36"]
        elif kind == "5":
            if self.phase == LOGOUT:
                self.end()
            else:
                k = self.number()
                if k is not None:
                    out.append({"35": "5", "34": k})
                self.end(e07=True)
            return gone, note
        elif kind == "8":
            if due:
                note = m["report"]
        if due:
            self.expected = count_to
        elif self.phase != LOGOUT and self.asked != self.expected:
            k = self.number()
            if k is not None:
                out.append({"35": "2", "34": k, "7": self.expected})
                self.asked = self.expected
        return gone, note


class Order:
    def __init__(self, leg, shares):
        self.leg, self.open = leg, shares
        self.trades, self.ended = [], None


class Exchange:
    def __init__(self):
        self.expected = 1
        self.live = None
        self.last = 0
        self.orders = []
        self.own = []            # of each own number: a report or None
        self.reports = 0
        self.closed = False
        self.asked = None

    def say(self, m, report=None):
        self.own.append(report)
        m["34"] = len(self.own)
        return m

    def report(self, order, what, out, **more):
        self.reports += 1
        r = {"exec": "E%d" % self.reports, "leg": order.leg, "what": what, **more}
        m = self.say({"35": "8", "report": r}, r)
        if self.live is not None:
            out.append(m)

    def take(self, conn, m, out):
        kind, n = m["35"], m["34"]
        if kind == "A":
            if conn > self.last and n >= self.expected:
                self.live = self.last = conn
                self.asked = None
                ahead = n > self.expected
                if not ahead:
                    self.expected += 1
                answer = {"35": "A"}
                if "789" in m:
                    answer["789"] = self.expected
                out.append(self.say(answer))
                if ahead and "789" not in m:
                    out.append(self.say({"35": "2", "7": self.expected}))
                    self.asked = self.expected
            return
        if conn != self.live:
            return
        if kind == "2":
            b, last = m["7"], len(self.own)
            if 1 <= b <= last:
                k = b
                while k <= last:
                    r = self.own[k - 1]
                    if r is not None:
                        out.append({"35": "8", "34": k, "43": "Y", "report": r})
                        k += 1
                    else:
                        j = k
                        while j <= last and self.own[j - 1] is None:
                            j += 1
                        out.append({"35": "4", "34": k, "43": "Y", "36": j})
                        k = j
        e = self.expected
        if n > e:
            if self.asked != e:
                out.append(self.say({"35": "2", "7": e}))
                self.asked = e
            return
        if n < e:
            return
        if kind == "4":
            if m["36"] > e:
                self.expected = m["36"]
            return
        self.expected += 1
        if kind == "D":
            order = Order(m["leg"][0], m["leg"][1])
            self.orders.append(order)
            self.report(order, "new", out)
        elif kind == "5":
            out.append(self.say({"35": "5"}))
            self.live = None
            self.closed = True
        elif kind == "1":
            out.append(self.say({"35": "0", "112": m["112"]}))

    def order(self, i):
        return self.orders[i - 1] if 1 <= i <= len(self.orders) else None

    def trade(self, i, n, out):
        o = self.order(i)
        if o is None or o.open == 0 or n == 0 or n > o.open:
            return
        o.open -= n
        o.trades.append([n, False, "E%d" % (self.reports + 1)])
        self.report(o, "trade", out, shares=n)

    def end(self, i, how, out):
        o = self.order(i)
        if o is None or o.open == 0:
            return
        o.open = 0
        o.ended = how
        self.report(o, how, out)

    def bust(self, i, j, out):
        o = self.order(i)
        if o is None or o.ended != "cancel" or not 1 <= j <= len(o.trades) or o.trades[j - 1][1]:
            return
        o.trades[j - 1][1] = True
        self.report(o, "bust", out, ref=o.trades[j - 1][2])

    def test(self, out):
        if self.live is not None:
            k = len(self.own) + 1
            out.append(self.say({"35": "1", "112": "X%d" % k}))


class Book:
    def __init__(self):
        self.legs = {}           # id: [venue, shares, filled, busted, cancelled, withdrawn, open]
        self.trades = {}         # id: {exec: shares or None once busted}
        self.booked = set()

    def open_sweep(self, number, legs):
        for place, (venue, shares) in enumerate(legs, 1):
            self.legs[(number, place)] = [venue, shares, 0, 0, 0, 0, shares]
            self.trades[(number, place)] = {}

    def withdraw(self, leg):
        row = self.legs.get(leg)
        if row and row[6] == row[1]:
            row[5], row[6] = row[1], 0

    def apply(self, venue, r):
        row = self.legs.get(r["leg"])
        if row is None or row[0] != venue or (venue, r["exec"]) in self.booked or row[5]:
            return
        if r["what"] == "trade":
            if r["shares"] > row[6]:
                return
            row[6] -= r["shares"]
            row[2] += r["shares"]
            self.trades[r["leg"]][r["exec"]] = r["shares"]
        elif r["what"] in ("cancel", "reject"):
            row[4] += row[6]
            row[6] = 0
        elif r["what"] == "bust":
            shares = self.trades[r["leg"]].get(r["ref"])
            if shares is None:
                return
            self.trades[r["leg"]][r["ref"]] = None
            row[2] -= shares
            row[3] += shares
        self.booked.add((venue, r["exec"]))


class Standing:
    def __init__(self, left, shut, session, to, given):
        self.left, self.shut = left, shut
        self.session = copy.deepcopy(session)
        self.to, self.given = list(to), list(given)


class Venue:
    def __init__(self, top, chose):
        self.session = Session(top, chose)
        self.exchange = Exchange()
        self.to, self.back = [], []       # (connection, message)
        self.given = []
        self.gate, self.left = "down", 0
        self.reached = 0
        self.lines = []


class Fault(Exception):
    pass


class World:
    def __init__(self, top, chose):
        self.venues = [Venue(top, c) for c in chose]
        self.sweeps = []
        self.book = Book()
        for v in self.venues:
            self.line(v)

    def line(self, v):
        v.lines.append(Standing(v.left, v.gate == "shut", v.session, v.to, v.given))

    def released(self, at, sweeps=None):
        found = []
        for number, legs in enumerate(self.sweeps if sweeps is None else sweeps, 1):
            for place, (venue, shares) in enumerate(legs, 1):
                if venue == at:
                    found.append(((number, place), shares))
        return found

    def placed(self, at):
        return len(self.released(at)) - self.venues[at].left

    def states(self, at, left=None, session=None):
        """of each ordinal from 1"""
        v = self.venues[at]
        left = v.left if left is None else left
        session = session or v.session
        found = []
        for ordinal in range(1, len(self.released(at)) + 1):
            if ordinal > left:
                found.append("queued")
            elif ordinal in session.legs:
                found.append(session.legs[ordinal][1])
            else:
                found.append("withdrawn")
        return found

    def release(self, legs):
        if not 1 <= len(legs) <= 32 or any(v >= len(self.venues) for v, _ in legs):
            return
        if any(self.venues[v].gate != "up" for v, _ in legs):
            return
        for at in range(len(self.venues)):
            mine = sum(v == at for v, _ in legs)
            if mine and self.placed(at) + mine > 256:
                return
        self.sweeps.append(legs)
        self.book.open_sweep(len(self.sweeps), legs)

    def happen(self, event):
        kind = event[0]
        if kind == "release":
            return self.release(event[1])
        if kind == "crash":
            return self.crash(event[1], event[2])
        at = event[1]
        v = self.venues[at]
        out, back = [], []
        s, x = v.session, v.exchange
        if kind == "up":
            if s.phase == UP and v.gate == "down" and self.placed(at) == 0:
                v.gate = "up"
        elif kind == "down":
            if v.gate == "up":
                v.gate = "down"
        elif kind == "drop":
            if v.gate != "up" and self.placed(at):
                leg = self.released(at)[v.left][0]
                v.left += 1
                self.book.withdraw(leg)
        elif kind == "take":
            if s.phase == UP and v.gate == "up" and self.placed(at):
                leg = self.released(at)[v.left]
                how = s.send(v.left + 1, leg, out)
                if how != "refused":
                    v.left += 1
                if how == "spent":
                    self.book.withdraw(leg[0])
        elif kind == "connect":
            if v.gate != "up" and self.placed(at) == 0:
                s.connect(out)
        elif kind == "to":
            k = event[2]
            if k <= len(v.to):
                v.reached = max(v.reached, k)
                x.take(*v.to[k - 1], back)
        elif kind == "from":
            k = event[2]
            if k <= len(v.back) and s.phase in CONNECTED and v.back[k - 1][0] == s.conn:
                gone, note = s.receive(v.back[k - 1][1], out)
                legs = self.released(at)
                for ordinal in gone:
                    self.book.withdraw(legs[ordinal - 1][0])
                if note:
                    self.book.apply(at, note)
                    v.given.append(note)
        elif kind == "break":
            s.broken()
        elif kind == "xbreak":
            x.live = None
        elif kind == "trade":
            x.trade(event[2], event[3], back)
        elif kind in ("cancel", "reject"):
            x.end(event[2], kind, back)
        elif kind == "bust":
            x.bust(event[2], event[3], back)
        elif kind == "test":
            x.test(back)
        elif kind == "quiet":
            s.quiet(out)
        elif kind == "silent":
            s.silent(out)
        elif kind == "close":
            if s.close(out):
                v.gate = "shut"
        elif kind == "abandon":
            v.gate = "shut"
            s.abandon()
        for m in out:
            v.to.append((s.conn, m))
        for m in back:
            v.back.append((x.last, m))
        if kind in ("take", "drop", "connect", "from", "break", "quiet", "silent", "close", "abandon"):
            self.line(v)

    def rule(self, sweeps, lines):
        """Which rule forbids the loss, or None."""
        if sweeps > len(self.sweeps):
            return "sweeps"
        kept = self.sweeps[:len(self.sweeps) - sweeps]
        for at, v in enumerate(self.venues):
            lost = lines[at] if at < len(lines) else 0
            if lost >= len(v.lines):
                return "journal %d" % at
            s = v.lines[len(v.lines) - 1 - lost]
            if v.reached > len(s.to):
                return "wire %d" % at
            if s.left > len(self.released(at, kept)):
                return "release %d" % at
            now, then = self.states(at), self.states(at, s.left, s.session)
            if any(a == "withdrawn" and b != "withdrawn" for a, b in zip(now, then)):
                return "withdrawal %d" % at
        return None

    def crash(self, sweeps, lines):
        why = self.rule(sweeps, lines)
        if why:
            raise Fault(why)
        self.sweeps = self.sweeps[:len(self.sweeps) - sweeps]
        for at, v in enumerate(self.venues):
            lost = lines[at] if at < len(lines) else 0
            v.lines = v.lines[:len(v.lines) - lost]
            s = v.lines[-1]
            v.session = copy.deepcopy(s.session)
            v.session.broken()
            v.to, v.given = list(s.to), list(s.given)
            v.left = len(self.released(at))
            v.gate = "shut" if s.shut else "down"
        self.book = Book()
        for number, legs in enumerate(self.sweeps, 1):
            self.book.open_sweep(number, legs)
        for at, v in enumerate(self.venues):
            for note in v.given:
                self.book.apply(at, note)
            for (leg, _), state in zip(self.released(at), self.states(at)):
                if state == "withdrawn":
                    self.book.withdraw(leg)
        for v in self.venues:
            self.line(v)

    def printed(self):
        text = []
        name = lambda leg: "S%dL%d" % leg
        for at, v in enumerate(self.venues):
            legs, states = self.released(at), self.states(at)
            pick = lambda what: " ".join(name(leg[0]) for leg, s in zip(legs, states) if s == what)
            text.append("venue %d accepted [%s] withdrawn [%s] doubt [%s] phase %s closed %s" % (
                at, " ".join(name(o.leg) for o in v.exchange.orders), pick("withdrawn"), pick("doubt"), v.session.phase,
                "yes" if v.exchange.closed else "no"))
        for number, legs in enumerate(self.sweeps, 1):
            sums = [0] * 7
            for place in range(1, len(legs) + 1):
                for i, n in enumerate(self.book.legs[(number, place)]):
                    sums[i] += n
            text.append("sweep %d legs %d filled %d busted %d cancelled %d withdrawn %d open %d" % (number, *sums[1:]))
        return text

    def frames(self):
        """Each frame: direction, venue, number, connection, and the tags that the model tells."""
        found = []
        for at, v in enumerate(self.venues):
            for way, frames in (("to", v.to), ("from", v.back)):
                for k, (conn, m) in enumerate(frames, 1):
                    found.append((way, at, k, conn, m))
        return found
