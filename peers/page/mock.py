"""A stand-in for a desk's day behind its page: it answers the calls of the interface and tells events, out of a day
that its caller moves. It has no sessions and no exchanges. By itself it plays a day that goes on for ever:

    python3 peers/page/mock.py --port 8080 [--token WORD [--guarded]]
"""

import argparse
import json
import queue
import re
import threading
import time
from datetime import datetime, timezone
from decimal import Decimal
from http.server import BaseHTTPRequestHandler, ThreadingHTTPServer
from pathlib import Path
from urllib.parse import parse_qs, urlsplit

PAGE = Path(__file__).resolve().parents[2] / "pages" / "desk.html"
PARTS = ("filled", "busted", "cancelled", "withdrawn", "open")
MOST_LEGS = 32
MOST_STREAMS = 4
MOST_AT_ONCE = 200
E8 = 10**8
KINDS = {"filled": "fill", "cancelled": "cancelled", "busted": "bust"}
LEG_KEYS = ("venue", "symbol", "side", "shares", "price")


class BadSweep(Exception):
    """What is answered where a body is no sweep."""


def average(value, shares):
    """The average price of shares of this value, both as the interface has them."""
    if shares == 0:
        return None
    rounded = (value * 2 + shares) // (shares * 2)
    return f"{rounded // E8}.{rounded % E8:08}".rstrip("0").rstrip(".")


class Day:
    """Venues and sweeps, and those who are told of them."""

    def __init__(self, names):
        self.run = f"{datetime.now(timezone.utc):%Y-%m-%dT%H:%M:%S.%fZ}"
        # What its file calls it, and where it trades.
        self.label = {}
        self.lock = threading.RLock()
        self.venues = {name: self.new_venue(name) for name in names}
        self.sweeps = []
        self.executions = []
        self.placed = 0
        self.still_open = 0
        self.closing = False
        self.closed = threading.Event()
        self.streams = []
        self.takes_streams = True
        self.answers = True
        # What was placed under a reference, and its answer.
        self.refs = {}
        # How many answers to sweeps are lost from now on.
        self.loses = 0

    @staticmethod
    def new_venue(name):
        counts = {"unsent": 0, "doubt": 0, "settled": 0, "lost": 0, "connections": 1, "refused_dials": 0}
        counts |= {"sent": 2, "received": 2}
        counts["unbooked"] = {"duplicate": 0, "overfill": 0, "stray": 0, "unread": 0}
        return {"venue": name, "state": "up", **counts, "heard": time.monotonic()}

    def venue(self, name, **changes):
        """Changes how a venue stands, and tells it. A cause goes with the state that it came with."""
        with self.lock:
            venue = self.venues[name]
            if "state" in changes:
                for key in ("code", "text", "said", "next_s"):
                    venue.pop(key, None)
            venue.update(changes)
            self.tell("venue", self.shown(venue))

    def hear(self, name):
        """A venue's heartbeat."""
        with self.lock:
            self.venues[name]["received"] += 1
            self.venues[name]["heard"] = time.monotonic()

    @staticmethod
    def shown(venue):
        ago = int((time.monotonic() - venue["heard"]) * 1000)
        return {**{key: value for key, value in venue.items() if key != "heard"}, "heard_ms_ago": ago}

    def place(self, legs, ref=None):
        """A status and its answer."""
        with self.lock:
            if ref in self.refs:
                placed, answer = self.refs[ref]
                if placed == legs:
                    return 200, {**answer, "again": True}
                refusal = {"refused": "R09", "text": "its reference is another sweep's"}
            else:
                refusal = self.refusal(legs)
            if refusal:
                self.tell("refused", refusal)
                return 409, refusal
            number = len(self.sweeps) + 1
            self.sweeps.append([self.new_leg(number, at, leg) for at, leg in enumerate(legs, 1)])
            shares = sum(leg["shares"] for leg in legs)
            self.placed += shares
            self.still_open += shares
            for leg in legs:
                self.venues[leg["venue"]]["sent"] += 1
            self.tell_sweep(number)
            answer = {"placed": number, "shares": shares}
            if ref is not None:
                self.refs[ref] = legs, answer
            return 201, answer

    @staticmethod
    def new_leg(number, at, leg):
        parts = {"filled": 0, "cancelled": 0, "withdrawn": 0, "busted": 0, "open": leg["shares"]}
        paid = {"paid_e8": 0, "average": None, "price_unknown": 0, "disputed": 0}
        return {"leg": f"S{number}L{at}", **leg, **parts, **paid, "state": "doubt"}

    def refusal(self, legs):
        if self.closing:
            return {"refused": "closing", "text": "the day is closing"}
        if not legs:
            return {"refused": "R01", "text": "it has no legs"}
        if len(legs) > MOST_LEGS:
            return {"refused": "R02", "text": "it has more than 32 legs"}
        for leg in legs:
            if self.venues[leg["venue"]]["state"] != "up":
                return {"refused": "R04", "text": "its gate is down", "venue": leg["venue"]}
        return None

    def move(self, number, at, part, shares=None, source="open", state="taken"):
        """Moves shares of a leg from one part to another, all of them where no number is given, and tells it."""
        with self.lock:
            leg = self.sweeps[number - 1][at - 1]
            shares = leg[source] if shares is None else min(shares, leg[source])
            leg[source] -= shares
            self.still_open -= shares if source == "open" else 0
            leg[part] += shares
            leg["paid_e8"] = leg["filled"] * int(Decimal(leg["price"]) * E8)
            leg["average"] = average(leg["paid_e8"], leg["filled"])
            leg["state"] = state
            self.venues[leg["venue"]]["received"] += 1
            self.venues[leg["venue"]]["heard"] = time.monotonic()
            if part in KINDS:
                fill = {"shares": shares, "price": leg["price"]} if part == "filled" else {}
                bust = {"of": "E1"} if part == "busted" else {}
                self.execute(leg["venue"], leg["leg"], KINDS[part], **fill, **bust)
            self.tell_sweep(number)

    def execute(self, venue, leg, kind, **more):
        """An exchange says something of an order. What the book doesn't take is counted at its venue."""
        with self.lock:
            number = len(self.executions) + 1
            about = {"venue": venue, "sweep": int(leg[1:].split("L")[0]), "leg": leg}
            said = {"execution": number, **about, "kind": kind, "exec": f"E{number}", **more}
            self.executions.append(said)
            if "unbooked" in more:
                self.venues[venue]["unbooked"][more["unbooked"]] += 1
            self.tell("execution", said, number)

    def totals(self, number):
        legs = self.sweeps[number - 1]
        sums = {key: sum(leg[key] for leg in legs) for key in (*PARTS, "paid_e8", "price_unknown", "disputed")}
        price = average(sums["paid_e8"], sums["filled"] - sums["price_unknown"])
        return {"sweep": number, "legs": sum(leg["shares"] for leg in legs), **sums, "average": price}

    def dispute(self, number, at, shares):
        """A trade of so many shares of a leg is told that the book doesn't take."""
        with self.lock:
            leg = self.sweeps[number - 1][at - 1]
            leg["disputed"] += shares
            self.execute(leg["venue"], leg["leg"], "fill", shares=shares, price=leg["price"], unbooked="overfill")
            self.tell_sweep(number)

    def sums(self):
        resolved = self.placed - self.still_open
        return {"placed": self.placed, "resolved": resolved, "open": self.still_open}

    def tell_sweep(self, number):
        self.tell("sweep", self.totals(number))
        self.tell("day", self.sums())

    def tell(self, name, said, id=None):
        head = f"id: {id}\n" if id else ""
        for stream in self.streams:
            stream.put(f"{head}event: {name}\ndata: {json.dumps(said)}\n\n")

    def cut_streams(self):
        with self.lock:
            for stream in self.streams:
                stream.put(None)

    def close(self):
        """Stops taking sweeps; what is open is cancelled a moment later, and the day ends."""
        with self.lock:
            if not self.closing:
                self.closing = True
                threading.Thread(target=self.end, daemon=True).start()

    def end(self):
        time.sleep(0.7)
        for number, legs in enumerate(self.sweeps, 1):
            for at, leg in enumerate(legs, 1):
                if leg["open"]:
                    self.move(number, at, "cancelled")
        for name in self.venues:
            self.venue(name, state="closed", code="E12", text="it answered our logout")
        self.tell("closed", {"audit": "ok"})
        self.closed.set()


def sweep_of(text, names):
    """The legs that a body asks for, and its reference, if it has one."""
    try:
        body = json.loads(text)
    except json.JSONDecodeError as fault:
        raise BadSweep({"fault": fault.msg, "line": fault.lineno, "column": fault.colno}) from None
    if not isinstance(body, dict) or not {"legs"} <= set(body) <= {"legs", "ref"} or not isinstance(body["legs"], list):
        raise BadSweep({"fault": "a sweep is an object with legs"})
    for at, leg in enumerate(body["legs"], 1):
        for key, words in faults_of(leg, names):
            raise BadSweep({"fault": words, "leg": at, "key": key})
    return body["legs"], body.get("ref")


def faults_of(leg, names):
    for key in sorted(set(leg) - set(LEG_KEYS)):
        yield key, f"unknown key {key}"
    for key in LEG_KEYS:
        if key not in leg:
            yield key, f"{key} is missing"
    if leg["venue"] not in names:
        yield "venue", f"no venue {leg['venue']}"
    if not re.fullmatch(r"[A-Z]{1,6}(\.[A-Z]{1,3})?", str(leg["symbol"])):
        yield "symbol", f"bad symbol {leg['symbol']}"
    if leg["side"] not in ("buy", "sell"):
        yield "side", f"bad side {leg['side']}"
    if type(leg["shares"]) is not int or not 1 <= leg["shares"] <= 1_000_000:
        yield "shares", f"bad shares {leg['shares']}"
    if not re.fullmatch(r"\d+\.?\d{0,4}0*|\.\d{1,4}0*", str(leg["price"])) or not 0.0001 <= float(leg["price"]) < 1e6:
        yield "price", f"bad price {leg['price']}"


class Handler(BaseHTTPRequestHandler):
    """One request of the interface, as the desk answers it."""

    protocol_version = "HTTP/1.1"

    def log_message(self, *words):
        pass

    def answer(self, status, said, kind="application/json"):
        body = said if isinstance(said, bytes) else json.dumps(said).encode()
        self.send_response(status)
        self.send_header("Content-Type", kind)
        self.send_header("Content-Length", str(len(body)))
        self.send_header("Dispatch-Run", self.server.day.run)
        self.send_header("Cache-Control", "no-store")
        self.send_header("X-Content-Type-Options", "nosniff")
        self.send_header("Connection", "close")
        self.end_headers()
        self.wfile.write(body)
        self.close_connection = True

    def knows_token(self):
        token = self.server.token
        return not token or self.headers.get("Authorization") == f"Bearer {token}"

    def hangs(self):
        """Whether the desk doesn't answer at all."""
        if not self.server.day.answers:
            self.close_connection = True
            return True
        if self.headers.get("Host") != self.server.host:
            self.answer(403, {"fault": "a foreign host"})
            return True
        return False

    def do_GET(self):
        if self.hangs():
            return
        day = self.server.day
        place = urlsplit(self.path)
        if place.path == "/":
            self.answer(200, PAGE.read_bytes(), "text/html; charset=utf-8")
        elif self.server.guarded and not self.knows_token():
            self.answer(401, {"fault": "no token, or another one"})
        elif place.path == "/api/events":
            self.stream()
        elif place.path == "/api/venues":
            with day.lock:
                self.answer(200, {"venues": [day.shown(venue) for venue in day.venues.values()]})
        elif place.path == "/api/sweeps":
            asked = parse_qs(place.query)
            if "ref" in asked:
                _, answer = day.refs.get(asked["ref"][0], (None, {"placed": 0}))
                self.answer_legs(answer["placed"])
            else:
                self.answer_sweeps({key: int(values[0]) for key, values in asked.items()})
        elif place.path == "/api/executions":
            self.answer_executions({key: int(values[0]) for key, values in parse_qs(place.query).items()})
        elif found := re.fullmatch(r"/api/sweeps/(\d+)", place.path):
            self.answer_legs(int(found[1]))
        else:
            self.answer(404, {"fault": "no such place"})

    def answer_sweeps(self, asked):
        day = self.server.day
        after, most = asked.get("after", 0), min(asked.get("most", MOST_AT_ONCE), MOST_AT_ONCE)
        with day.lock:
            numbers = range(after + 1, min(after + most, len(day.sweeps)) + 1)
            sweeps = [day.totals(number) for number in numbers]
            self.answer(200, {"sweeps": sweeps, "day": day.sums(), "closing": day.closing})

    def answer_executions(self, asked):
        day = self.server.day
        after, most = asked.get("after", 0), min(asked.get("most", MOST_AT_ONCE), MOST_AT_ONCE)
        with day.lock:
            self.answer(200, {"executions": day.executions[after : after + most], "last": len(day.executions)})

    def answer_legs(self, number):
        day = self.server.day
        with day.lock:
            if 1 <= number <= len(day.sweeps):
                self.answer(200, {"sweep": number, "legs": day.sweeps[number - 1]})
            else:
                self.answer(404, {"fault": "no such sweep"})

    def stream(self):
        day = self.server.day
        with day.lock:
            if not day.takes_streams or len(day.streams) >= MOST_STREAMS:
                self.answer(503, {"fault": "too many streams"})
                return
            events = queue.Queue()
            events.put(f"event: run\ndata: {json.dumps({'run': day.run, **day.label})}\n\n")
            day.streams.append(events)
        try:
            self.send_response(200)
            self.send_header("Content-Type", "text/event-stream")
            self.send_header("Dispatch-Run", day.run)
            self.send_header("Cache-Control", "no-store")
            self.send_header("Connection", "close")
            self.end_headers()
            self.write_events(events)
        except OSError:
            pass
        finally:
            with day.lock:
                day.streams.remove(events)
            self.close_connection = True

    def write_events(self, events):
        while True:
            try:
                said = events.get(timeout=1)
            except queue.Empty:
                said = ": still here\n\n"
            if said is None:
                return
            self.wfile.write(said.encode())

    def do_POST(self):
        if self.hangs():
            return
        body = self.rfile.read(int(self.headers.get("Content-Length", 0)))
        if self.headers.get("Origin", f"http://{self.server.host}") != f"http://{self.server.host}":
            self.answer(403, {"fault": "a foreign origin"})
        elif self.headers.get("Content-Type") != "application/json":
            self.answer(415, {"fault": "another content type"})
        elif not self.knows_token():
            self.answer(401, {"fault": "no token, or another one"})
        elif self.path == "/api/sweeps":
            self.place(body)
        elif self.path == "/api/close":
            self.answer(202, {"closing": True})
            self.server.day.close()
        else:
            self.answer(404, {"fault": "no such place"})

    def place(self, body):
        try:
            legs, ref = sweep_of(body.decode(), self.server.day.venues)
            ref = ref or self.headers.get("Idempotency-Key")
        except BadSweep as fault:
            self.answer(400, fault.args[0])
            return
        status, answer = self.server.day.place(legs, ref)
        if self.server.day.loses > 0:
            self.server.day.loses -= 1
            self.close_connection = True
            return
        self.answer(status, answer)


class Server(ThreadingHTTPServer):
    """Serves a day on a port of this machine, any free one where 0 is asked for."""

    daemon_threads = True

    def __init__(self, day, port=0, token=None, guarded=False):
        super().__init__(("127.0.0.1", port), Handler)
        self.day = day
        self.token = token
        # Whether the token is asked for by the calls that read, too.
        self.guarded = guarded
        self.host = f"127.0.0.1:{self.server_port}"
        self.base = f"http://{self.host}"
        threading.Thread(target=self.serve_forever, daemon=True).start()


def leg(venue, symbol, side, shares, price):
    return {"venue": venue, "symbol": symbol, "side": side, "shares": shares, "price": price}


def morning():
    """A day of five venues, one in each state, and of some sweeps."""
    day = Day(["NYSE", "ARCA", "NSDQ", "BATS", "EDGX"])
    day.place([leg("NYSE", "BRK.B", "buy", 100, "412.25"), leg("ARCA", "IBM", "sell", 50, "187.5")])
    day.move(1, 1, "filled", 100)
    day.move(1, 2, "filled", 30)
    day.move(1, 2, "cancelled")
    day.dispute(1, 2, 20)
    day.place([leg("NSDQ", "MSFT", "buy", 4000, "415.1"), leg("NYSE", "MSFT", "buy", 1500, "415.1"),
               leg("BATS", "MSFT", "buy", 900, "415.12"), leg("EDGX", "MSFT", "buy", 600, "415.12")])
    day.move(2, 1, "filled", 2600)
    day.move(2, 1, "cancelled")
    day.move(2, 2, "filled", 1500)
    day.move(2, 2, "busted", 300, source="filled")
    day.move(2, 3, "withdrawn", state="withdrawn")
    day.move(2, 4, "filled", 600)
    day.place([leg("ARCA", "T", "sell", 12000, "22.04"), leg("NSDQ", "T", "sell", 8000, "22.04")])
    day.move(3, 1, "filled", 12000)
    day.move(3, 2, "filled", 5000)
    day.place([leg("BATS", "GE", "buy", 700, "168.3")])
    day.place([leg("NYSE", "KO", "buy", 2500, "61.77"), leg("ARCA", "KO", "buy", 2500, "61.77")])
    day.move(5, 1, "filled", 1900)
    return day


def troubles(day):
    """Puts the venues of the morning into the five states."""
    day.venue("ARCA", state="down", code="E10", text="it was silent", doubt=1, connections=3, unsent=0,
              heard=time.monotonic() - 64)
    day.venue("BATS", state="unreachable", text="connection refused", next_s=4, refused_dials=6, doubt=1, lost=2,
              heard=time.monotonic() - 190)
    day.venue("NSDQ", connections=2)
    day.venue("EDGX", state="closed", code="E07", text="it logged out", said="back at noon")


def many():
    """A day of sixteen venues, some of which are in trouble of each kind."""
    day = Day([*morning().venues, "EDGA", "BATY", "BX", "PHLX", "IEX", "MEMX", "MIAX", "LTSE", "CHX", "AMEX", "NSX"])
    for number in range(1, 41):
        day.place([leg("NYSE", "IBM" if number % 2 else "KO", "buy", 100 * number, "187.5")])
        day.move(number, 1, "filled", 60 * number)
        day.move(number, 1, "cancelled", 30 * number if number % 3 else None)
    troubles(day)
    day.venue("IEX", state="dialled", connections=0, sent=0, received=0)
    day.venue("LTSE", state="dialled", connections=1, sent=1, received=0)
    day.venue("PHLX", state="dialled", connections=1, sent=2, received=1, heard=time.monotonic() - 12)
    day.execute("MEMX", "S7L1", "fill", shares=200, price="187.5", order="O7", text="late report", unbooked="stray")
    return day


def go_on(day):
    """Places a sweep now and then, and lets it trade."""
    names = ["NYSE", "NSDQ"]
    while not day.closing:
        time.sleep(1.5)
        venue = names[len(day.sweeps) % 2]
        status, said = day.place([leg(venue, "IBM", "buy", 300, "187.5"), leg("NYSE", "BRK.B", "sell", 100, "412.3")])
        if status == 201:
            day.move(said["placed"], 1, "filled", 100 + len(day.sweeps) % 5 * 50)
            time.sleep(0.5)
            day.move(said["placed"], 1, "cancelled")
            day.move(said["placed"], 2, "filled")
        for name in names:
            day.hear(name)


def main():
    words = argparse.ArgumentParser(description=__doc__)
    words.add_argument("--port", type=int, default=8080)
    words.add_argument("--token")
    words.add_argument("--guarded", action="store_true")
    asked = words.parse_args()
    day = morning()
    troubles(day)
    server = Server(day, asked.port, asked.token, asked.guarded)
    print(f"the page is at {server.base}", flush=True)
    threading.Thread(target=go_on, args=(day,), daemon=True).start()
    try:
        day.closed.wait()
        time.sleep(1)
    except KeyboardInterrupt:
        pass


if __name__ == "__main__":
    main()
