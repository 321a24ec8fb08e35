"""What the desk's page has to show and do, each a check in a browser. Those that move the desk behind the page need the
stand-in; against another desk they are skipped."""

import json
import re
import threading
import time
import urllib.request
from decimal import ROUND_HALF_UP, Decimal

import mock
from browser import WITHIN, Failed, Page

PARTS = ("filled", "busted", "cancelled", "withdrawn", "open")
SCREENS = ((390, 844), (1024, 768), (1440, 900))
WINDOW = 200
HOSTILE = "<img src=x onerror='document.title=1'><b>bold</b>"


class Skipped(Exception):
    """Why a check can't be made of this desk."""


class Trial:
    """A page in a browser, and the desk behind it: a stand-in with its day, a desk that can be stopped and started
    again, or one of which nothing more is known than where it is."""

    def __init__(self, browser, base, day=None, desk=None):
        self.browser = browser
        self.base = base
        self.day = day
        self.desk = desk
        self.ended = None
        self.page = self.open(f"{base}/")

    def open(self, url, **more):
        page = Page(self.browser, url, **more)
        page.until("typeof following === 'boolean' && following", "the page follows the events")
        return page

    def ask(self, path):
        with urllib.request.urlopen(self.base + path, timeout=WITHIN) as answer:
            return json.load(answer)

    def stand_in(self):
        if self.day is None:
            raise Skipped("it needs the stand-in")
        return self.day

    def sweeps(self, after=0):
        """The sweeps behind a number, which the desk tells in pages."""
        found = []
        while more := self.ask(f"/api/sweeps?after={found[-1]['sweep'] if found else after}&most={WINDOW}")["sweeps"]:
            found += more
        return found

    def newest(self):
        """The newest sweeps, as many as a page shows at first."""
        sweeps = self.sweeps()
        return sweeps[-WINDOW:]

    def venue_that_is(self, is_up):
        names = [venue["venue"] for venue in self.ask("/api/venues")["venues"] if (venue["state"] == "up") == is_up]
        if not names:
            raise Skipped(f"no venue is {'up' if is_up else 'not up'}")
        return names[0]


def expect(found, wanted, what):
    if found != wanted:
        raise Failed(f"{what}: {found!r}, and not {wanted!r}")


def phase_of(venue):
    """The word for how a venue stands on a day that isn't closing, by docs/page.md."""
    if venue["state"] != "dialled":
        return venue["state"]
    return "settling" if venue["received"] else "logging on" if venue["connections"] else "dialling"


def row(page, number):
    """The shares and the five parts that the page shows of a sweep."""
    cells = f"document.querySelectorAll('#sweep-{number} tr:first-child > *')"
    cells = page.run(f"[...{cells}].map(cell => cell.textContent)")
    return cells and [int(cells[at].replace(",", "")) for at in (1, 3, 4, 5, 6, 7)]


def sweep_of(said):
    return [said["legs"], *(said[part] for part in PARTS)]


def rounded(price):
    """A price to four decimals, of which at least two are shown."""
    whole, decimals = f"{Decimal(price).quantize(Decimal('0.0001'), ROUND_HALF_UP):,}".split(".")
    return f"{whole}.{decimals[:2]}{decimals[2:].rstrip('0')}"


def price_of(said):
    """The words behind the parts of a sweep or a leg: its average price, what was paid to the cent, and which shares
    have no price or are disputed."""
    words = [f"{said['price_unknown']:,} at an unknown price"] if said["price_unknown"] else []
    words += [f"{said['disputed']:,} disputed"] if said["disputed"] else []
    if not said["average"]:
        return ["–", "", ", ".join(words)]
    cents = (Decimal(said["paid_e8"]) / 10**8).quantize(Decimal("0.01"), ROUND_HALF_UP)
    return [rounded(said["average"]), f"${cents:,}", ", ".join(words)]


def order_of(legs):
    """What a sweep of these legs trades."""
    symbols = {leg["symbol"] for leg in legs}
    sides = " and ".join(sorted({leg["side"] for leg in legs}))
    return f"{sides} {legs[0]['symbol']}" if len(symbols) == 1 else f"{len(symbols)} symbols"


def parts_of(leg):
    return f"{leg['shares']:,} shares: " + ", ".join(f"{leg[part]:,} {part}" for part in PARTS if leg[part])


def fill_leg(page, at, venue, side, shares, symbol, price):
    """Fills the form's leg at a place."""
    for name, value in (("venue", venue), ("side", side)):
        page.run(f"""(() => {{ const field = document.querySelectorAll('[name={name}]')[{at}];
            field.value = {json.dumps(value)}; field.dispatchEvent(new Event('input', {{ bubbles: true }})) }})()""")
    for name, value in (("shares", shares), ("symbol", symbol), ("price", price)):
        page.run(f"(field => {{ field.focus(); field.select() }})(document.querySelectorAll('[name={name}]')[{at}])")
        page.type(str(value))


def press(page, selector):
    page.run(f"document.querySelector({json.dumps(selector)}).click()")


def text(page, selector):
    return page.run(f"document.querySelector({json.dumps(selector)}).textContent")


def says(page, selector, start, what, within=WITHIN):
    """Waits until an element's text begins so."""
    begins = f"document.querySelector({json.dumps(selector)}).textContent.startsWith({json.dumps(start)})"
    page.until(begins, what, within)


def texts(page, selector):
    return page.run(f"[...document.querySelectorAll({json.dumps(selector)})].map(one => one.textContent)")


def rows(page):
    """The numbers of the sweeps that the table has."""
    return page.run("[...document.querySelectorAll('#table tbody')].map(body => Number(body.id.slice(6)))")


def settled(compare):
    """A comparison that holds once the page has heard what the desk says; a desk may go on meanwhile."""
    end = time.monotonic() + WITHIN
    while time.monotonic() < end:
        try:
            return compare()
        except Failed:
            time.sleep(0.1)
    return compare()


def shows_the_sweeps(trial):
    """Each of the newest sweeps, the newest first, has the shares and parts that the desk says, and a bar of them."""
    settled(lambda: compare_sweeps(trial))
    numbers = rows(trial.page)
    expect(numbers, sorted(numbers, reverse=True), "newest first")


def compare_sweeps(trial):
    sweeps, said = trial.newest(), trial.ask("/api/sweeps?after=0&most=1")
    expect(len(sweeps) > 0, True, "the desk has sweeps")
    for sweep in sweeps[-20:]:
        expect(row(trial.page, sweep["sweep"]), sweep_of(sweep), f"sweep {sweep['sweep']}")
        widths = trial.page.run(f"""[...document.querySelectorAll('#sweep-{sweep["sweep"]} tr:first-child .bar span')]
            .map(part => part.getBoundingClientRect().width > 0)""")
        expect(widths, [sweep[part] > 0 for part in PARTS], f"the bar of sweep {sweep['sweep']}")
        cell = f"[...document.querySelector('#sweep-{sweep['sweep']} tr').cells].at(-1)"
        price = trial.page.run(f"[...{cell}.children].map(part => part.textContent)")
        expect(price, price_of(sweep), f"the price and dollars of sweep {sweep['sweep']}")
    for part in ("placed", "resolved", "open"):
        expect(text(trial.page, f"#sum-{part}"), f"{said['day'][part]:,}", part)
    count = part_of_day(sweeps[-1]["sweep"])
    expect(text(trial.page, "#sweeps-note"), count[0].upper() + count[1:], "what the table has")


def some(count, word):
    return f"{count:,} {word}" if count == 1 else f"{count:,} {word}s"


def part_of_day(total, shown=WINDOW):
    """What the table has of so many sweeps, where it shows so many."""
    return f"the {shown} newest of {total:,} sweeps" if total > shown else f"all {some(total, 'sweep')} of the day"


def says_what_a_sweep_trades(trial):
    """A sweep in view has its symbol and side, or how many symbols it has; and when it came, if the page was open."""
    trial.page.run("document.querySelector('#sweeps').scrollIntoView()")
    settled(lambda: compare_orders(trial))
    number = trial.newest()[-1]["sweep"] + 1
    if trial.day:
        trial.day.place([mock.leg("NYSE", "GE", "sell", 30, "168.3")])
    elif trial.desk:
        trial.desk.place("sweep NYSE GE sell 30 168.3")
    else:
        return
    trial.page.until(f"document.querySelector('#sweep-{number}') !== null", "the new sweep is shown")
    came = text(trial.page, f"#sweep-{number} .came")
    expect(re.fullmatch(r"\d\d:\d\d:\d\d UTC", came) is not None, True, f"when it came, {came!r}")
    expect(texts(trial.page, f"#sweep-{number - 1} .came"), [""], "of one before the page nobody says when it came")


def compare_orders(trial):
    for sweep in trial.newest()[-4:]:
        number = sweep["sweep"]
        wanted = order_of(trial.ask(f"/api/sweeps/{number}")["legs"])
        expect(texts(trial.page, f"#sweep-{number} .order"), [wanted], f"what sweep {number} trades")


def finds_a_sweep(trial):
    """The desk is asked for a number and a reference, also of a sweep that isn't loaded; a symbol is looked for in the
    sweeps that are loaded, and the page says so."""
    page, total = trial.page, len(trial.sweeps())
    look_for(page, "1")
    says(page, "#find-note", "Sweep 1 is there.", "sweep 1")
    expect(1 in rows(page), True, "it is shown")
    look_for(page, "999999")
    says(page, "#find-note", "The desk has no sweep 999,999.", "no sweep")
    expect(rows(page), [], "nothing is shown")
    if trial.desk:
        look_for(page, "R-2")
        page.until("document.querySelector('#find-note').textContent.endsWith('is that of sweep 2.')", "a reference")
        expect(rows(page), [2], "its sweep is shown")
        expect(text(page, "#sweeps-note"), "1 sweep found", "how many were found")
    look_for(page, "ibm")
    where = f"The symbol is looked for in {part_of_day(total)}; no others are looked at."
    says(page, "#find-note", f"The desk has no reference ibm. {where}", "where the symbol is looked for")
    wanted = [sweep["sweep"] for sweep in trial.newest()
              if any(leg["symbol"] == "IBM" for leg in trial.ask(f"/api/sweeps/{sweep['sweep']}")["legs"])]
    expect(rows(page), wanted[::-1], "the sweeps with the symbol")
    expect(text(page, "#sweeps-note"), f"{some(len(wanted), 'sweep')} found", "how many were found")
    if total > WINDOW:
        press(page, "#older")
        where = f"The symbol is looked for in {part_of_day(total, 2 * WINDOW)};"
        says(page, "#find-note", f"The desk has no reference ibm. {where}", "older ones too")
    look_for(page, "")
    page.until(f"document.querySelectorAll('#table tbody').length >= {min(total, WINDOW)}", "all are shown again")


def look_for(page, words):
    page.run("(field => { field.focus(); field.value = '' })(document.querySelector('#find'))")
    if words:
        page.type(words)
    page.key("Enter")


def shows_what_is_open(trial):
    """The sweeps with open shares are those of the whole day, and not those that are loaded; the count says so."""
    if trial.desk:
        return compare_open(trial, trial.page)
    trial.stand_in()
    day = mock.Day(["NYSE"])
    for number in range(1, 1201):
        day.place([mock.leg("NYSE", "IBM", "buy", 100, "1")])
        if number % 170:
            day.move(number, 1, "filled")
    server = mock.Server(day)
    stood_in = Trial(trial.browser, server.base, day)
    page = stood_in.page
    compare_open(stood_in, page)
    press(page, "#only-open")
    page.until("document.querySelectorAll('#table tbody').length === 7", "the open ones again")
    day.move(170, 1, "filled")
    page.until("document.querySelectorAll('#table tbody').length === 6", "one that is filled leaves")
    page.close()
    server.shutdown()


def compare_open(trial, page):
    wanted = [sweep["sweep"] for sweep in trial.sweeps() if sweep["open"]]
    expect(len(wanted) > 0, True, "some are open")
    press(page, "#only-open")
    says(page, "#sweeps-note", f"{some(len(wanted), 'sweep')} with open shares, all of the day's", "how many are open")
    expect(rows(page), wanted[::-1], "they are shown")
    press(page, "#only-open")
    page.until(f"document.querySelectorAll('#table tbody').length > {len(wanted)}", "all are shown again")


def shows_executions(trial):
    """The newest executions are listed, and all that the book didn't take, with an alarm at the top and in the title.
    """
    page, server = trial.page, None
    if trial.day:
        server = mock.Server(mock.many())
        trial = Trial(trial.browser, server.base, server.day)
        page = trial.page
    settled(lambda: compare_executions(trial, page))
    if server:
        server.day.execute("IEX", "S3L1", "fill", shares=1200, price="1.5", unbooked="overfill")
        page.until("document.title.startsWith('2 unbooked')", "another one is told")
        expect(text(page, "#unbooked li").startswith("! IEX S3L1 fill 1,200 at 1.5: overfill"), True, "it is first")
        expect("IEX S3L1" in text(page, "#news"), True, "a screen reader says it")
        page.close()
        server.shutdown()


def numbers_in(lines):
    """The numbers of listed executions."""
    return [int(re.search(r"#([\d,]+)", line)[1].replace(",", "")) for line in lines]


def compare_executions(trial, page):
    told = []
    while more := trial.ask(f"/api/executions?after={len(told)}&most={WINDOW}")["executions"]:
        told += more
    unbooked = [said for said in told if "unbooked" in said]
    shown = min(len(told), 100)
    count = f"The {shown:,} newest of {len(told):,}" if shown < len(told) else f"{shown:,} in all"
    expect(text(page, "#executions-note"), count, "how many are listed")
    newest = [said["execution"] for said in told[: -shown - 1 : -1]]
    expect(numbers_in(texts(page, "#executions li")), newest, "the newest")
    expect(numbers_in(texts(page, "#unbooked li")), [said["execution"] for said in unbooked[::-1]], "the unbooked")
    if unbooked:
        expect(text(page, "#unbooked-note"), f"{len(unbooked)} in all", "how many they are")
        expect(text(page, "#alarm").startswith(f"{len(unbooked)} report"), True, "an alarm")
        expect(page.run("document.querySelector('#alarm').getAttribute('role')"), "alert", "a screen reader says it")
        expect(page.run("document.title").startswith(f"{len(unbooked)} unbooked"), True, "the tab's title says it")
    else:
        expect(page.run("document.querySelector('#alarm').hidden"), True, "no alarm")


def opens_a_sweep(trial):
    """A sweep is opened and closed by the keyboard, and shows its legs."""
    page = trial.page
    number = rows(page)[-1]
    page.run(f"document.querySelector('#sweep-{number} button').focus()")
    page.key("Enter")
    legs = f"document.querySelectorAll('#sweep-{number} tr.leg').length"
    page.until(f"{legs} === {len(trial.ask(f'/api/sweeps/{number}')['legs'])}", "its legs are shown")
    settled(lambda: compare_legs(trial, number))
    expect(page.run("document.activeElement.ariaExpanded"), "true", "it says that it is open")
    if page.run("document.querySelectorAll('tbody').length") > 1:
        page.key("ArrowUp")
        expect(page.run("document.activeElement.closest('tbody').id"), f"sweep-{number + 1}", "up to the next")
    first = "document.activeElement === document.querySelector('tbody button')"
    settled(lambda: (page.key("Home"), expect(page.run(first), True, "to the first")))
    page.key("End")
    page.key("Enter")
    page.until(f"{legs} === 0", "it is closed again")


def compare_legs(trial, number):
    for at, leg in enumerate(trial.ask(f"/api/sweeps/{number}")["legs"], 2):
        leg_row = f"document.querySelector('#sweep-{number} tr:nth-child({at})')"
        cells = trial.page.run(f"[...{leg_row}.cells].map(cell => cell.textContent)")
        words = f"{leg['venue']} {leg['side']} {leg['symbol']} at {leg['price']}"
        head = f"{words}{leg['leg']}, {leg['state']}{parts_of(leg)}"
        parts = [f"{leg[part]:,}" for part in PARTS]
        expect(cells, [head, f"{leg['shares']:,}", "", *parts, "".join(price_of(leg))], leg["leg"])


def shows_the_venues(trial):
    """Each venue has its name, its state in a word, and a lamp of that state's shape."""
    if trial.day:
        mock.troubles(trial.day)
        trial.page.until("document.title.includes('3 of 5 not up')", "it shows the states")
    shapes = settled(lambda: compare_venues(trial))
    expect(len(set(shapes.values())), len(shapes), "shapes differ between states")
    if trial.day:
        expect(sorted(shapes), ["closed", "down", "unreachable", "up"], "the states that were shown")
        for name in trial.day.venues:
            trial.day.venue(name, state="up")


def compare_venues(trial):
    """The shape of each state that is shown; each venue is shown as the desk says."""
    shapes = {}
    for venue in trial.ask("/api/venues")["venues"]:
        card, phase = f"[data-venue='{venue['venue']}']", phase_of(venue)
        expect(text(trial.page, f"{card} .name"), venue["venue"], "its name")
        expect(text(trial.page, f"{card} .state"), phase, f"the state of {venue['venue']}")
        shape = trial.page.run(f"document.querySelector(\"{card} path\").getAttribute('d')")
        expect(shapes.setdefault(phase, shape), shape, f"the shape of {phase}")
        facts = trial.page.run(f"[...document.querySelectorAll(\"{card} dd\")].map(fact => fact.textContent)")
        counts = [venue.get("doubt"), sum(venue["unbooked"].values()), venue.get("unsent")]
        wanted = [*counts, None, venue.get("connections"), venue.get("refused_dials")]
        for found, count, less in zip(facts, wanted, (0, 0, 0, 0, 1, 0)):
            if count is not None:
                expect(found, f"{max(0, count - less):,}", f"a count of {venue['venue']}")
    return shapes


def puts_trouble_first(trial):
    """Sixteen venues are seen in one screen, those in trouble first, each with a word of its own; details on demand."""
    server = None
    if trial.day:
        server = mock.Server(mock.many())
        trial = Trial(trial.browser, server.base, server.day)
    elif trial.desk is None:
        raise Skipped("it needs sixteen venues")
    page = trial.page
    shapes = settled(lambda: compare_venues(trial))
    expect(len(set(shapes.values())), len(shapes), "shapes differ between states")
    wanted = {"up", "down", "unreachable"}
    wanted |= {"closed", "dialling", "logging on", "settling"} if server else set()
    expect(wanted <= set(shapes), True, f"words for how they stand, {sorted(shapes)}")
    page.run("document.activeElement.blur()")
    page.until("!document.querySelector('#lamps').contains(document.activeElement)", "nothing of them has the focus")
    settled(lambda: compare_order(page))
    for width, height in SCREENS:
        page.size(width, height)
        page.run("document.querySelector('#venues').scrollIntoView()")
        page.until(f"innerWidth === {width}", "the size")
        boxes = page.run("[...document.querySelectorAll('.venue')].map(one => one.getBoundingClientRect().toJSON())")
        expect(len(boxes), 16, "venues")
        high = max(box["bottom"] for box in boxes) - min(box["top"] for box in boxes)
        expect(high <= height, True, f"{high} pixels of venues at {width} by {height}")
    page.size(1440, 900)
    facts = "document.querySelector('.venue .facts').checkVisibility()"
    expect(page.run(facts), False, "no details at first")
    page.run("document.querySelector('.venue .chip').focus()")
    page.key("Enter")
    expect([page.run(facts), page.run("document.activeElement.ariaExpanded")], [True, "true"], "details on demand")
    page.key("Enter")
    expect(page.run(facts), False, "and they go again")
    if server:
        page.close()
        server.shutdown()


def compare_order(page):
    states = page.run("[...document.querySelectorAll('.venue')].map(one => one.dataset.state)")
    expect([state == "up" for state in states], sorted(state == "up" for state in states), "trouble is first")


def fits_a_phone(trial):
    """At a phone's width what is open is seen without scrolling sideways, and the page isn't many screens high."""
    page = trial.page
    page.size(390, 844)
    page.until("innerWidth === 390", "the size")
    for selector in ("#sum-open", "#table thead th:nth-child(8)", "#table tbody td:nth-child(8)"):
        box = page.run(f"document.querySelector('{selector}').getBoundingClientRect().toJSON()")
        expect(0 <= box["left"] < box["right"] <= 390, True, f"{selector} is seen")
    expect(page.run("document.querySelector('#table thead th:nth-child(8)').textContent"), "Open", "the column")
    high = page.run("document.documentElement.scrollHeight")
    expect(high <= 5 * 844, True, f"{high} pixels high")
    page.size(1440, 900)


def greys_what_is_stale(trial):
    """Where the desk doesn't answer, nothing that it said before looks live: lamps, bars and words are grey."""
    page = trial.page
    if not trial.day and not trial.desk:
        raise Skipped("it needs a desk that can be stopped")
    if trial.day:
        trial.day.answers = trial.day.takes_streams = False
        trial.day.cut_streams()
    else:
        trial.desk.stop()
    try:
        page.until("document.body.classList.contains('stale')", "it says that it is stale")
        colours = page.run("[...new Set([...document.querySelectorAll('.venue, .venue .lamp, .venue .state')]"
                           ".map(one => getComputedStyle(one).color))]")
        off = page.run("(one => { one.className = 'off'; document.body.append(one); "
                       "return getComputedStyle(one).color })(document.createElement('i'))")
        page.run("document.body.lastChild.remove()")
        expect(colours, [off], "the colours of lamps")
        expect(page.run("getComputedStyle(document.querySelector('.bar .filled')).backgroundColor"), off, "of bars")
        states = texts(page, ".venue .state")
        expect([state.startswith("was ") for state in states], [True] * len(states), "how they stood")
        expect(text(page, "#standing").startswith("No answer since"), True, "the top line")
        page.until("document.title.startsWith('No answer')", "the tab's title says so")
        for scheme in ("light", "dark"):
            page.scheme(scheme)
            expect(page.run(CONTRAST)[1], [], f"too little contrast, {scheme}")
        page.scheme("light")
    finally:
        if trial.day:
            trial.day.answers = trial.day.takes_streams = True
        else:
            trial.desk.go_on()
    page.until("following && !document.body.classList.contains('stale')", "it is live again")
    expect(page.run("document.querySelector('.venue[data-state=up] .state').textContent"), "up", "a venue that is up")


def hands_in(trial):
    """A sweep of two legs is asked back once, can be taken back, and is placed once it is confirmed."""
    page, venue = trial.page, trial.venue_that_is(True)
    fill_leg(page, 0, venue, "buy", 100, "brk.b", "10.25")
    press(page, "#add")
    fill_leg(page, 1, venue, "sell", 50, "IBM", "187.5")
    expect(text(page, "#total"), "2 legs, 150 shares, $10,400.00", "the form's sum")
    page.key("Enter")
    page.until("document.querySelector('#ask').open", "it is asked back")
    expect(page.run("document.activeElement.id"), "ask-no", "a second Enter goes back")
    body = text(page, "#ask-body")
    for words in (f"{venue} buy 100 BRK.B at 10.25", f"{venue} sell 50 IBM at 187.5", "150 shares"):
        expect(words in body, True, f"asked back: {words}")
    page.key("Escape")
    page.until("!document.querySelector('#ask').open", "Escape goes back")
    time.sleep(0.3)
    page.gather()
    expect(page.posted, [], "nothing was handed in")
    press(page, "#send")
    page.until("document.querySelector('#ask').open", "it is asked back again")
    press(page, "#ask-yes")
    says(page, "#answer", "Placed as sweep", "it is placed")
    number = int(text(page, "#answer").split()[3].rstrip(":"))
    expect(text(page, "#answer"), f"Placed as sweep {number}: 150 shares.", "the answer")
    page.until(f"document.querySelector('#sweep-{number}') !== null", "the new sweep is shown")
    legs = trial.ask(f"/api/sweeps/{number}")["legs"]
    found = [[leg[key] for key in ("venue", "symbol", "side", "shares")] for leg in legs]
    expect(found, [[venue, "BRK.B", "buy", 100], [venue, "IBM", "sell", 50]], "what the desk has")
    expect(page.run("document.querySelectorAll('fieldset').length"), 1, "the form is empty again")
    page.gather()
    expect(page.posted, [f"{trial.base}/api/sweeps"], "it was handed in once")


def names_a_fault(trial):
    """A field that is wrong is named, by the page or by the desk, and has the focus."""
    page, venue = trial.page, trial.venue_that_is(True)
    fill_leg(page, 0, venue, "buy", 100, "IBM", "1.23456")
    press(page, "#send")
    expect(page.run("document.activeElement.name"), "price", "the bad price has the focus")
    described = page.run("document.getElementById(document.activeElement.getAttribute('aria-describedby')).textContent")
    expect(described, "Price: dollars from 0.0001 to 999,999.9999, as 10.25", "its fault")
    page.run("document.querySelector('[name=venue]').add(new Option('NOPE', 'NOPE'))")
    fill_leg(page, 0, "NOPE", "buy", 100, "IBM", "1")
    press(page, "#send")
    page.until("document.querySelector('#ask').open", "it is asked back")
    press(page, "#ask-yes")
    page.until("document.activeElement.getAttribute('aria-invalid')", "the desk's fault is shown")
    expect(page.run("document.activeElement.name"), "venue", "the bad venue has the focus")
    expect("NOPE" in text(page, "fieldset .fault"), True, "the desk's words")
    page.run("document.querySelector('[name=venue]').lastChild.remove()")


def says_why_refused(trial):
    """A refused sweep says its code, its venue and why, at the form and in the list, once."""
    if trial.day:
        trial.day.venue("ARCA", state="down", code="E10", text="it was silent")
    page, venue = trial.page, trial.venue_that_is(False)
    fill_leg(page, 0, venue, "buy", 100, "IBM", "187.5")
    press(page, "#send")
    page.until("document.querySelector('#ask').open", "it is asked back")
    expect(f"Not up now: {venue}" in text(page, "#ask-body"), True, "the page warns of it")
    press(page, "#ask-yes")
    says(page, "#answer", "Refused", "it is refused")
    words = f"R04 {venue}: its gate is down"
    expect(text(page, "#answer"), f"Refused: {words}", "the answer")
    page.until("document.querySelectorAll('#refusals li').length > 0", "it is listed")
    time.sleep(0.5)
    listed = page.run("[...document.querySelectorAll('#refusals li')].map(line => line.textContent)")
    expect(sum(words in line for line in listed), 1, "it is listed once")
    expect(page.run("document.querySelector('[name=shares]').value"), "100", "the form keeps the sweep")


def turns_a_lamp(trial):
    """A venue that goes down turns its lamp: word, shape, colour and cause; and it is told."""
    page, name = trial.page, trial.desk.dropped if trial.desk else trial.venue_that_is(True)
    card = f"[data-venue='{name}']"
    look = f"(card => [card.querySelector('path').getAttribute('d'), getComputedStyle(card).color])" \
           f"(document.querySelector(\"{card}\"))"
    before = page.run(look)
    if trial.day:
        trial.day.venue(name, state="down", code="E10", text="it was silent", doubt=3)
    elif trial.desk:
        trial.desk.drop()
    else:
        raise Skipped("it needs a desk that can be stopped")
    page.until(f"['down', 'unreachable', 'closed'].includes(document.querySelector(\"{card} .state\").textContent)",
               "its word says so", 3 * WITHIN)
    after = page.run(look)
    expect([old != new for old, new in zip(before, after)], [True, True], "shape and colour changed")
    settled(lambda: expect(name in text(page, "#news"), True, "it is told to a screen reader"))
    if trial.day:
        expect(text(page, f"{card} .why"), "It was silent (E10)", "its cause")
        trial.day.venue(name, state="up", doubt=0, connections=2)
        page.until(f"document.querySelector(\"{card} .state\").textContent === 'up'", "it is up again")
        expect(text(page, f"{card} .why").endswith("it was silent (E10)"), True, "why it had ended")


def keeps_text_text(trial):
    """What a venue says is shown as it is, and never becomes markup."""
    day, page = trial.stand_in(), trial.page
    day.venue("BATS", state="down", code="E07", text="it logged out", said=HOSTILE, lost=0)
    day.tell("refused", {"refused": "R04", "text": HOSTILE, "venue": "BATS"})
    why = "document.querySelector(\"[data-venue='BATS'] .why\").textContent"
    page.until(f"{why}.includes('<img')", "it is shown")
    expect(page.run(why), f"It logged out: {HOSTILE} (E07)", "all of it")
    page.until("document.querySelector('#refusals li').textContent.includes('<img')", "a refusal is shown")
    expect(page.run("document.querySelectorAll('img, b:not(#environment)').length"), 0, "elements out of a text")
    day.venue("BATS", state="unreachable", text="connection refused", next_s=9)
    page.until(f"{why}.startsWith('Connection refused. Next try in ')", "when it is dialled next")
    try:
        page.run("document.body.insertAdjacentHTML('beforeend', '<b>x</b>')")
    except Failed:
        return
    raise Failed("the page's policy lets markup be made of a text")


def says_when_it_lost_events(trial):
    """Lost events are said, and so is a desk that doesn't answer; what came meanwhile is read behind them."""
    page = trial.page
    if trial.day is None:
        page.offline(True)
        try:
            says(page, "#standing", "No answer since", "the loss is said")
        finally:
            page.offline(False)
        page.until("following && !document.body.classList.contains('stale')", "the page follows again")
        return
    day = trial.day
    try:
        lose_events(page, day)
    finally:
        day.answers = day.takes_streams = True
    page.until("following && document.querySelector('#banner').hidden", "it follows again")


def lose_events(page, day):
    day.takes_streams = False
    day.cut_streams()
    says(page, "#standing", "Events lost since", "the loss is said")
    says(page, "#banner", "Events were lost at", "the banner says it")
    expect(page.run("document.querySelector('#banner').getAttribute('role')"), "alert", "a screen reader says it")
    expect(page.run("document.title.startsWith('Events lost')"), True, "the tab's title says it")
    status, said = day.place([mock.leg("NYSE", "IBM", "buy", 10, "1")])
    expect(status, 201, "the stand-in places")
    page.until(f"document.querySelector('#sweep-{said['placed']}') !== null", "it reads instead")
    day.move(said["placed"], 1, "filled", 4)
    filled = f"document.querySelector('#sweep-{said['placed']} tr').cells[3].textContent"
    page.until(f"{filled} === '4'", "and sees changes")
    day.answers = False
    page.until("document.querySelector('#banner').textContent.includes('answered since')", "silence is said")
    day.answers = day.takes_streams = True
    day.move(said["placed"], 1, "filled")
    page.until("following && document.querySelector('#banner').hidden", "it follows again")
    page.until(f"{filled} === '10'", "what came meanwhile")


def says_when_an_answer_is_lost(trial):
    """A sweep whose answer got lost may have been placed: the page says so, and keeps the form."""
    day, page = trial.stand_in(), trial.page
    fill_leg(page, 0, "NYSE", "buy", 7, "IBM", "187.5")
    press(page, "#send")
    page.until("document.querySelector('#ask').open", "it is asked back")
    day.answers = False
    press(page, "#ask-yes")
    try:
        says(page, "#answer", "No answer came", "it says so")
    finally:
        day.answers = True
    expect("may have been placed" in text(page, "#answer"), True, "what may be")
    page.until("following && document.querySelector('#banner').hidden", "it follows again")


def finds_a_sweep_whose_answer_is_lost(trial):
    """A sweep whose answer got lost is asked for by its reference, and is placed once."""
    day, page = trial.stand_in(), trial.page
    before = len(day.sweeps)
    fill_leg(page, 0, "NYSE", "buy", 7, "IBM", "187.5")
    press(page, "#send")
    page.until("document.querySelector('#ask').open", "it is asked back")
    day.loses = 1
    press(page, "#ask-yes")
    says(page, "#answer", "Placed as sweep", "it is placed")
    expect((day.loses, len(day.sweeps)), (0, before + 1), "an answer was lost, and it is placed once")


def names_the_desk(trial):
    """A desk with a name and an environment is called so at the top and in the title, and the real one is marked."""
    trial.stand_in()
    server = mock.Server(mock.morning())
    for environment, mark in (("UAT", "test"), ("PROD", "real"), ("live-2", "real")):
        server.day.label = {"desk": "EQ-1", "environment": environment}
        page = trial.open(f"{server.base}/")
        page.until(f"document.title.endsWith({f'{environment} EQ-1 {server.base[7:]}'!r})", "the tab's title")
        expect(text(page, "h1").split()[:2], ["EQ-1", environment], "the top line")
        expect(page.run("document.querySelector('header').className"), mark, f"the mark of {environment}")
        page.close()
    server.day.label = {}
    page = trial.open(f"{server.base}/")
    page.until(f"document.title.endsWith({f'Desk {server.base[7:]}'!r})", "the title of a desk without a name")
    expect(page.run("document.querySelector('header').className"), "", "the mark of no environment")
    page.close()
    server.shutdown()


def begins_anew_with_another_run(trial):
    """Where the program is started again under an open page, the page shows the new run alone and says so, keeps what
    was typed, and says of the new run how it ended."""
    if trial.desk:
        return starts_again(trial)
    trial.stand_in()
    server = mock.Server(mock.morning())
    page = trial.open(f"{server.base}/")
    page.until("document.querySelectorAll('tbody').length === 5", "it shows the day")
    fill_leg(page, 0, "NYSE", "buy", 7, "IBM", "187.5")
    old, day = server.day, mock.Day(["NYSE", "ARCA"])
    day.place([mock.leg("ARCA", "GE", "sell", 30, "168.3")])
    server.day = day
    # The stream of the run before stays, and goes on telling.
    says(page, "#banner", "The program was started again", "it says so")
    page.until("following && document.querySelectorAll('tbody').length === 1", "it shows the new run's sweep alone")
    settled(lambda: expect(row(page, 1), [30, 0, 0, 0, 0, 30], "the new run's sweep"))
    expect([text(page, f"#sum-{part}") for part in ("placed", "resolved", "open")], ["30", "0", "30"], "its sums")
    expect(page.run("document.querySelectorAll('.venue.card').length"), 2, "its venues")
    expect(page.run("document.querySelector('[name=shares]').value"), "7", "what was typed")
    old.place([mock.leg("NYSE", "KO", "buy", 40, "61.77")])
    day.place([mock.leg("ARCA", "GE", "sell", 20, "168.3")])
    page.until("document.querySelector('#sweep-2') !== null", "the next sweep")
    expect(rows(page), [2, 1], "no sweep of the run before")
    day.close()
    says(page, "#banner", "The day is closed", "its end is said")
    expect(rows(page), [2, 1], "its sweeps alone stand below")
    server.day = mock.morning()
    says_how_the_day_before_ended(page)
    expect(len(rows(page)), 5, "the sweeps of the day behind it")
    page.close()
    server.shutdown()


def starts_again(trial):
    """The program is killed and started again under an open page: what is shown is grey until the new run answers, and
    then of the new run alone."""
    page, desk = trial.page, trial.desk
    expect(len(rows(page)) > 2, True, "sweeps are shown")
    fill_leg(page, 0, "NYSE", "buy", 7, "IBM", "187.5")
    desk.kill()
    page.until("document.body.classList.contains('stale')", "what is shown is stale")
    expect("Live" in text(page, "#standing"), False, "nothing is live")
    desk.start()
    desk.place("sweep NYSE GE sell 30 168.3")
    says(page, "#banner", "The program was started again", "it says so")
    page.until("following && document.querySelectorAll('#table tbody').length === 1", "the new run's sweep alone")
    settled(lambda: compare_sweeps(trial))
    settled(lambda: compare_venues(trial))
    settled(lambda: compare_executions(trial, page))
    expect(page.run("document.querySelector('[name=shares]').value"), "7", "what was typed")
    desk.place("sweep NSDQ GE sell 30 168.3", "sweep ARCA IBM buy 40 10.25")
    settled(lambda: compare_sweeps(trial))


def says_how_the_day_before_ended(page):
    says(page, "#banner", "The program was started again", "it says so")
    expect(text(page, "#banner").endswith("The day before it was closed, and its audit found nothing wrong."), True,
           "how the day before ended")
    page.until("following && document.querySelector('#standing').textContent.startsWith('Live')", "the new run is live")


def begins_anew_behind_a_closed_day(trial):
    """A page that shows how a day ended begins anew with the next one on its address, and says how that day ended."""
    if trial.desk is None:
        raise Skipped("it needs a desk that can be started again")
    trial.ended = trial.desk.ended()
    trial.desk.start()
    trial.desk.place("sweep NYSE GE sell 30 168.3")
    says_how_the_day_before_ended(trial.page)
    settled(lambda: compare_sweeps(trial))


def asks_for_the_token(trial):
    """Where the desk has a token it is asked for, again where it was wrong, and kept for the tab."""
    trial.stand_in()
    server = mock.Server(mock.Day(["NYSE"]), token="a word of ours")
    page = trial.open(f"{server.base}/")
    for turn, token in enumerate(("another", "a word of ours")):
        if turn == 0:
            fill_leg(page, 0, "NYSE", "buy", 100, "IBM", "187.5")
            press(page, "#send")
            page.until("document.querySelector('#ask').open", "it is asked back")
            press(page, "#ask-yes")
        page.until("document.querySelector('#token-ask').open && !document.querySelector('#token').value", "asked")
        page.type(token)
        page.key("Enter")
    says(page, "#answer", "Placed as sweep 1", "it is placed")
    expect(page.run("sessionStorage.getItem('token')"), "a word of ours", "it is kept")
    expect(len(server.day.sweeps), 1, "it is placed once")
    page.close()
    server.shutdown()


def asks_for_the_token_to_read(trial):
    """Where the desk shows its day for a token alone, the page asks for it before it shows anything, and then follows
    the day."""
    trial.stand_in()
    day = mock.Day(["NYSE"])
    day.place([mock.leg("NYSE", "IBM", "buy", 100, "1")])
    server = mock.Server(day, token="a word of ours", guarded=True)
    page = Page(trial.browser, f"{server.base}/")
    for token in ("another", "a word of ours"):
        page.until("document.querySelector('#token-ask')?.open && !document.querySelector('#token').value", "asked")
        expect(len(rows(page)), 0, "nothing is shown")
        page.type(token)
        page.key("Enter")
    page.until("following && document.querySelectorAll('#table tbody').length === 1", "the day is followed")
    day.place([mock.leg("NYSE", "IBM", "buy", 200, "1")])
    page.until("document.querySelectorAll('#table tbody').length === 2", "an event comes")
    page.close()
    server.shutdown()


def shows_nothing_without_its_token(trial):
    """Where no token is given the page says so, and asks once."""
    trial.stand_in()
    server = mock.Server(mock.Day(["NYSE"]), token="a word of ours", guarded=True)
    page = Page(trial.browser, f"{server.base}/")
    page.until("document.querySelector('#token-ask')?.open", "asked")
    press(page, "#token-no")
    says(page, "#banner", "The desk shows its day for a token alone", "it says so")
    time.sleep(3)
    expect(page.run("document.querySelector('#token-ask').open"), False, "it doesn't ask again")
    page.close()
    server.shutdown()


def reads_a_long_day(trial):
    """Of a day of many sweeps the newest are shown, the older on demand, and few are asked for; and an event that comes
    before the first reading leaves none out."""
    trial.stand_in()
    day = mock.Day(["NYSE"])
    for _ in range(2345):
        day.place([mock.leg("NYSE", "IBM", "buy", 1000, "1")])
    server = mock.Server(day)
    threading.Thread(target=trade_on, args=(day, 2340), daemon=True).start()
    try:
        shows_the_newest(trial.open(f"{server.base}/"))
    finally:
        server.shutdown()


def shows_the_newest(page):
    page.until("document.querySelectorAll('tbody').length === 200", "the newest 200")
    expect(page.run("document.querySelector('tbody').id"), "sweep-2345", "the newest is first")
    page.gather()
    asked = {url for url in page.asked if "/api/sweeps?" in url}
    expect(len(asked) < 20, True, f"it asked for {len(asked)} parts of the day")
    press(page, "#older")
    page.until("document.querySelectorAll('tbody').length === 400", "200 older ones")
    expect(page.run("[...document.querySelectorAll('tbody')].at(-1).id"), "sweep-1946", "the oldest shown")
    page.close()


def trade_on(day, number):
    """Trades of a sweep, a share at a time, for some seconds."""
    for _ in range(400):
        day.move(number, 1, "filled", 1)
        time.sleep(0.01)


def is_reached_by_tab(trial):
    """Each control is reached by Tab, where it can be seen, with a visible focus."""
    page = trial.page
    page.run("document.activeElement.blur(); scrollTo(0, 0)")
    wanted = page.run("""[...document.querySelectorAll('a[href], button:not(:disabled), input, select, [tabindex="0"]')]
        .filter(one => one.checkVisibility() && !one.closest('dialog')).length""")
    faults = []
    for _ in range(3 * wanted):
        page.key("Tab")
        found = page.run("""(one => {
            if (one === document.body) return null;
            const first = !one.dataset.reached;
            one.dataset.reached = "yes";
            const place = one.getBoundingClientRect();
            const [x, y] = [Math.min(place.width, 400) / 2, Math.min(place.height, 40) / 2];
            const at = document.elementFromPoint(place.x + x, place.y + y);
            const look = getComputedStyle(one);
            const seen = at !== null && (one === at || one.contains(at) || at.contains(one) && at.tagName !== 'HEADER');
            const outlined = look.outlineStyle === 'solid' && parseFloat(look.outlineWidth) >= 2;
            return [first, seen, outlined, one.outerHTML.slice(0, 80)];
        })(document.activeElement)""")
        if found and not found[0]:
            break
        if found and not (found[1] and found[2]):
            faults.append(f"{'hidden' if not found[1] else 'no outline'}: {found[3]}")
    reached = page.run("document.querySelectorAll('[data-reached]').length")
    page.run("for (const one of document.querySelectorAll('[data-reached]')) delete one.dataset.reached")
    expect(faults, [], "what has the focus is seen")
    expect(reached, wanted, "controls reached by Tab")


def has_names(trial):
    """A screen reader has a name for each control, and finds headings, a table and regions."""
    page = trial.page
    nodes = [node for node in page.call("Accessibility.getFullAXTree")["nodes"] if not node.get("ignored")]
    roles = [node["role"]["value"] for node in nodes]
    nameless = [
        node["role"]["value"]
        for node in nodes
        if any(one["name"] == "focusable" and one["value"].get("value") for one in node.get("properties", []))
        and not node.get("name", {}).get("value")
    ]
    expect(nameless, [], "controls without a name")
    for role in ("table", "columnheader", "rowheader", "banner", "main", "region", "status"):
        expect(role in roles, True, f"a {role}")
    headings = page.run("[...document.querySelectorAll('main h2')].map(head => head.textContent)")
    expect(headings, ["Venues", "Unbooked reports", "Sweeps", "New sweep", "Executions", "Refused"], "headings")


CONTRAST = """(() => {
    const parts = colour => colour.match(/[\\d.]+/g).map(Number);
    const linear = c => c <= .04045 ? c / 12.92 : ((c + .055) / 1.055) ** 2.4;
    const light = ([r, g, b]) => .2126 * linear(r / 255) + .7152 * linear(g / 255) + .0722 * linear(b / 255);
    const behind = one => {
        for (; one; one = one.parentElement) {
            const colour = parts(getComputedStyle(one).backgroundColor);
            if (colour.length === 3 || colour[3] === 1) return colour;
        }
        return [255, 255, 255];
    };
    const walker = document.createTreeWalker(document.body, NodeFilter.SHOW_TEXT);
    const low = new Set();
    let count = 0;
    while (walker.nextNode()) {
        const one = walker.currentNode.parentElement;
        if (!walker.currentNode.data.trim() || !one.checkVisibility() || one.closest('script, style')) continue;
        count += 1;
        const [a, b] = [light(parts(getComputedStyle(one).color)), light(behind(one))].sort((x, y) => y - x);
        if ((a + .05) / (b + .05) < 4.5) low.add(`${one.tagName}.${one.className} ${walker.currentNode.data.trim()}`);
    }
    for (const one of document.querySelectorAll('[placeholder]')) {
        const [a, b] = [light(parts(getComputedStyle(one, '::placeholder').color)), light(behind(one))];
        if ((Math.max(a, b) + .05) / (Math.min(a, b) + .05) < 4.5) low.add(`placeholder ${one.placeholder}`);
    }
    return [count, [...low]];
})()"""


def can_be_read(trial):
    """All text stands out from what is behind it, 4.5 to 1, in light and in dark; and a narrow screen needs no
    scrolling sideways."""
    page = trial.page
    for scheme in ("light", "dark"):
        page.scheme(scheme)
        count, low = page.run(CONTRAST)
        expect(count > 30, True, f"texts looked at, {scheme}")
        expect(low, [], f"too little contrast, {scheme}")
    page.scheme("light")
    for width in (320, 390, 768, 1024, 1280, 1440):
        page.size(width, 900)
        page.until(f"innerWidth === {width}", "the size")
        expect(page.run("document.documentElement.scrollWidth <= innerWidth"), True, f"{width} wide")
        box = "document.querySelector('.roll')"
        if width >= 390:
            expect(page.run(f"{box}.scrollWidth <= {box}.clientWidth"), True, f"the table, {width} wide")
    page.size(1440, 900)


def stays_at_home(trial):
    """No request left the desk's origin, none can, and nothing was complained of but the markup that a check before
    tried to make of a text."""
    page = trial.page
    page.gather()
    foreign = [url for url in page.asked if not url.startswith(trial.base + "/")]
    expect(foreign, [], "requests to others")
    expect([words for words in page.complaints if "TrustedHTML" not in words], [], "complaints")
    expect(page.run("fetch('http://127.0.0.1:9/').then(() => 'let', () => 'refused')"), "refused", "another origin")
    settled(lambda: expect(complains_of_policy(page), True, "it was the page's policy that refused it"))


def complains_of_policy(page):
    page.gather()
    return any("Content Security Policy" in words or "violates" in words for words in page.complaints)


def closes_the_day(trial):
    """The day is closed once it is asked back, and the page says how it ended."""
    page = trial.page
    press(page, "#close")
    page.until("document.querySelector('#ask').open", "it is asked back")
    page.key("Enter")
    page.until("!document.querySelector('#ask').open", "Enter goes back")
    time.sleep(0.3)
    expect(trial.ask("/api/sweeps?after=0&most=1")["closing"], False, "it isn't closing")
    press(page, "#close")
    page.until("document.querySelector('#ask').open", "it is asked back again")
    press(page, "#ask-yes")
    page.until("document.querySelector('#close').disabled", "it can't be closed twice")
    page.until("document.querySelector('#send').disabled", "no more sweeps are taken")
    says(page, "#banner", "The day is closed", "it is closed", 3 * WITHIN)
    expect("its audit found nothing wrong" in text(page, "#banner"), True, "its audit")
    page.until("document.querySelector('#standing').textContent === 'Day closed'", "it says so at the top")
    time.sleep(3)
    expect("lost" in text(page, "#standing"), False, "no loss is said of a day that is over")


CHECKS = [
    shows_the_sweeps, says_what_a_sweep_trades, finds_a_sweep, shows_what_is_open, shows_executions, opens_a_sweep,
    shows_the_venues, puts_trouble_first, hands_in, names_a_fault, says_why_refused, turns_a_lamp, keeps_text_text,
    is_reached_by_tab, has_names, can_be_read, fits_a_phone, says_when_it_lost_events, greys_what_is_stale,
    names_the_desk, begins_anew_with_another_run, asks_for_the_token, asks_for_the_token_to_read,
    shows_nothing_without_its_token, reads_a_long_day, stays_at_home, says_when_an_answer_is_lost,
    finds_a_sweep_whose_answer_is_lost, closes_the_day, begins_anew_behind_a_closed_day,
]


def is_passed(check, trial):
    """Makes a check, and says whether it didn't fail."""
    name = check.__name__.replace("_", " ")
    try:
        check(trial)
    except Skipped as why:
        print(f"{name}: skipped, {why}", flush=True)
    except Failed as fault:
        print(f"{name}: FAILED, {fault}", flush=True)
        return False
    else:
        print(f"{name}: ok", flush=True)
    return True


def try_all(trial, word=""):
    """Makes the checks with a word in their names, and says whether there are some and none failed."""
    results = [is_passed(check, trial) for check in CHECKS if word in check.__name__.replace("_", " ")]
    return bool(results) and all(results)
