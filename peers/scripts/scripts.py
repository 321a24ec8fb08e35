"""Random scripts with crashes, steered by the model so that much happens, and what the model says of each."""
from model import CONNECTED, DOWN, UP, Fault, World


def make_script(r):
    """The lines of a random script, the model's world behind it, and the fault that ended it, if one did."""
    venues = r.choice([1, 1, 1, 2, 2, 3])
    top = r.choice([1000, 1000, 1000, r.randint(16, 40)])
    chose = [r.random() < 0.3 for _ in range(venues)]
    dialects = [r.choice(["plain", "split", "coded"]) for _ in range(venues)]
    lines = ["venues %d %s" % (top, " ".join(d + ("+789" if c else "") for d, c in zip(dialects, chose)))]
    w = World(top, chose)
    at_to, at_from = [0] * venues, [0] * venues
    steps = r.randint(30, 130)
    careless = r.choice([0.02, 0.08, 0.2])
    lossy = r.choice([0.0, 0.05, 0.15])

    def do(text, event):
        lines.append(text)
        w.happen(event)

    fault = None
    try:
        for _ in range(steps):
            at = r.randrange(venues)
            v = w.venues[at]
            s = v.session
            x = r.random()
            at_to[at] = min(at_to[at], len(v.to))
            if r.random() < 0.035:
                ok = r.random() < 0.93
                sweeps, lost = 0, []
                for _ in range(30):
                    sweeps = r.choice([0, 0, 0, 1, 1, 2, 3])
                    lost = [r.choice([0, 0, 1, 1, 2, 3, 4, 6, 9, 15]) for _ in range(r.randint(0, venues))]
                    if r.random() < 0.2:
                        lost = lost[:1]
                    why = w.rule(sweeps, lost)
                    if (why is None) == ok and (why != "sweeps" or r.random() < 0.1):
                        break
                else:
                    if ok:
                        sweeps, lost = 0, []
                form = "crash"
                if sweeps or lost:
                    form += " lost"
                    if sweeps or not lost:
                        form += " sweeps %d" % sweeps
                    if lost:
                        form += " lines " + " ".join(map(str, lost))
                do(form, ("crash", sweeps, lost))
                continue
            if r.random() < careless:
                kind = r.choice(["up", "down", "drop", "take", "connect", "break", "xbreak", "quiet", "silent", "test",
                                 "to", "from", "cancel", "reject", "bust", "trade", "close", "abandon", "take", "to", "from",
                                 "silent", "xbreak", "break"])
                if kind in ("close", "abandon") and r.random() < 0.7:
                    kind = "quiet"
                if kind == "to":
                    k = r.randint(1, max(1, len(v.to) + 1))
                    do("to %d %d" % (at, k), ("to", at, k))
                elif kind == "from":
                    k = r.randint(1, max(1, len(v.back) + 1))
                    do("from %d %d" % (at, k), ("from", at, k))
                elif kind == "trade":
                    i, n = r.randint(1, len(v.exchange.orders) + 1), r.choice([1, 10, 100, 400])
                    do("trade %d %d %d 10.25" % (at, i, n), ("trade", at, i, n))
                elif kind in ("cancel", "reject"):
                    i = r.randint(1, len(v.exchange.orders) + 1)
                    do("%s %d %d" % (kind, at, i), (kind, at, i))
                elif kind == "bust":
                    i, j = r.randint(1, len(v.exchange.orders) + 1), r.randint(1, 3)
                    do("bust %d %d %d" % (at, i, j), ("bust", at, i, j))
                else:
                    do("%s %d" % (kind, at), (kind, at))
                continue
            # what would come next
            if at_to[at] < len(v.to) and x < 0.42:
                at_to[at] += 1
                if r.random() < lossy:
                    continue
                do("to %d %d" % (at, at_to[at]), ("to", at, at_to[at]))
            elif at_from[at] < len(v.back) and x < 0.8:
                at_from[at] += 1
                if r.random() < lossy:
                    continue
                do("from %d %d" % (at, at_from[at]), ("from", at, at_from[at]))
            elif s.phase in CONNECTED and s.phase != UP and at_to[at] >= len(v.to) and at_from[at] >= len(v.back):
                do("break %d" % at, ("break", at)) if r.random() < 0.6 else do("silent %d" % at, ("silent", at))
            elif s.phase == DOWN:
                if v.gate == "up":
                    do("down %d" % at, ("down", at))
                elif w.placed(at):
                    do("drop %d" % at, ("drop", at))
                else:
                    do("connect %d" % at, ("connect", at))
            elif s.phase == UP and v.gate == "down":
                if w.placed(at):
                    do("drop %d" % at, ("drop", at))
                else:
                    do("up %d" % at, ("up", at))
            elif s.phase == UP and v.gate == "up" and w.placed(at) and x < 0.93:
                do("take %d" % at, ("take", at))
            elif s.phase == UP and v.gate == "up" and r.random() < 0.5:
                up = [i for i, u in enumerate(w.venues) if u.gate == "up"]
                legs = [(r.choice(up) if r.random() < 0.97 else r.randrange(venues + 1), r.choice([10, 100, 200, 300]))
                        for _ in range(r.randint(1, 4))]
                text = " + ".join("%d %s %s %d %d" % (a, r.choice(["IBM", "BRK.B", "A"]), r.choice(["buy", "sell"]), n,
                                                      r.choice([100000, 102500])) for a, n in legs)
                do("release " + text, ("release", legs))
            elif v.exchange.orders:
                i = r.randint(1, len(v.exchange.orders))
                kind = r.choice(["trade", "trade", "trade", "cancel", "reject", "bust"])
                if kind == "trade":
                    n = r.choice([1, 10, 60, 100])
                    do("trade %d %d %d 10.25" % (at, i, n), ("trade", at, i, n))
                elif kind == "bust":
                    j = r.randint(1, 2)
                    do("bust %d %d %d" % (at, i, j), ("bust", at, i, j))
                else:
                    do("%s %d %d" % (kind, at, i), (kind, at, i))
            elif r.random() < 0.2:
                kind = r.choice(["quiet", "silent", "test", "break", "xbreak"])
                do("%s %d" % (kind, at), (kind, at))
    except Fault as f:
        fault = str(f)
    return lines, w, fault

def said_by_model(lines, world, fault):
    """What the model says of a script: the lines that `replay --frames` prints, or the line, rule and venue of the fault."""
    if fault is not None:
        rule, *venue = fault.split()
        return len(lines), rule, venue[0] if venue else None
    said = []
    for way, at, number, connection, message in world.frames():
        tags = [f"{tag}={message[tag]}" for tag in ("34", "35", "43", "7", "36", "112", "789") if tag in message]
        if "report" in message:
            tags.append("exec=" + message["report"]["exec"])
            tags.append("leg=S%dL%d" % message["report"]["leg"])
        elif "leg" in message:
            tags.append("leg=S%dL%d" % message["leg"][0])
        said.append(f"{way} {at} {number} connection {connection} {' '.join(tags)}")
    return said + world.printed()
