"""play.py COUNT SEED PROGRAM..: makes random scripts with crashes, plays each by the program, and compares what it prints
with what the model says. It ends with status 1 where any differs, or no script lost anything, or none was refused."""
import os
import random
import re
import subprocess
import sys
import tempfile
from concurrent.futures import ThreadPoolExecutor

from scripts import make_script, said_by_model

# What the program's fault says of each rule that a crash may break.
RULE_WORDS = {
    "sweeps": "were placed",
    "journal": "its journal has",
    "wire": "by the wire rule",
    "release": "by the release rule",
    "withdrawal": "by the withdrawal rule",
}


def leg_name(word):
    """The leg of a ClOrdID of any dialect, as S1L2."""
    found = re.fullmatch(r"(\d{12})-(\d\d)", word) or re.fullmatch(r"([0-9a-f]{16})([0-9a-f]{2})", word)
    base = 10 if "-" in word else 16
    return f"S{int(found[1], base)}L{int(found[2], base)}" if found else word


def told_fields(frame):
    """The fields of a frame that the model tells too."""
    fields = {}
    for field in frame.strip("|").split("|"):
        tag, value = field.split("=", 1)
        fields.setdefault(tag, value)
    kind = fields["35"]
    told = [("34", fields["34"]), ("35", kind)]
    if fields.get("43") == "Y":
        told.append(("43", "Y"))
    if kind == "2":
        told.append(("7", fields["7"]))
    if kind == "4":
        told.append(("36", fields["36"]))
    if "112" in fields and kind in "01":
        told.append(("112", fields["112"]))
    if kind == "A" and "789" in fields:
        told.append(("789", fields["789"]))
    if kind == "8":
        told.append(("exec", fields["17"]))
    if kind in "8D":
        told.append(("leg", leg_name(fields["11"])))
    return " ".join(f"{tag}={value}" for tag, value in told)


def plain_line(line):
    """A line that the program prints, each frame as the model tells it."""
    found = re.match(r"((?:to|from) \d+ \d+ connection \d+) (8=.*)", line)
    return f"{found[1]} {told_fields(found[2])}" if found else line


def differs(program, script, wanted):
    """The first difference between what the program says of a script and what the model does, if there is any."""
    done = subprocess.run([*program, "replay", "--frames"], input=script, capture_output=True, text=True, check=False)
    if isinstance(wanted, list):
        given = [plain_line(line) for line in done.stdout.splitlines()]
        if done.returncode:
            return f"status {done.returncode}: {done.stderr}"
        for at, line in enumerate(wanted):
            if at >= len(given) or given[at] != line:
                return f"line {at + 1} is {given[at:at + 1]}, the model says {line}"
        return None if len(given) == len(wanted) else f"{len(given)} lines, the model has {len(wanted)}"
    line, rule, venue = wanted
    parts = [f"line {line}:", RULE_WORDS[rule]] + ([f"venue {venue}"] if venue is not None else [])
    if done.returncode == 3 and not done.stdout and all(part in done.stderr for part in parts):
        return None
    return f"status {done.returncode}: {done.stderr.strip()}, the model says {parts}"


def main():
    count, seed, program = int(sys.argv[1]), int(sys.argv[2]), sys.argv[3:]
    chance = random.Random(seed)
    days = [make_script(chance) for _ in range(count)]
    crashes = sum(line.startswith("crash") for lines, _, _ in days for line in lines)
    refused = sum(fault is not None for _, _, fault in days)
    scripts = ["\n".join(lines) + "\n" for lines, _, _ in days]
    wanted = [said_by_model(*day) for day in days]
    with ThreadPoolExecutor(os.cpu_count()) as pool:
        found = list(pool.map(lambda day: differs(program, *day), zip(scripts, wanted)))
    bad = [at for at, difference in enumerate(found) if difference]
    for at in bad[:5]:
        with tempfile.NamedTemporaryFile("w", suffix=".script", delete=False) as kept:
            kept.write(scripts[at])
        print(f"{kept.name}: {found[at]}")
    print(f"{count} scripts, {crashes} crashes, {refused} refused by a rule; {len(bad)} differ")
    return 1 if bad or crashes <= refused or not refused else 0


sys.exit(main())
