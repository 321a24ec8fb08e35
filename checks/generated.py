"""What the checks of generated parts of pages share: a part stands between two marks, and is compared or renewed."""
import sys


def check(page, name, lines):
    """Compares the part of a page with these lines, or with `--write` puts them in its place; the exit status."""
    begin, end = f"<!-- {name} writes this -->", f"<!-- {name} wrote this -->"
    with open(page, encoding="utf-8") as file:
        text = file.read()
    before, found, rest = text.partition(begin + "\n")
    part, closed, after = rest.partition(end + "\n")
    if not found or not closed:
        print(f"{page}: no line `{begin}`, or none `{end}` behind it")
        return 1
    wanted = "".join(f"{line}\n" for line in ["", *lines, ""])
    if part == wanted:
        return 0
    if sys.argv[1:] == ["--write"]:
        with open(page, "w", encoding="utf-8") as file:
            file.write(before + begin + "\n" + wanted + end + "\n" + after)
        return 0
    old, new = set(part.splitlines()), set(wanted.splitlines())
    for line in [f"- {line}" for line in part.splitlines() if line not in new][:10]:
        print(line)
    for line in [f"+ {line}" for line in wanted.splitlines() if line not in old][:10]:
        print(line)
    print(f"{page} is stale: {name} --write renews it")
    return 1


def crates():
    """The lines of crates.txt: for each section its title, and its crates, each with what it uses."""
    sections = []
    with open("crates.txt", encoding="utf-8") as file:
        for line in file.read().splitlines()[1:]:
            if line.startswith("# "):
                sections.append((line[2:], []))
            elif line:
                name, _, uses = line.partition(":")
                name = name.split()[0]
                sections[-1][1].append((name, uses.split()))
    return sections


def first_comment(path, mark):
    """The comment at the head of a file, up to its first blank line, as one text."""
    words = []
    with open(path, encoding="utf-8") as file:
        for line in file:
            if not line.startswith(mark) or not line[len(mark):].strip():
                break
            words.append(line[len(mark):].strip())
    return " ".join(words)
