#!/usr/bin/env python3
"""Writes the tables of docs/ARCHITECTURE.md between their marks: the layers, and each crate under the heading that it has in crates.txt.

usage: tools/crate_tables.py [--check]      (with --check it writes nothing, and ends with status 1 where the page isn't as it would be)

What a crate stands on is what crates.txt names, without those that another of these stands on already. Its layer is one above the highest
of them; the toolchain's crates are below the first. What it does is the first sentence of its own src/lib.rt or src/main.rt; of a long one
what stands before its colon or semicolon. Its lines are those of code, definitions and proofs.
"""

import pathlib
import re
import sys

TOP = pathlib.Path(__file__).resolve().parent.parent
PAGE = TOP / "docs/ARCHITECTURE.md"
LONG = 12  # words
MARKS = "<!-- %s: made by tools/crate_tables.py -->\n", "<!-- the end of what is made -->\n"


def read_crates():
    """The headings with their crates, and what each crate names."""
    headings, named = [], {}
    for line in (TOP / "crates.txt").read_text().splitlines():
        if line.startswith("# ") and ":" not in line:
            headings.append((line[2:], []))
        found = re.match(r"(\w+)[^:#]*:([^#]*)", line)
        if found:
            headings[-1][1].append(found[1])
            named[found[1]] = found[2].split()
    return headings, named


def reach(crate, named, known):
    """All that the crate stands on."""
    if crate not in known:
        known[crate] = set()
        for low in named.get(crate, []):
            known[crate] |= {low} | reach(low, named, known)
    return known[crate]


def nearest(crate, named, known):
    lows = named[crate]
    return [low for low in lows if not any(low in reach(other, named, known) for other in lows if other != low)]


def layer_of(crate, named, known):
    if crate not in known:
        known[crate] = 1 + max((layer_of(low, named, known) for low in named[crate] if low in named), default=0)
    return known[crate]


def first_sentence(crate):
    source = TOP / "crates" / crate / "src"
    text = next(source / name for name in ("lib.rt", "main.rt") if (source / name).exists()).read_text()
    comment = " ".join(re.match(r"(?://[^\n]*\n)*", text)[0].replace("//", " ").split())
    sentence = re.match(r".*?\.(?= |$)", comment)
    told = (sentence[0][:-1] if sentence else comment).split(": ", 1)
    return told[1] if len(told) == 2 and told[0] == crate.replace("_", "-") or told[0] == crate else ": ".join(told)


def what_it_does(crate):
    told = first_sentence(crate)
    return told if len(told.split()) <= LONG else re.split("[:;] ", told)[0]


def lines_in(crate, folder):
    return sum(len(path.read_text().splitlines()) for path in (TOP / "crates" / crate / folder).rglob("*") if path.is_file())


def layers(named):
    known, rows = {}, {}
    for crate in named:
        rows.setdefault(layer_of(crate, named, known), []).append("`%s`" % crate)
    return "| layer | crates |\n|---|---|\n" + "".join("| %d | %s |\n" % (layer, ", ".join(rows[layer])) for layer in sorted(rows, reverse=True))


def crates(headings, named):
    known, parts = {}, []
    for heading, members in headings:
        rows = ["### %s\n\n| crate | what it does | stands on | lines |\n|---|---|---|---|\n" % heading]
        for crate in members:
            lows = ", ".join("`%s`" % low for low in nearest(crate, named, known))
            counts = "+".join(str(lines_in(crate, folder)) for folder in ("src", "specs", "proofs"))
            rows.append("| %s |\n" % " | ".join(["`%s`" % crate, what_it_does(crate), lows, counts]))
        parts.append("".join(rows))
    return "\n".join(parts)


def replaced(text, name, table):
    begin, end = MARKS[0] % name, MARKS[1]
    before, found, rest = text.partition(begin)
    _, ended, after = rest.partition(end)
    if not found or not ended:
        sys.exit("%s has no marks for %s" % (PAGE, name))
    return before + begin + "\n" + table + "\n" + end + after


def main(words):
    headings, named = read_crates()
    headings = [(heading, members) for heading, members in headings if members]
    text = PAGE.read_text()
    made = replaced(replaced(text, "layers", layers(named)), "crates", crates(headings, named))
    if words == ["--check"]:
        print("docs/ARCHITECTURE.md: %s" % ("as crates.txt says" if made == text else "older than crates.txt; run tools/crate_tables.py"))
        return made != text
    PAGE.write_text(made)
    return False


if __name__ == "__main__":
    sys.exit(main(sys.argv[1:]))
