#!/usr/bin/env python3
"""A script has each record on one line. This makes such a script of a text in which a record may go over many lines, and back.

usage: tools/script.py pack   < SOURCE > SCRIPT
       tools/script.py spread < SCRIPT > SOURCE

A line of a source that begins with a space or with } or ] goes on with the line before it.
"""

import json
import re
import sys

WIDTH = 110


def compact(value):
    return json.dumps(value, ensure_ascii=False, separators=(",", ":"))


def parted(line):
    """The words before the record, and the record, where there is one."""
    found = re.match(r"((?:facts|config|decide|report|(?:admin|grant|revoke) [^ ]+) )(.*)", line, re.DOTALL)
    return (found[1], found[2]) if found else (line, None)


def packed(line):
    words, record = parted(line)
    return words if record is None else words + compact(json.loads(record))


def joined(lines):
    """The lines, those that go on with one before them behind it."""
    whole = []
    for line in lines:
        if whole and line[:1] in (" ", "}", "]"):
            whole[-1] += "\n" + line
        else:
            whole.append(line)
    return whole


def laid_out(value, indent, used):
    """The value on one line where it fits, behind what is used of it, and else an item a line."""
    flat = json.dumps(value, ensure_ascii=False)
    if len(indent) + used + len(flat) <= WIDTH or not isinstance(value, (dict, list)) or not value:
        return flat
    deeper = indent + "  "
    if isinstance(value, list):
        items = [deeper + laid_out(item, deeper, 1) for item in value]
        return "[\n" + ",\n".join(items) + "\n" + indent + "]"
    keys = [(json.dumps(key, ensure_ascii=False) + ": ", item) for key, item in value.items()]
    items = [deeper + key + laid_out(item, deeper, len(key) + 1) for key, item in keys]
    return "{\n" + ",\n".join(items) + "\n" + indent + "}"


def spread(line):
    words, record = parted(line)
    return words if record is None else words + laid_out(json.loads(record), "", len(words))


def main(command):
    lines = sys.stdin.read().split("\n")
    made = {"pack": lambda: map(packed, joined(lines)), "spread": lambda: map(spread, lines)}[command]()
    sys.stdout.write("\n".join(made))


if __name__ == "__main__":
    if sys.argv[1:] not in (["pack"], ["spread"]):
        sys.exit(__doc__)
    main(sys.argv[1])
