#!/usr/bin/env python3
"""Makes a table for reading of the lines that `rangerd report` prints: a row for each subject, a column for each access type.

usage: rangerd report < SCRIPT | tools/report_table.py

A cell is `yes` where access is allowed, `no` where it is denied and `open` where it is left undetermined, with the id of the
policy that decides, if one does. The rows of a report end with those of all others, so a script with several reports gives as
many tables.
"""

import json
import sys

WORDS = {"ALLOWED": "yes", "DENIED": "no", "UNDETERMINED": "open"}


def cell(row):
    return WORDS[row["access"]] + ("" if row["policyId"] == -1 else " (%d)" % row["policyId"])


def subject(row):
    return "all others" if row["kind"] == "other" else "%s %s" % (row["kind"], row["name"])


def table(rows):
    accesses = list(dict.fromkeys(row["accessType"] for row in rows))
    subjects = list(dict.fromkeys(map(subject, rows)))
    cells = {(subject(row), row["accessType"]): cell(row) for row in rows}
    return [["subject"] + accesses] + [[name] + [cells.get((name, access), "") for access in accesses] for name in subjects]


def reports(rows):
    """Those of all others end a report."""
    done = []
    for row in rows:
        if done and done[-1]["kind"] == "other" and (row["kind"] != "other" or row["accessType"] in [one["accessType"] for one in done if one["kind"] == "other"]):
            yield done
            done = []
        done.append(row)
    if done:
        yield done


def printed(rows):
    lines = table(rows)
    widths = [max(map(len, column)) for column in zip(*lines)]
    for number, line in enumerate(lines):
        print("| " + " | ".join(text.ljust(width) for text, width in zip(line, widths)) + " |")
        if number == 0:
            print("|" + "|".join("-" * (width + 2) for width in widths) + "|")


def main():
    for number, rows in enumerate(reports(json.loads(line) for line in sys.stdin if line.strip())):
        if number:
            print()
        printed(rows)


if __name__ == "__main__":
    main()
