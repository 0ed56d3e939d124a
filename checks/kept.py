#!/usr/bin/env python3
"""Prints what the program test_kept is to print without words, from the rules: what keeping.py and recording.py print, and what
commands in a file make. With --runs it prints what test_scripts is to print of runs of `keep` over a keeper of whose calls one fails or
that holds a record which is none: with which status each ends, how many records stand then, how many decisions were audited, and what is
printed. Of each such run it is looked at besides whether a failed one printed a beginning of the whole text, and kept the first of all
records.

usage: checks/kept.py | cmp - crates/test_kept/stdout
       checks/kept.py --runs | cmp - <(sed -n '/^== keeping/,/^== serving/p' crates/test_scripts/stdout | sed '$d')
"""
import sys

import disk_model
import keeping
import kept_model
import recording

SCRIPT = keeping.CRATE.parent / "test_scripts" / "data" / "kept.script"

CALLS = range(1, 38)
WAYS = ("without", "with")
SECOND_APPEND = 3
AGAIN = b'reopen\nadmin root {"command":"listPolicies","service":"hive1"}\n'


def row(name, script, keeper):
    text, status = kept_model.worked(script, keeper)
    audited = text.count('"audited":true')
    return "%s: status %d, %d records, %d audited: %s" % (name, status, len(keeper.records), audited, text.replace("\n", "~"))


def failures(script):
    whole = keeping.Keeper()
    whole_text, status = kept_model.worked(script, whole)
    assert status == 0
    for number in CALLS:
        for way in WAYS:
            keeper = keeping.Keeper(number=number, keeps=way == "with")
            yield row("call %d fails %s its record" % (number, way), script, keeper)
            text, status = kept_model.worked(script, keeping.Keeper(number=number, keeps=way == "with"))
            assert status == (8 if number <= whole.made else 0) and whole_text.startswith(text)
            assert keeper.records == whole.records[:len(keeper.records)] and (status == 8 or keeper.records == whole.records)


def second_append(lines):
    for way in WAYS:
        keeper = keeping.Keeper(number=SECOND_APPEND, keeps=way == "with")
        yield row("the second append fails %s its record" % way, b"".join(lines[:3]), keeper)
        yield row("then another run", lines[0] + AGAIN, keeper)


def bad_records(config):
    for what, script in (("the configuration is worked", config),
                         ("a bad line follows", config + b"hello\n"),
                         ("the configuration breaks a rule", b'config {"plugin":"nowhere"}\n'),
                         ("the first line is out of place", b"reopen\n" + config),
                         ("there are blank lines alone", b"# kept\n\n")):
        yield row("{} is kept, and %s" % what, script, keeping.Keeper(["{}"]))


def kept_rows():
    script = SCRIPT.read_bytes()
    lines = script.splitlines(keepends=True)
    yield row("no call fails", script, keeping.Keeper())
    for rows in (failures(script), second_append(lines), bad_records(lines[0])):
        yield from rows


def main(runs):
    if runs:
        print("== keeping")
        for one in kept_rows():
            print(one)
        return
    for rows in (keeping.all_rows, recording.all_rows):
        for one in rows():
            print(one)
    print("== commands in a file")
    print(disk_model.demonstrated(), end="")


if __name__ == "__main__":
    main(sys.argv[1:] == ["--runs"])
