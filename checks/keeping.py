#!/usr/bin/env python3
"""Prints what the program test_kept is to print of a database as a keeper and of keepers that fail, from the rules: which asks are accepted by
admin_model.py, which of them are kept and as what records, what a keeper holds of whose calls one fails, and what lines of a script of a kept
administration ask. `checks/kept.py` prints all that the program is to print.

usage: checks/keeping.py
"""
import json
import pathlib
import re

import admin_model
import reading

CRATE = pathlib.Path(__file__).resolve().parent.parent / "crates" / "test_kept"
CALLS = range(1, 40)
LOOKS = ("getPolicy", "listPolicies", "download")


class Failed(Exception):
    """Of the keeper."""


class Keeper:
    """Records, and the number of the call that fails, counted from 1."""

    def __init__(self, records=(), number=0, keeps=False):
        self.records, self.number, self.keeps, self.made = list(records), number, keeps, 0

    def call(self):
        """Whether this call fails."""
        self.made += 1
        return self.made == self.number

    def append(self, record):
        fails = self.call()
        if not fails or self.keeps:
            self.records.append(record)
        if fails:
            raise Failed

    def fetch(self, place):
        if self.call():
            raise Failed
        return self.records[place] if place < len(self.records) else None


def ask_of(record):
    """The actor and the command, None where the record doesn't read."""
    whole = json.loads(record)
    if not isinstance(whole.get("actor"), str) or whole.get("command") is None:
        return None
    command, fault = reading.read_command(json.dumps(whole["command"]).encode())
    return None if fault else (whole["actor"], command)


def printed(actor, command):
    """The record of an ask."""
    command = admin_model.filled(command)
    if "policy" in command:
        command = {**command, "policy": admin_model.policy_printed(command["policy"])}
    return admin_model.compact({"actor": actor, "command": command})


def is_kept(admin, ask):
    """Steps. Kept is an accepted command that changes the state."""
    reply = admin.step(*ask)
    return ask[1]["command"] not in LOOKS and "refused" not in reply


def reopened(config, keeper):
    """The administration that the records make, or None, and how many are good."""
    admin, place = admin_model.Admin(config), 0
    while (record := keeper.fetch(place)) is not None:
        ask = ask_of(record)
        if ask is None or not is_kept(admin, ask):
            return None, place
        place += 1
    return admin, place


def told(config, records):
    admin, kept = reopened(config, Keeper(records))
    if admin is None:
        return "bad record %d" % kept
    state = admin.state
    return "%d kept, %d policies, %d users, next id %d" % (kept, len(state["policies"]), len(state["users"]), state["nextId"])


def told_with_records(config, records):
    return "%d records; %s" % (len(records), told(config, records))


def answered(config, asks, keeper):
    """How many asks are answered; None where the administration isn't even opened."""
    try:
        admin, _ = reopened(config, keeper)
    except Failed:
        return None
    for place, record in enumerate(asks):
        try:
            if is_kept(admin, ask_of(record)):
                keeper.append(record)
        except Failed:
            return place
    return len(asks)


def kept_of(config, asks):
    keeper = Keeper()
    answered(config, asks, keeper)
    return keeper.records


def failures(config, asks):
    for number in CALLS:
        for how in ("without", "with"):
            keeper = Keeper(number=number, keeps=how == "with")
            count = answered(config, asks, keeper)
            first = "failed" if count is None else "%d answered" % count
            yield "call %d %s its record: %s, %s" % (number, how, first, told_with_records(config, keeper.records))


def taken(config, asks):
    for place, record in enumerate(asks):
        yield "ask %d as a record: %s" % (place + 1, told_with_records(config, kept_of(config, asks[:place]) + [record]))


def spoiled(config, asks):
    records = kept_of(config, asks)
    for place in range(len(records)):
        yield "{} in place %d: %s" % (place, told_with_records(config, records[:place] + ["{}"] + records[place + 1:]))


def line_row(line):
    """The record of an ask, or what else the line asks, in a word."""
    word, space, rest = line.partition(" ")
    if not line or line.startswith("#"):
        return "blank"
    if line == "reopen":
        return "reopen"
    if word not in ("config", "admin", "decide") or not space:
        return "bad"
    try:
        if word == "admin":
            actor, text = admin_model.actor_and_rest(rest.encode())
            return printed(actor, admin_model.taken(reading.read_command(text)))
        admin_model.taken(reading.read(reading.CONFIG if word == "config" else reading.REQUEST, rest.encode()))
        return word
    except admin_model.Bad:
        return "bad"


def database_rows():
    """A list of records, which is empty at first."""
    keeper = Keeper()

    def fetched(place):
        return "fetch %d: %s" % (place, keeper.fetch(place) or "none")

    yield fetched(0)
    for record in ("first", '{"second":2}'):
        keeper.append(record)
        yield "append %s: kept" % record
    for place in (0, 1, 2, 2 ** 64 - 1):
        yield fetched(place)
    yield "failures: 0"


def keeping_rows():
    first, *asks = (CRATE / "data" / "keeping.asks").read_text("utf-8").splitlines()
    config = admin_model.taken(reading.read(reading.CONFIG, first.encode()))
    for rows in (failures, taken, spoiled):
        yield from rows(config, asks)
    yield "a database: %d answered, %s" % (len(asks), told(config, kept_of(config, asks)))
    for record in kept_of(config, asks):
        yield printed(*ask_of(record))
    for line in re.search(r'r#"(.*?)"#', (CRATE / "src" / "keeping" / "lines.rt").read_text("utf-8"), re.DOTALL)[1].split("\n"):
        yield line_row(line)


def all_rows():
    yield "== a database as a keeper"
    yield from database_rows()
    yield "== keepers that fail"
    yield from keeping_rows()


def main():
    for row in all_rows():
        print(row)


if __name__ == "__main__":
    main()
