#!/usr/bin/env python3
"""Prints what the program test_kept is to print of recorders over keepers that fail, from the rules: what each ask is answered where a call of
the keeper fails, what stands in the administration then and how many records were passed by or kept; and the same of one that follows the
records. The keeper stands in keeping.py.

usage: checks/recording.py
"""
import copy

import admin_model
import keeping
import reading

CALLS = range(1, 9)


class Recorder:
    """An administration that has each accepted change recorded before it is done. It follows the list that it finds. From a fault on no
    change is done."""

    def __init__(self, config, keeper):
        """Raises Failed where the first record can't be had."""
        self.admin, self.keeper, self.place, self.has_stopped = admin_model.Admin(config), keeper, 0, False
        self.next = keeper.fetch(0)

    def take(self, ask):
        """Passes the record of the ask by, or keeps it. Raises Failed where it can't."""
        if self.has_stopped:
            raise keeping.Failed
        try:
            if self.next is None:
                self.keeper.append(keeping.printed(*ask))
            else:
                assert self.next == keeping.printed(*ask)
                self.next = self.keeper.fetch(self.place + 1)
        except keeping.Failed:
            self.has_stopped = True
            raise
        self.place += 1

    def answer(self, ask):
        later = copy.deepcopy(self.admin)
        if "refused" in later.step(*ask):
            return "refused"
        try:
            if ask[1]["command"] not in keeping.LOOKS:
                self.take(ask)
        except keeping.Failed:
            return "failed"
        self.admin = later
        return "accepted"

    def follow(self):
        """How many records are accepted again."""
        count = 0
        while self.next is not None and self.answer(keeping.ask_of(self.next)) == "accepted":
            count += 1
        return count

    def stands(self):
        state = self.admin.state
        return "%d services, %d policies, %d roles, %d tag rows, next id %d, %d kept, %s" % (
            len(state["services"]), len(state["policies"]), len(state["roles"]), len(state["tagRows"]), state["nextId"], self.place,
            "stopped" if self.has_stopped else "going on")


def recorded(config, asks, keeper):
    try:
        recorder = Recorder(config, keeper)
    except keeping.Failed:
        return "not opened"
    followed = recorder.follow()
    return ", ".join(["%d followed" % followed, *(recorder.answer(keeping.ask_of(ask)) for ask in asks), recorder.stands()])


def failing_rows(config, asks):
    for row, (number, keeps) in zip(keeping.failures(config, asks), ((number, keeps) for number in keeping.CALLS for keeps in (False, True))):
        if number not in CALLS:
            continue
        keeper = keeping.Keeper(number=number, keeps=keeps)
        told = recorded(config, asks, keeper)
        yield "%s; recorded: %s; again: %s" % (row, told, recorded(config, [], keeping.Keeper(keeper.records)))


def again_rows(config, asks):
    records = [keeping.printed(*keeping.ask_of(record)) for record in keeping.kept_of(config, asks)]
    for number in CALLS:
        yield "again, where call %d fails: %s" % (number, recorded(config, [], keeping.Keeper(records, number)))


def file_rows(config, asks):
    keeper = keeping.Keeper()
    for first, end in ((0, 4), (4, 9), (9, 9)):
        yield "a file: " + recorded(config, asks[first:end], keeper)


def rows():
    first, *asks = (keeping.CRATE / "data" / "recording.asks").read_text("utf-8").splitlines()
    config = admin_model.taken(reading.read(reading.CONFIG, first.encode()))
    for of in (failing_rows, again_rows, file_rows):
        yield from of(config, asks)


def all_rows():
    yield "== recorders over keepers that fail"
    yield from rows()


def main():
    for row in all_rows():
        print(row)


if __name__ == "__main__":
    main()
