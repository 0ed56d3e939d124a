#!/usr/bin/env python3
"""Kept administration once more, in Python, written from the rules and not from the program: a script over the records of a keeper. The
administration that is asked stands in admin_model.py, the keeper in keeping.py.

usage: checks/kept_model.py < SCRIPT      prints what `rangerd keep` is to print, and ends with its status
"""

import sys

import admin_model
import grants_model
import keeping
import reading


class BadRecord(Exception):
    """The place of a record that can't be taken."""


class KeptScript(grants_model.GrantScript):
    """An administration whose commands are kept, and what its plugin decides over what it sees as it is."""

    def __init__(self, keeper):
        super().__init__()
        self.keeper, self.config = keeper, None
        self.words = {b"config": self.work_config, b"admin": self.work_admin, b"decide": self.work_decide}

    def reopen(self):
        """How many commands are kept."""
        self.admin, kept = keeping.reopened(self.config, self.keeper)
        if self.admin is None:
            raise BadRecord(kept)
        return kept

    def work(self, line, now=0):
        return self.work_reopen() if line == b"reopen" else super().work(line, now)

    def work_config(self, text, now):
        super().work_config(text, now)
        self.config = admin_model.taken(reading.read(reading.CONFIG, text))
        self.reopen()

    def work_admin(self, rest, now):
        """A command that is to be kept is with the keeper before its reply is there."""
        actor, text = admin_model.actor_and_rest(rest)
        command = admin_model.taken(reading.read_command(text))
        self.after_the_configuration()
        reply = self.admin.step(actor, command)
        if command["command"] not in keeping.LOOKS and "refused" not in reply:
            self.keeper.append(keeping.printed(actor, command))
        return admin_model.compact(reply)

    def work_reopen(self):
        self.after_the_configuration()
        return admin_model.compact({"kept": self.reopen()})


def worked(script, keeper):
    """The printed text and the status."""
    if admin_model.is_too_long(script):
        return "too long\n", 6
    printed, work = "", KeptScript(keeper)
    for number, line in enumerate(admin_model.lines_of(script), 1):
        try:
            answer = work.work(line)
        except admin_model.Bad:
            return printed + "bad line %d\n" % number, 2
        except keeping.Failed:
            return printed, 8
        except BadRecord as place:
            return "bad record %s\n" % place, 10
        printed += "" if answer is None else answer + "\n"
    return printed, 0


def main():
    text, status = worked(sys.stdin.buffer.read(), keeping.Keeper())
    sys.stdout.buffer.write(text.encode())
    sys.stdout.flush()
    sys.exit(status)


if __name__ == "__main__":
    main()
