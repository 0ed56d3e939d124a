"""What a conversion tells, and how bad it is."""

import sys


class Bad(Exception):
    """An input that can't be taken at all: what is wrong, behind the name of its file."""


class Told:
    """Lines for standard error. A note changes nothing of what is decided; what was left out decides less; an UNSAFE line names what may
    be allowed here and isn't there."""

    def __init__(self):
        self.lines, self.left, self.unsafe, self.unknown = [], 0, 0, {}

    def note(self, text):
        self.lines.append("note: " + text)

    def left_out(self, text, harms=False):
        """Harms where somebody may get more by its absence."""
        if harms:
            self.unsafe += 1
            self.lines.append("UNSAFE: " + text)
        else:
            self.left += 1
            self.lines.append("left out: " + text)

    def unknown_key(self, file, kind, key, place):
        """Told once for each key of a kind of record, with the number of times."""
        self.unknown.setdefault((file, kind, key), []).append(place or "/")

    def tell_unknown_keys(self):
        for (file, kind, key), places in self.unknown.items():
            times = "" if len(places) == 1 else ", %d times" % len(places)
            self.left_out('%s: the key "%s" of a %s isn\'t known (%s%s)' % (file, key, kind, places[0], times))
        self.unknown = {}

    def status(self):
        return 4 if self.unsafe else 3 if self.left else 0

    def print(self):
        for line in self.lines:
            say(line)


def say(line):
    """On one line of standard error, whatever names are in it."""
    print("".join(c if c.isprintable() else c.encode("unicode_escape").decode() for c in line), file=sys.stderr)
