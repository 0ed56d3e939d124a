"""What the tests of a script come to, written from docs/FORMATS.md, section 12, over the rules of model.py.

usage: checks/testing.py [--junit] < SCRIPT      prints what `rangerd-test` is to print, and ends with its status

A request without a time is made at 0, as in admin_model.py.
"""

import sys

import admin_model
import explaining
import model
import reading
import records

EXPECTING = b"# expect "
FORMS = (b"ALLOWED", b"DENIED", b"UNDETERMINED", b"filter", b"mask")
TOP = '<?xml version="1.0" encoding="UTF-8"?>\n<testsuite name="rangerd-test">\n'
BOTTOM = "</testsuite>\n"
BAD_CASE = '<testcase name="bad line"><error message="the tests end at a bad line"/></testcase>\n'
ENTITIES = {"&": "&amp;", "<": "&lt;", ">": "&gt;", '"': "&quot;"}


def escaped(text):
    """What XML can't have is a question mark: a control character but tab, LF and CR, and the two that are no characters."""
    return "".join("?" if char < " " and char not in "\t\n\r" or char in "\ufffe\uffff" else ENTITIES.get(char, char) for char in text)


def is_form(wanted):
    """One of the words, up to a space, or the beginning of JSON."""
    return wanted.split(b" ")[0] in FORMS or wanted.startswith(b"{")


class Tests(admin_model.Script):
    """Of its lines nothing is printed. An expectation is judged by what the last line that is no comment came to: None, or a record."""

    def __init__(self, junit=False):
        super().__init__()
        self.junit, self.last, self.number, self.passed, self.failed = junit, None, 0, 0, 0

    def work(self, line, now=0):
        self.number += 1
        if line.startswith(EXPECTING):
            return self.judge(line[len(EXPECTING):])
        if line and not line.startswith(b"#"):
            self.last = None
            answer = super().work(line, now)
            if answer is not None and self.last is None:
                self.last = {"line": answer, "said": [answer], "reason": lambda: ""}
        return None

    def work_decide(self, text, now):
        """All that can be expected of a decision, and why it is so."""
        request = admin_model.taken(reading.read(reading.REQUEST, text))
        if not self.serial:
            raise admin_model.Bad("out of place")
        facts, request = self.facts, records.request(request, now)
        verdict = model.decide(facts, request)
        line = model.printed(facts, verdict, self.serial)
        said = [verdict.access, "%s %d" % (verdict.access, verdict.policy), "filter " + explaining.compact(verdict.row_filter),
                "mask " + (verdict.mask["type"] if verdict.mask else "null"), line]
        self.last = {"line": line, "said": said, "reason": lambda: explaining.words(explaining.explanation(facts, request), False)}
        return line

    def judge(self, wanted):
        """What is printed of the expectation, without its end. Raises Bad."""
        if self.last is None or not is_form(wanted):
            raise admin_model.Bad("no expectation")
        try:
            wanted = wanted.decode("utf-8")
        except UnicodeDecodeError:
            raise admin_model.Bad("an expectation that isn't UTF-8")
        if wanted in self.last["said"]:
            self.passed += 1
            return self.case(wanted) + "/>" if self.junit else None
        self.failed += 1
        line, reason = self.last["line"] + "\n", self.last["reason"]()
        if self.junit:
            return "%s><failure message=\"%s\">%s</failure></testcase>" % (self.case(wanted), escaped(line), escaped(reason))
        return ("line %d: expected %s, got %s%s" % (self.number, wanted, line, reason))[:-1]

    def case(self, wanted):
        return '<testcase name="line %d: %s"' % (self.number, escaped(wanted))

    def summary(self, status):
        """The status is that of the lines."""
        if self.junit:
            return (BAD_CASE if status == 2 else "") + BOTTOM
        return "%d passed, %d failed\n" % (self.passed, self.failed)


def tested(script, tests):
    """The printed text, the status, and the cause of a bad line."""
    text, status, cause = admin_model.worked(script, kind=lambda: tests)
    if status == 6:
        return text, status, None
    whole = (TOP if tests.junit else "") + text + tests.summary(status)
    return whole, status or (0 if tests.passed and not tests.failed else 2), cause


def main():
    if sys.argv[1:] not in ([], ["--junit"]):
        sys.exit(__doc__)
    text, status, _ = tested(sys.stdin.buffer.read(), Tests(junit=bool(sys.argv[1:])))
    sys.stdout.buffer.write(text.encode())
    sys.stdout.flush()
    sys.exit(status)


if __name__ == "__main__":
    main()
