"""Runs `rangerd-test` over scripts made from a seed, with expectations behind their lines, and compares what is printed, in sentences
and as JUnit, and the status with the model of testing.py.

usage: checks/compare_tests.py [SEED] [SCRIPTS] [--program PROGRAM | --dry]      (1 and 300 where not given)

PROGRAM is a built rangerd-test; where it isn't given, this repository's is taken, and is built first where it has to be.
The scripts are those of compare_explained.py. What is expected is taken from the model's answers; in two scripts of three some of it is
spoilt, and in one of eight an expectation is none. It stops at the first difference, prints it, and leaves the script in the file that it
names. With --dry no program is run: printed is how often each form of an expectation was met and wasn't, and each way in which a script
ended.
"""

import argparse
import collections
import os
import random
import subprocess
import sys
import tempfile
import xml.dom.minidom

import admin_maker
import admin_model
import compare_explained
import maker
import testing

TOP = os.path.dirname(os.path.dirname(os.path.abspath(__file__)))
# no expectations, wherever they stand, and comments that only look like one
NONE = [b"# expect maybe", b"# expect ", b"# expect  ALLOWED", b"# expect allowed", b"# expect ALLOWED\t1", b"# expect [1]", b"# expect ALLOWED \xff",
        b"# expect \xc3(", b"# expect filters"]
COMMENTS = [b"", b"# expect", b"#expect DENIED", b"# expected ALLOWED", b"# Expect DENIED", b"#", b"# nothing <&>"]
# what no line says, and what is one by chance
OTHERS = ["ALLOWED", "DENIED", "UNDETERMINED", "DENIED -1", "ALLOWED 1", "ALLOWED -1", "DENIED 01", "filter null", "filter \"a = 1\"", "filter",
          "filter \"é = '\\\"'\"", "filter  null", "mask null", "mask MASK", "mask MASK_NONE", "mask CUSTOM", "mask", "mask <\"&'\x01\t\ufffe\uffff\ufffd\x7f>", "{}",
          '{"done":true}', '{"refused":"V5"}', '{"unchanged":true}', '{"published":2}', "{", "ALLOWED ", "DENIED\r", "DENIED by policy 1"]


class Maker:
    def __init__(self, seed):
        self.random = random.Random(seed)
        self.pick = self.random.choice
        self.plain, self.administering = maker.Maker(seed), admin_maker.AdminMaker(seed)

    def maybe(self, chance):
        return self.random.random() < chance

    def changed(self, wanted):
        way = self.pick(["other", "other", "digit", "more", "less"])
        if way == "digit":
            return wanted.replace(self.pick("0123456789"), self.pick("0123456789"))
        return self.pick(OTHERS) if way == "other" else wanted + self.pick([" ", "1", "}", ">"]) if way == "more" else wanted[:-1]

    def spoilt(self, wanted):
        """Seldom something that is none."""
        while True:
            made = self.changed(wanted)
            if testing.is_form(made.encode()) or self.maybe(.02):
                return made

    def expectations(self, said, spoils):
        """Those behind one line, of what is said of it."""
        for _ in range(self.pick([0, 1, 1, 2, 3])):
            wanted = self.pick(said)
            yield b"# expect " + (self.spoilt(wanted) if spoils and self.maybe(.25) else wanted).encode()
            if self.maybe(.1):
                yield self.pick(COMMENTS)

    def script(self, number):
        """With expectations behind its lines, up to one that is bad."""
        script = compare_explained.of_administration(self.administering) if number % 3 == 2 else compare_explained.of_facts(self.plain)
        tests, lines, spoils, breaks, expects = testing.Tests(), [], number % 3 > 0, self.maybe(.125), self.maybe(.95)
        for line in admin_model.lines_of(script):
            lines.append(line)
            try:
                tests.work(line)
            except admin_model.Bad:
                break
            if tests.last and expects:
                lines += self.expectations(tests.last["said"], spoils)
            if breaks and self.maybe(.05) or self.maybe(.002):
                lines.append(self.pick(NONE + [b"# expect ALLOWED"]))
        return self.pick([b"\n"] * 7 + [b"\r\n"]).join(lines) + self.pick([b"\n", b"\n", b""])


def label_of(wanted):
    return wanted.split(b" ")[0].decode("utf-8", "replace") if not wanted.startswith(b"{") else "a line"


class Counted(testing.Tests):
    """Counts each form, met or not."""

    def __init__(self, counts):
        super().__init__()
        self.counts = counts

    def judge(self, wanted):
        answer = super().judge(wanted)
        self.counts["expected %s: %s" % (label_of(wanted), "met" if answer is None else "not met")] += 1
        return answer


def end_of(tests, cause):
    if cause:
        return "ended by " + (cause if "expectation" in cause else "a bad line")
    return "some not met" if tests.failed else "all met" if tests.passed else "nothing expected"


def built_program():
    """The path of this repository's program."""
    return subprocess.run([os.path.join(TOP, "bin", "built"), "rangerd_test"], stdout=subprocess.PIPE, text=True, check=True).stdout.strip()


def compare(program, name, script, words, text, status):
    ran = subprocess.run([program, *words], input=script, capture_output=True)
    got = ran.stdout.decode("utf-8", "replace")
    if (got, ran.returncode) == (text, status):
        return
    with tempfile.NamedTemporaryFile("wb", suffix=".script", delete=False) as kept:
        kept.write(script)
    pairs = enumerate(zip(got.split("\n") + [""], text.split("\n") + [""]), 1)
    line, (here, there) = next(((n, pair) for n, pair in pairs if pair[0] != pair[1]), (0, ("", "")))
    sys.exit("%s differs with the words [%s], at printed line %d of %s\ngot:    %s\nwanted: %s\nstatus: %d, wanted %d"
             % (name, " ".join(words), line, kept.name, here, there, ran.returncode, status))


def cases_in(text):
    """How many tests a reader of XML finds, how many that failed, and how many that are bad lines."""
    suite = xml.dom.minidom.parseString(text.encode()).documentElement
    return tuple(len(suite.getElementsByTagName(name)) for name in ("testcase", "failure", "error"))


def main():
    parser = argparse.ArgumentParser()
    parser.add_argument("seed", nargs="?", type=int, default=1)
    parser.add_argument("scripts", nargs="?", type=int, default=300)
    parser.add_argument("--program")
    parser.add_argument("--dry", action="store_true")
    given, counts = parser.parse_args(), collections.Counter()
    program, making = None if given.dry else given.program or built_program(), Maker(given.seed)
    for number in range(given.scripts):
        script, name = making.script(number), "script %d of seed %d" % (number, given.seed)
        for words, tests in (([], Counted(counts)), (["--junit"], testing.Tests(junit=True))):
            text, status, cause = testing.tested(script, tests)
            bad = int(cause is not None)
            assert not words or cases_in(text) == (tests.passed + tests.failed + bad, tests.failed, bad), text
            if program:
                compare(program, name, script, words, text, status)
        counts[end_of(tests, cause)] += 1
    print("%d scripts %s" % (given.scripts, "made" if given.dry else "agree"))
    for label, times in sorted(counts.items()):
        print("%8d %s" % (times, label))


if __name__ == "__main__":
    main()
