"""Runs `rangerd-explain` over the examples and over scripts made from a seed, of facts and of an administration with refreshes, and
compares each line with the model of explaining.py: of an example in words and in JSON, each with and without policies far off, of the
made-up ones by turns in words and in JSON, with the other options by chance.

usage: checks/compare_explained.py [SEED] [SCRIPTS] [--program PROGRAM | --dry]      (1 and 300 where not given)

PROGRAM is a built rangerd-explain; where it isn't given, this repository's is taken, and is built first where it has to be.
Of the scripts one in three is of an administration; of the facts of the others one in four are spoilt.
It stops at the first difference, prints it, and leaves the script in the file that it names.
With --dry no program is run: printed is how often each cell, each standing of a policy and each subject came up in the model.
"""

import argparse
import collections
import glob
import json
import os
import random
import subprocess
import sys
import tempfile

import admin_maker
import admin_model
import explaining
import maker
import spoils

TOP = os.path.dirname(os.path.dirname(os.path.abspath(__file__)))
REQUESTS = 25
LINES = 60
ALL_STYLES = [[], ["--all"], ["--json"], ["--json", "--all"]]


# ---- scripts

def timed(line):
    """A request without a time is made by the clock, and the time is told: such a line gets one."""
    if not line.startswith(b"decide "):
        return line
    request = json.loads(line[len(b"decide "):])
    return line if "accessTime" in request else b"decide " + json.dumps({**request, "accessTime": 0}).encode()


def examples():
    for path in sorted(glob.glob(os.path.join(TOP, "examples", "*.script"))):
        with open(path, "rb") as script:
            yield os.path.basename(path), b"".join(timed(line) + b"\n" for line in script.read().splitlines())


def of_facts(making):
    """One in four is spoilt."""
    given = making.facts()
    given = spoils.spoil(making, given) if making.maybe(.25) else given
    lines = ["facts " + json.dumps(given)] + ["decide " + json.dumps(making.request(given)) for _ in range(REQUESTS)]
    return "".join(line + "\n" for line in lines).encode()


def of_administration(making):
    """Up to a line that is bad."""
    making.script, lines = admin_model.Script(), [b"config " + json.dumps(making.config()).encode()]
    try:
        making.script.work(lines[0])
        for line in making.first_policies():
            lines.append(line)
            making.script.work(line)
        while len(lines) < LINES:
            lines.append(making.next_line())
            making.script.work(lines[-1])
    except admin_model.Bad:
        pass
    return b"\n".join(lines) + b"\n"


def scripts(seed, count):
    """The examples, and so many made ones, each with the words of the command line."""
    for name, script in examples():
        yield from ((name, script, style) for style in ALL_STYLES)
    plain, administering, choice = maker.Maker(seed), admin_maker.AdminMaker(seed), random.Random(seed)
    for number in range(count):
        script = of_administration(administering) if number % 3 == 2 else of_facts(plain)
        alone = [str(choice.choice([1, 2, 3, choice.randint(1, REQUESTS), 4294967295]))] * (choice.random() < .2)
        yield "script %d of seed %d" % (number, seed), script, ["--json"] * (number % 2) + ["--all"] * (choice.random() < .3) + alone


def model_of(style):
    numbers = [int(word) for word in style if word.isdigit()]
    return explaining.ExplainedScript("--json" in style, "--all" in style, *numbers)


# ---- what came up

def subjects(told):
    for name, match in (told["items"] or {}).items():
        if match:
            yield "%s by %s" % (name, match["by"]["is"])


def labels(explanation):
    """What an explanation is counted under. A zone has the map by which the resource lies in it, and each role that holds the user has
    a reason."""
    yield "cell %s: %s" % (explanation["cell"], explanation["access"])
    if explanation["zone"] is not None:
        assert explanation["zone"]["map"] is not None, explanation
        yield "in a zone by map %d" % explanation["zone"]["map"]
    for role in explanation["roles"]:
        assert role["by"] is not None, explanation
        yield "role holds by %s" % role["by"]["is"]
    for part in ("mask", "rowFilter"):
        if explanation[part]:
            yield "%s by a policy of the %s" % (part, "tag service" if explanation[part]["tag"] else "service")
    for told in explanation["policies"]:
        yield "%s policy is %s" % ("tag" if told["tag"] is not None else "resource", told["is"])
        yield from ("map is kept out: %s" % miss["is"] for miss in told["maps"] or [])
        yield from subjects(told)


def form_of(style):
    return "printed in %s, %s%s" % ("JSON" if "--json" in style else "words", "all policies" if "--all" in style else "without those far off",
                                    ", one alone" if style and style[-1].isdigit() else "")


# ---- the program

def built_program():
    """The path of this repository's program."""
    return subprocess.run([os.path.join(TOP, "bin", "built"), "rangerd_explain"], stdout=subprocess.PIPE, text=True, check=True).stdout.strip()


def compare(program, name, script, style, text, status):
    ran = subprocess.run([program, *style], input=script, capture_output=True)
    got = ran.stdout.decode("utf-8", "replace")
    if (got, ran.returncode) == (text, status):
        return
    with tempfile.NamedTemporaryFile("wb", suffix=".script", delete=False) as kept:
        kept.write(script)
    pairs = enumerate(zip(got.splitlines() + [""], text.splitlines() + [""]), 1)
    line, (here, there) = next(((n, pair) for n, pair in pairs if pair[0] != pair[1]), (0, ("", "")))
    sys.exit("%s differs with the words [%s], at printed line %d of %s\ngot:    %s\nwanted: %s\nstatus: %d, wanted %d"
             % (name, " ".join(style), line, kept.name, here, there, ran.returncode, status))


def words():
    parser = argparse.ArgumentParser()
    parser.add_argument("seed", nargs="?", type=int, default=1)
    parser.add_argument("scripts", nargs="?", type=int, default=300)
    parser.add_argument("--program")
    parser.add_argument("--dry", action="store_true")
    return parser.parse_args()


def main():
    given, counts = words(), collections.Counter()
    program, worked = None if given.dry else given.program or built_program(), 0
    for name, script, style in scripts(given.seed, given.scripts):
        work = model_of(style)
        text, status, _ = admin_model.worked(script, kind=lambda: work)
        counts.update(label for told in work.explained for label in labels(told))
        counts.update([form_of(style)] + ["bad line"] * (status == 2))
        if program:
            compare(program, name, script, style, text, status)
        worked += 1
    print("%d scripts %s" % (worked, "made" if given.dry else "agree"))
    for label, count in sorted(counts.items()):
        print("%8d %s" % (count, label))


if __name__ == "__main__":
    main()
