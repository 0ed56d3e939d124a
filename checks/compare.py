"""Runs `rangerd replay` over scripts made from a seed, and compares each line with the model.

usage: checks/compare.py [SEED] [SCRIPTS] [--parts PARTS] [--program PROGRAM | --dry]      (1 and 1000 where not given)

PROGRAM is a built rangerd; where it isn't given, this repository's is taken, and is built first where it has to be.
PARTS is a list such as roles,zones of the parts that the scripts may use (all that are built where not given, and `none` for none).
It stops at the first difference, prints it, and leaves the script in the file that it names.
With --dry no program is run: printed is how often each cell, each kind of answer and each broken rule came up in the model.
"""

import argparse
import collections
import json
import os
import subprocess
import sys
import tempfile

import maker
import model
import records
import spoils

TOP = os.path.dirname(os.path.dirname(os.path.abspath(__file__)))
BUILT = "roles,zones,tags,masks,maps"
REQUESTS = 25


def facts_of(making):
    """One in four is spoilt."""
    given = making.facts()
    return spoils.spoil(making, given) if making.maybe(.25) else given


def script_of(given, requests):
    return "\n".join(["facts " + json.dumps(given)] + ["decide " + json.dumps(request) for request in requests]) + "\n"


def wanted(given, requests, counts):
    """The output and the status."""
    facts = records.facts(given)
    fault = model.first_fault(facts)
    if fault:
        counts["unsound: " + fault] += 1
        return "bad line 1\n", 2
    asked = [records.request(request) for request in requests]
    verdicts = [model.decide(facts, request) for request in asked]
    for request, verdict in zip(asked, verdicts):
        counts.update(labels(facts, request, verdict))
    return "".join(model.printed(facts, verdict) + "\n" for verdict in verdicts), 0


def labels(facts, request, verdict):
    """What a decision is counted under. No resource lies in two zones of sound facts."""
    elements = request["resource"]["elements"]
    zones, tags = model.zones_of(facts, elements), model.tags_of(facts, elements)
    assert len(zones) <= 1, (facts, elements)
    yield "cell %d: %s" % (verdict.cell, verdict.access)
    if zones:
        yield "in a zone, cell %d" % verdict.cell
    if tags:
        yield "with %s, cell %d" % ("one tag" if len(tags) == 1 else "several tags", verdict.cell)
    if verdict.access == "ALLOWED":
        playing = [asked for asked in model.asked_policies(facts, request) if model.in_play(facts, asked, request)]
        for kind, word, items in ((1, "mask", "dataMaskPolicyItems"), (2, "filter", "rowFilterPolicyItems")):
            asked, item = model.deciding_item(facts, playing, request, kind, items)
            if asked:
                yield "%s by a %s policy%s" % (word, asked.side, ": " + item["dataMaskInfo"]["dataMaskType"] if kind == 1 else "")


def built_program():
    """The path of this repository's program."""
    return subprocess.run([os.path.join(TOP, "bin", "built"), "rangerd", "replay"], stdout=subprocess.PIPE, text=True, check=True).stdout.strip()


def compare(program, name, script, text, status):
    ran = subprocess.run([program, "replay"], input=script, capture_output=True, text=True)
    if (ran.stdout, ran.returncode) == (text, status):
        return
    with tempfile.NamedTemporaryFile("w", suffix=".script", delete=False) as kept:
        kept.write(script)
    pairs = enumerate(zip(ran.stdout.splitlines() + [""], text.splitlines() + [""]), 2)
    line, (got, want) = next((n, pair) for n, pair in pairs if pair[0] != pair[1] or not pair[0])
    sys.exit("%s differs, at line %d of %s\ngot:    %s\nwanted: %s\nstatus: %d, wanted %d"
             % (name, line, kept.name, got, want, ran.returncode, status))


def words():
    parser = argparse.ArgumentParser()
    parser.add_argument("seed", nargs="?", type=int, default=1)
    parser.add_argument("scripts", nargs="?", type=int, default=1000)
    parser.add_argument("--parts", default=BUILT)
    parser.add_argument("--program")
    parser.add_argument("--dry", action="store_true")
    return parser.parse_args()


def main():
    given = words()
    parts = [part for part in given.parts.split(",") if part != "none"]
    if not set(parts) <= set(maker.PARTS):
        sys.exit("the parts are " + ",".join(maker.PARTS))
    program = None if given.dry else given.program or built_program()
    making, counts = maker.Maker(given.seed, parts), collections.Counter()
    for number in range(given.scripts):
        facts = facts_of(making)
        requests = [making.request(facts) for _ in range(REQUESTS)]
        text, status = wanted(facts, requests, counts)
        if program:
            compare(program, "script %d of seed %d" % (number, given.seed), script_of(facts, requests), text, status)
    print("%d scripts %s" % (given.scripts, "made" if given.dry else "agree"))
    for label, count in sorted(counts.items()):
        print("%8d %s" % (count, label))


main()
