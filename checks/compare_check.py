"""Runs `rangerd-check` over made-up scripts with many bad lines, and compares what it names with the model, line and cause.

usage: checks/compare_check.py PROGRAM SCRIPTS [--seed SEED] [--lines LINES]      (seed 1, 40 lines where not given)

The model replays a script line by line and goes on behind a bad line as if the line weren't there. It stops at the first
difference, prints it, and leaves the script in the file that it names. Where PROGRAM is `-` no program is run. Printed is how
often each kind of cause was wanted.
"""

import argparse
import collections
import json
import re
import subprocess
import sys
import tempfile

import admin_maker
import admin_model
import bad_lines
import model
import reading
import records
import spoils

# What docs/FORMATS.md says of roles.
OF_A_ROLE = {"duplicate": "has the name of a role before it", "unknown": "names a role that isn't there", "cycle": "holds itself"}
# The rules of a policy that are asked together; V10 and V14 are asked before.
TOGETHER = [rule for rule in model.RULES_OF_A_POLICY if rule not in ("V10", "V14")]


def broken(who, rule):
    """What names the rule, and in brackets what it asks."""
    return r"%s breaks %s \([^;]*\)" % (re.escape(who), rule)


def of_definition(who, definition):
    rule = model.first_broken(model.RULES_OF_A_DEFINITION, definition)
    return [broken(who, rule)] if rule else []


def of_definitions(facts):
    yield from of_definition("/serviceDef", facts["serviceDef"])
    if facts["tagServiceDef"]:
        yield from of_definition("/tagServiceDef", facts["tagServiceDef"])
        if facts["tagServiceDef"]["name"] != "tag":
            yield "/tagServiceDef isn't named tag"


def of_policy(facts, rules, is_tag):
    """The first policy of the list that breaks one of the rules, and the first that it breaks."""
    definition = facts["tagServiceDef"] if is_tag else facts["serviceDef"]
    for policy in facts["tagPolicies" if is_tag else "policies"]:
        rule = model.first_broken({rule: model.RULES_OF_A_POLICY[rule] for rule in rules}, facts, definition, policy, is_tag)
        if rule:
            return [broken("policy %d" % policy["id"], rule)]
    return []


def of_zone(facts, rule):
    """The first zone that breaks the rule alone."""
    passes = model.RULES_OF_ZONES[rule]
    return [broken("/zones/%d" % place, rule) for place, zone in enumerate(facts["zones"]) if not passes({**facts, "zones": [zone]})][:1]


def of_zones(facts):
    """Whether two overlap is asked where each passes the other rules."""
    found = [cause for rule in ("Z2", "Z5", "Z3", "Z4") for cause in of_zone(facts, rule)]
    pair = None if found else model.overlapping(facts["serviceDef"], facts["zones"], facts["service"])
    return found + ([broken("/zones/%d with /zones/%d" % pair, "Z6")] if pair else [])


def of_tag_rows(facts):
    for rule, passes in model.RULES_OF_A_TAG_ROW.items():
        yield from [broken("tag row %d" % row["id"], rule) for row in facts["resources"] if not passes(facts["serviceDef"], row)][:1]
    if not model.distinct([row["id"] for row in facts["resources"]]):
        yield "two tag rows have one id"


def of_rules(facts):
    """Policies are asked where each time zone reads."""
    bad = [place for place, row in enumerate(facts["timeZones"]) if not model.posix_zone(row["rule"])]
    if bad:
        return [broken("/timeZones/%d" % bad[0], "U2")]
    if facts["tagPolicies"] and not facts["tagServiceDef"]:
        return of_policy(facts, TOGETHER, False) + ["/tagPolicies without /tagServiceDef"]
    return of_policy(facts, TOGETHER, False) + of_policy(facts, TOGETHER, True)


def under_definitions(facts):
    """The causes that are asked where the definitions pass their rules."""
    ids = [policy["id"] for policy in facts["policies"] + facts["tagPolicies"]]
    if min(ids, default=1) < 1 or not model.distinct(ids):
        yield "the ids of policies aren't positive and distinct"
    role = model.role_fault(facts["roles"])
    if role:
        yield "/roles/%d %s" % (role[1], OF_A_ROLE[role[0]])
    for rule in ("V10", "V14"):
        yield from of_policy(facts, [rule], False) + of_policy(facts, [rule], True)
    yield from of_zones(facts)
    yield from of_tag_rows(facts)
    yield from of_rules(facts)


def causes(facts):
    """Everything that makes the facts unsound, in the order of docs/RULES.md; of each rule the first row that breaks it."""
    if max(facts["policyVersion"], facts["tagVersion"], facts["roleVersion"]) > 2 ** 62:
        yield re.escape("a version is past 2^62")
    found = list(of_definitions(facts))
    yield from found or under_definitions(facts)


def of_facts(line):
    return "; ".join(causes(records.facts(reading.read(reading.FACTS, line.partition(b" ")[2])[0])))


def where(script, word):
    """What stands behind the word of a line that is out of place."""
    if script.admin is not None:
        return "after config"
    if script.serial:
        return "after facts"
    return "before facts or config" if word == "decide" else "before config"


def wanted(script, line, cause):
    """What the rest of a naming line has to match."""
    if cause == "out of place":
        word = line.split(b" ")[0].decode()
        return re.escape("%s %s" % (word, where(script, word)))
    if cause.startswith("facts that aren't sound: "):
        return of_facts(line)
    if cause.startswith("a configuration that breaks "):
        return r"the configuration breaks %s \(.*\)" % cause.rsplit(" ", 1)[1]
    kind, at, path = cause.partition(" at ")
    if at:
        return re.escape("%s: %s" % ("JSON" if path == "the top" else path, kind))
    return re.escape(bad_lines.NO_LINE)


class Scripts(admin_maker.AdminMaker):
    def broken(self, line):
        """The line with a byte less, a byte more, or a value that is null."""
        at = self.random.randrange(len(line) + 1)
        way = self.pick(["less", "more", "null", "space"])
        if way == "less":
            return line[:at] + line[at + 1:]
        if way == "more":
            return line[:at] + self.pick([b'"', b"}", b",", b"\xff", b" "]) + line[at:]
        if way == "space":
            return b" " + line
        return re.sub(rb":(\"[^\"]*\"|\d+|true|false)", lambda found: b":null" if self.maybe(.2) else found[0], line)

    def facts_line(self, chance):
        given = self.facts()
        for _ in range(self.pick([1, 1, 2, 3, 5]) if self.maybe(chance) else 0):
            given = spoils.spoil(self, given)
        return b"facts " + json.dumps(given).encode()

    def asked(self):
        return b"decide " + json.dumps(self.request(self.facts_to_ask_of())).encode()

    def facts_to_ask_of(self):
        return self.made

    def lines(self, script, most):
        """Bad beginnings, and then a script of either kind, of whose lines some are broken or stand elsewhere."""
        self.made, self.script, is_admin, count = self.facts(), script, self.maybe(.5), 0
        while count < most:
            begun = script.serial > 0
            if not begun:
                line = self.pick([lambda: self.facts_line(.9), self.asked, self.a_config, lambda: b"refresh", self.bad_line,
                                  lambda: b"# nothing"])() if count < 8 else (self.good_config() if is_admin else self.facts_line(0))
            elif script.admin is not None:
                line = self.pick([self.next_line] * 8 + [self.bad_line, lambda: self.facts_line(.5)])()
            else:
                line = self.pick([self.asked] * 6 + [self.bad_line, lambda: b"refresh", lambda: self.facts_line(.3), self.a_config])()
            yield self.broken(line) if self.maybe(.2) else line
            count += 1

    def good_config(self):
        return b"config " + json.dumps(self.config()).encode()

    def a_config(self):
        return b"config " + json.dumps(self.bad_config(self.config()) or self.config()).encode()


def script_of(making, most, counts):
    """The script, and of each bad line its number and what has to match."""
    script, lines, named = admin_model.Script(), [], []
    for line in making.lines(script, most):
        line = line.replace(b"\n", b"").replace(b"\r", b"")
        lines.append(line)
        try:
            script.work(line)
        except admin_model.Bad as cause:
            named.append((len(lines), wanted(script, line, str(cause))))
            counts[re.sub(r" at .*", " at a path", str(cause)) if not str(cause).endswith("the top") else str(cause)] += 1
    return b"\n".join(lines) + b"\n", named


def difference(program, script, named):
    ran = subprocess.run([program], input=script, capture_output=True)
    got = ran.stdout.decode("utf-8", "replace").splitlines()
    if ran.returncode != (2 if named else 0):
        return "status %d" % ran.returncode
    for here, (number, text) in zip(got + [""] * len(named), named):
        if not re.fullmatch("line %d: %s" % (number, text), here):
            return "got:    %s\nwanted: line %d: %s" % (here, number, text)
    return "got:    %s\nwanted nothing" % got[len(named)] if len(got) > len(named) else None


def main():
    parser = argparse.ArgumentParser()
    parser.add_argument("program")
    parser.add_argument("scripts", type=int)
    parser.add_argument("--seed", type=int, default=1)
    parser.add_argument("--lines", type=int, default=40)
    given = parser.parse_args()
    making, counts = Scripts(given.seed), collections.Counter()
    for number in range(given.scripts):
        script, named = script_of(making, given.lines, counts)
        told = difference(given.program, script, named) if given.program != "-" else None
        if told:
            with tempfile.NamedTemporaryFile("wb", suffix=".script", delete=False) as kept:
                kept.write(script)
            sys.exit("script %d of seed %d differs (%s)\n%s" % (number, given.seed, kept.name, told))
    print("%d scripts %s" % (given.scripts, "made" if given.program == "-" else "agree"))
    for label, count in sorted(counts.items()):
        print("%8d %s" % (count, label))


if __name__ == "__main__":
    main()
