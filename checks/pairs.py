#!/usr/bin/env python3
"""Breaks every two rules of a command at once, and looks whether `rangerd replay` names the one that is tried first.

usage: checks/pairs.py [PROGRAM | --dry] [--kind replay | grants | keep]      (bin/rangerd and replay where not given; --dry runs no program)

The ways to break a rule stand in the table WAYS below: for each rule of each command at least one. A command that is accepted gets two of
them at a time, in either order, and the rules of admin_rules.py say which rules it breaks then. Printed is for each command how many of
its pairs of rules were broken together. All must be but those of the table APART, which no command can break both. A line that is answered
otherwise is printed, and ends with status 1.
All lines are refused, so each meets the same state but for the count of entries.
"""

import argparse
import copy
import itertools
import json
import os
import subprocess
import sys

import admin_model
import admin_rules
import records

TOP = os.path.dirname(os.path.dirname(os.path.abspath(__file__)))
LONG = "x" * 257
OUT_OF_REACH = {"L1"}  # 2^62 entries

# ---- the state that all commands meet

HIVE = json.load(open(os.path.join(TOP, "checks", "rows", "definitions.json")))["hive"]
OTHER = {"name": "other", "resources": [{"name": "path"}], "accessTypes": [{"name": "read"}]}
CONFIG = {
    "admins": ["root"], "plugin": "s", "serviceDefs": [HIVE["serviceDef"], HIVE["tagServiceDef"], OTHER],
    "services": [{"name": "t", "type": "tag"}, {"name": "t2", "type": "tag"}, {"name": "s", "type": "hive", "tagService": "t"},
                 {"name": "s2", "type": "hive"}, {"name": "o", "type": "other"}],
    "users": [{"name": "ann", "groups": ["staff"]}, {"name": "bob", "groups": []}],
    "timeZones": [{"name": "CET", "rule": "CET-1CEST,M3.5.0,M10.5.0/3"}],
}


def levels(**values):
    return {name: {"values": listed} for name, listed in values.items()}


def item(**parts):
    return {"accesses": [{"type": "select"}], "users": ["bob"], **parts}


def policy(name, database, **parts):
    return {"name": name, "service": "s", "resources": levels(database=[database]), "policyItems": [item()], **parts}


SETUP = [
    {"command": "putRole", "role": {"name": "r", "users": ["bob"]}},
    {"command": "putRole", "role": {"name": "q", "roles": ["r"]}},
    {"command": "putZone", "zone": {"name": "fin", "services": {"s": {"resources": [{"database": ["fin*"]}]}}, "tagServices": ["t"], "adminRoles": ["r"]}},
    {"command": "putZone", "zone": {"name": "hr", "services": {"s": {"resources": [{"database": ["hr*"]}]}, "s2": {"resources": [{"database": ["x*"]}]}}}},
    {"command": "createPolicy", "policy": policy("p1", "one", policyItems=[item(users=["ann"], delegateAdmin=True)])},
    {"command": "createPolicy", "policy": policy("p2", "two")},
    {"command": "createPolicy", "policy": policy("p3", "finance", zoneName="fin")},
    {"command": "createPolicy", "policy": {**policy("t1", ""), "service": "t", "resources": levels(tag=["PII"]), "policyItems": [item(accesses=[{"type": "hive:select"}])]}},
    {"command": "putTags", "id": 1, "row": {"serviceName": "s", "resourceElements": levels(database=["one"]), "tags": [{"type": "PII"}]}},
    {"command": "putTags", "id": 2, "row": {"serviceName": "s2", "resourceElements": levels(database=["one"])}},
]

# ---- commands that are accepted

NEW = policy("new", "three")
BASES = {
    "putDef": {"def": HIVE["serviceDef"]},
    "createService": {"service": {"name": "s9", "type": "hive", "tagService": "t"}},
    "updateService": {"service": {"name": "s", "type": "hive", "tagService": "t2"}},
    "deleteService": {"name": "t2"},
    "createPolicy": {"policy": NEW},
    "updatePolicy": {"policy": {**NEW, "id": 1}},
    "deletePolicy": {"id": 1},
    "getPolicy": {"id": 1},
    "listPolicies": {"service": "s"},
    "putRole": {"role": {"name": "r", "users": ["eve"]}},
    "deleteRole": {"name": "q"},
    "putZone": {"zone": {"name": "ops", "services": {"s": {"resources": [{"database": ["ops"]}]}}, "auditRoles": ["r"]}},
    "deleteZone": {"name": "hr"},
    "putTags": {"id": 1, "row": {"serviceName": "s", "resourceElements": levels(database=["two"]), "tags": [{"type": "PII"}]}},
    "deleteTags": {"id": 1},
    "putUser": {"user": {"name": "ann", "groups": ["staff"]}},
    "deleteUser": {"name": "ann"},
    "download": {"service": "s"},
}

# ---- ways to break a rule: each changes the ask, an actor and a command


def sets(*path_and_value):
    """Sets what lies at this path of the command."""
    *path, last, value = path_and_value

    def way(ask):
        place = ask["command"]
        for key in path:
            place = place[key]
        place[last] = copy.deepcopy(value)
    return way


def adds(*path_and_values):
    """Adds these to the list that lies at this path."""
    *path, values = path_and_values

    def way(ask):
        place = ask["command"]
        for key in path[:-1]:
            place = place[key]
        place[path[-1]] = place.get(path[-1], []) + copy.deepcopy(values)
    return way


def asks_as(actor):
    def way(ask):
        ask["actor"] = actor
    return way


def of_paths_alone(ask):
    ask["command"]["def"].update(resources=[{"name": "path"}], dataMaskDef={}, rowFilterDef={})


def of_a_policy(*path_and_value):
    return sets("policy", *path_and_value)


def masks_of_another_kind(ask):
    ask["command"]["policy"].update(policyType=1, dataMaskPolicyItems=[item(dataMaskInfo={"dataMaskType": "NOWHERE"})])


def of_a_type(kind):
    """Of this type, with items of its own."""
    lists = {1: ("dataMaskPolicyItems", item(dataMaskInfo={"dataMaskType": "MASK"})), 2: ("rowFilterPolicyItems", item(rowFilterInfo={"filterExpr": ""}))}

    def way(ask):
        name, one = lists[kind]
        ask["command"]["policy"].update(policyType=kind, policyItems=[], **{name: [one]})
    return way


def as_it_stands(number):
    """The maps of a policy that is there."""
    database = {1: "one", 2: "two", 3: "finance"}[number]
    return of_a_policy("resources", levels(database=[database]))


def listed(*resources):
    return {"s": {"resources": list(resources)}}


def fin_without_its_service(*maps_of_another):
    """The zone `fin`, of which a policy is, with these maps of another service alone."""
    return lambda ask: ask["command"]["zone"].update(name="fin", services={"s2": {"resources": maps} for maps in maps_of_another})


POLICY_WAYS = {
    "E1": [of_a_policy("service", "nowhere")],
    "V1": [of_a_policy("name", ""), of_a_policy("name", LONG)],
    "V2": [of_a_policy("name", "p2")],
    "V3": [of_a_policy("policyType", 3)],
    "V4": [of_a_policy("policyPriority", 2)],
    "V5": [of_a_policy("resources", {}), of_a_policy("resources", levels(table=["a"], url=["b"])), adds("policy", "additionalResources", [levels(nowhere=["a"])])],
    "V6": [of_a_policy("resources", levels(database=[""])), adds("policy", "additionalResources", [levels(database=[])]),
           adds("policy", "additionalResources", [{"database": {"values": ["a"], "isRecursive": True}}])],
    "V7": [adds("policy", "dataMaskPolicyItems", [item(dataMaskInfo={"dataMaskType": "MASK"})]), adds("policy", "rowFilterPolicyItems", [item(rowFilterInfo={"filterExpr": "x"})])],
    "V8": [adds("policy", "policyItems", [item(accesses=[])]), adds("policy", "denyPolicyItems", [item(accesses=[{"type": "fly"}])])],
    "V9": [of_a_policy("conditions", [{"type": "nope"}]), adds("policy", "allowExceptions", [item(conditions=[{"type": "nope"}])])],
    "V10": [adds("policy", "policyItems", [item(users=[])]), adds("policy", "denyExceptions", [item(roles=["nobody"])])],
    "V11": [of_a_type(2), masks_of_another_kind, adds("policy", "dataMaskPolicyItems", [item()]), adds("policy", "rowFilterPolicyItems", [item(rowFilterInfo={"filterExpr": ""})])],
    "V12": [of_a_policy("validitySchedules", [{"startTime": "2024/02/30 00:00:00"}])],
    "V13": [as_it_stands(2), of_a_type(1)],
    "V14": [of_a_policy("zoneName", "nowhere")],
}
WAYS = {
    "putDef": {
        "S1": [sets("def", "name", ""), sets("def", "name", LONG)],
        "S2": [sets("def", "resources", []), adds("def", "resources", [{"name": ""}]), adds("def", "resources", [{"name": "database"}])],
        "S3": [adds("def", "resources", [{"name": "odd", "level": 5, "parent": "nowhere"}])],
        "S4": [sets("def", "accessTypes", []), adds("def", "accessTypes", [{"name": ""}]), adds("def", "accessTypes", [{"name": "select"}])],
        "S5": [adds("def", "accessTypes", [{"name": "wide", "impliedGrants": ["fly"]}])],
        "S6": [adds("def", "policyConditions", [{"name": ""}])],
        "S7": [adds("def", "dataMaskDef", "maskTypes", [{"name": ""}]), sets("def", "rowFilterDef", {"resources": [{"name": "nowhere"}]})],
        "S8": [sets("def", "name", "tag")],
        "C1": [of_paths_alone],
        "A1": [asks_as("bob")],
    },
    "createService": {
        "E3": [sets("service", "type", "nowhere")],
        "C2": [sets("service", "name", ""), sets("service", "name", "s")],
        "C3": [sets("service", "tagService", "nowhere"), sets("service", "tagService", "s2")],
        "A1": [asks_as("bob")],
    },
    "updateService": {
        "E1": [sets("service", "name", "nowhere")],
        "E3": [sets("service", "type", "nowhere")],
        "C3": [sets("service", "tagService", "s2")],
        "C4": [sets("service", "type", "other")],
        "A1": [asks_as("bob")],
    },
    "deleteService": {"E1": [sets("name", "nowhere")], "C5": [sets("name", "s"), sets("name", "t")], "A1": [asks_as("bob")]},
    "createPolicy": {**POLICY_WAYS, "A2": [asks_as("bob"), asks_as("eve")]},
    "updatePolicy": {**POLICY_WAYS, "E2": [sets("policy", "id", 99)], "A3": [asks_as("eve")], "A4": [asks_as("ann")],
                     "V2": [of_a_policy("name", "p2"), of_a_policy("name", "p3")], "V13": [as_it_stands(2), as_it_stands(3)],
                     "V14": [of_a_policy("zoneName", "nowhere"), of_a_policy("zoneName", "fin"), of_a_policy("service", "s2")]},
    "deletePolicy": {"E2": [sets("id", 99)], "A3": [asks_as("eve")]},
    "getPolicy": {"E2": [sets("id", 99)], "A5": [asks_as("eve")]},
    "listPolicies": {"E1": [sets("service", "nowhere")]},
    "putRole": {
        "O1": [sets("role", "name", "")],
        "O2": [adds("role", "roles", ["nobody"])],
        "O3": [adds("role", "roles", ["q"]), adds("role", "roles", ["r"]), adds("role", "roles", [""])],
        "A1": [asks_as("bob")],
    },
    "deleteRole": {"E4": [sets("name", "nobody")], "O4": [sets("name", "r")], "A1": [asks_as("bob")]},
    "putZone": {
        "Z1": [sets("zone", "name", "")],
        "Z2": [adds("zone", "tagServices", ["s"]), adds("zone", "tagServices", ["t", "t"])],
        "Z3": [sets("zone", "services", listed()), sets("zone", "services", listed({"nowhere": ["a"]})), sets("zone", "services", listed({"nowhere": [""]}))],
        "Z4": [sets("zone", "services", listed({"database": ["{USER}"]})), sets("zone", "services", listed({"database": []}))],
        "Z5": [sets("zone", "auditRoles", ["nobody"])],
        "Z6": [sets("zone", "services", listed({"database": [first]}, second)) for first in ("hr*", "h?1")
               for second in ({"database": ["ops"]}, {"database": ["{USER}"]}, {"nowhere": ["a"]})],
        "Z7": [fin_without_its_service()] + [fin_without_its_service(one) for one in ([], [{"database": ["{USER}"]}], [{"database": ["xx"]}])],
        "A1": [asks_as("bob")],
    },
    "deleteZone": {"E5": [sets("name", "nowhere")], "Z8": [sets("name", "fin")], "A1": [asks_as("bob")]},
    "putTags": {
        "E1": [sets("row", "serviceName", "nowhere")],
        "G1": [sets("row", "serviceName", "t")],
        "G2": [sets("row", "resourceElements", {}), sets("row", "resourceElements", levels(database=["{USER}"]))],
        "G3": [sets("row", "tags", [{"type": ""}])],
        "G4": [sets("id", 0), sets("id", 2)],
        "A1": [asks_as("bob")],
    },
    "deleteTags": {"E6": [sets("id", 99)], "A1": [asks_as("bob")]},
    "putUser": {"U1": [sets("user", "name", ""), sets("user", "groups", [""])], "A1": [asks_as("bob")]},
    "deleteUser": {"E7": [sets("name", "nobody")], "A1": [asks_as("bob")]},
    "download": {"E1": [sets("service", "nowhere")]},
}


# ---- pairs that no command breaks both

THERE = {"E1": "no policy is there of a service that isn't", "V1": "all names that are there are names"}
VALID = "all that are there pass it"
POLICIES_APART = {("E1", "V2"): THERE["E1"], ("E1", "V13"): THERE["E1"], ("V1", "V2"): THERE["V1"],
                  **{(rule, "V13"): VALID for rule in ("V3", "V4", "V5", "V6")}, ("V12", "V13"): VALID}
LISTS_IT = "a zone in which policies of the service are lists it"
APART = {
    "putDef": {("S1", "S8"): "tag is a name", ("S1", "C1"): "no service is of it"},
    "deleteService": {("E1", "C5"): "nothing uses it"},
    "createPolicy": {**POLICIES_APART, ("V2", "V14"): LISTS_IT, ("V13", "V14"): LISTS_IT},
    "updatePolicy": POLICIES_APART,
    "putRole": {("O2", "O3"): "the model asks for circles only where all roles are there"},
    "deleteRole": {("E4", "O4"): "nothing names it"},
    "deleteZone": {("E5", "Z8"): "no policy is of it"},
    "putTags": {("E1", "G1"): "it is of no definition"},
}


# ---- the sweep

def broken_by(state, actor, command):
    """The rules that it breaks, in order, with those that can't be asked since one before them is broken."""
    broken = []
    for name, passes in admin_rules.RULES[command["command"]].items():
        try:
            if not passes(state, actor, command):
                broken.append(name)
        except (AttributeError, IndexError, KeyError, TypeError):
            assert broken, "%s can't be asked of %s" % (name, command)
            broken.append(name)
    return broken


def asks_of(command):
    """The accepted ask, and it in each way, and in every two ways one after the other."""
    base = {"actor": "root", "command": {"command": command, **copy.deepcopy(BASES[command])}}
    ways = [way for listed_ways in WAYS[command].values() for way in listed_ways]
    yield base
    for chosen in [(way,) for way in ways] + list(itertools.permutations(ways, 2)) + list(itertools.permutations(ways, 3)) * (len(ways) < 16):
        ask = copy.deepcopy(base)
        try:
            for way in chosen:
                way(ask)
        except (KeyError, TypeError):
            continue
        yield ask


def admin_line(ask):
    return b"admin %s %s" % (ask["actor"].encode(), json.dumps(ask["command"]).encode())


class Sweep:
    def __init__(self):
        self.script = admin_model.Script()
        self.lines = [b"config " + json.dumps(CONFIG).encode()] + [admin_line({"actor": "root", "command": command}) for command in SETUP]
        self.wanted = [self.script.work(line) for line in self.lines]
        assert all("refused" not in (answer or "") for answer in self.wanted), self.wanted
        self.seen = {}

    def ask(self, ask):
        """Puts a line for it where it breaks two rules that weren't broken together before."""
        command = admin_model.filled(ask["command"])
        broken = broken_by(self.script.admin.state, ask["actor"], command)
        pairs = set(itertools.combinations(broken, 2)) | {(rule,) for rule in broken[:1]}
        new = pairs - self.seen.setdefault(command["command"], set())
        if new:
            self.seen[command["command"]] |= pairs
            self.lines.append(admin_line(ask))
            self.wanted.append(self.script.work(self.lines[-1]))
            assert json.loads(self.wanted[-1]) == {"refused": broken[0]}, (ask, broken)
        return broken

    def run(self):
        for command in BASES:
            for number, ask in enumerate(asks_of(command)):
                broken = self.ask(ask)
                assert number or not broken, "%s breaks %s as it stands" % (command, broken)
        return b"\n".join(self.lines) + b"\n"

    def tell(self):
        """A line for each command, of the pairs of its rules that were broken together."""
        told = []
        for command in BASES:
            rules = [rule for rule in admin_rules.RULES[command] if rule not in OUT_OF_REACH]
            pairs, seen = set(itertools.combinations(rules, 2)), self.seen[command]
            alone = [rule for rule in rules if (rule,) not in seen]
            assert not alone, "%s: never the first that is broken: %s" % (command, ", ".join(alone))
            assert pairs - seen == set(APART.get(command, ())), "%s: broken together never, or against the table: %s" % (
                command, (pairs - seen) ^ set(APART.get(command, ())))
            told.append("%s: %d of %d pairs" % (command, len(pairs & seen), len(pairs)))
        return "\n".join(told)


def main():
    asked = argparse.ArgumentParser(usage=__doc__)
    asked.add_argument("program", nargs="?", default=os.path.join(TOP, "bin", "rangerd"))
    asked.add_argument("--dry", action="store_true")
    asked.add_argument("--kind", choices=("replay", "grants", "keep"), default="replay")
    words = asked.parse_args()
    sweep = Sweep()
    script = sweep.run()
    told = sweep.tell()
    if words.dry:
        print(told)
        return
    ran = subprocess.run([words.program, words.kind], input=script, stdout=subprocess.PIPE)
    wanted = "".join(answer + "\n" for answer in sweep.wanted if answer is not None)
    got = ran.stdout.decode("utf-8", "replace")
    if (got, ran.returncode) != (wanted, 0):
        for line, want, have in itertools.zip_longest(sweep.lines[1:], wanted.splitlines(), got.splitlines()):
            if want != have:
                sys.exit("%s\nwanted %s\ngot    %s" % ((line or b"").decode(), want, have))
        sys.exit("status %d" % ran.returncode)
    print("%d lines of `%s` that break rules together: each as wanted\n%s" % (len(sweep.lines), words.kind, told))


if __name__ == "__main__":
    main()
