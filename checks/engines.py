#!/usr/bin/env python3
"""Prints what the program check_models is to print under `# engines`: its made-up facts, deltas and requests once more, decided by
model.py.

usage: checks/engines.py
"""
import model
import records

CHAINS, DELTAS, REQUESTS, FACTOR, WORD = 500, 3, 8, 0x9E3779B97F4A7C15, 2 ** 64
USERS, GROUPS, ACCESSES = ["ann", "bob", "eve"], ["staff", "ops"], ["select", "drop", "all"]
SUBJECTS = [("users", "ann"), ("users", "bob"), ("users", "{USER}"), ("users", "{OWNER}"), ("groups", "staff"), ("groups", "public"),
            ("roles", "r1"), ("roles", "r2")]
TAGS, TAG_VALUES = ["PII", "PCI", "EXP"], ["PII", "PCI", "P*", "*", "?XP"]
DATABASES, DATABASE_VALUES = ["a", "ab", "b", "ann"], ["a", "a*", "b", "*", "?", "{USER}"]
TABLES, TABLE_VALUES = ["t", "t/x", "u"], ["t", "*", "u", "t*"]
MASKS, ZONES = ["MASK", "HASH", "MASK_NONE"], ["", "", "z1", "z2"]
KINDS, DATABASES_OF_ROWS = [0, 0, 0, 0, 0, 1, 1, 2], ["a", "ab", "a*", "*", "b"]


def named(names):
    return [{"name": name} for name in names]


def definition(name, levels, accesses):
    parts = {"accessTypes": named(accesses), "resources": []}
    kinds = [{"name": "MASK", "transformer": "mask({col})"}, {"name": "HASH", "transformer": "hash"}, {"name": "MASK_NONE"}]
    grants = named(accesses[:2]) + [{"name": accesses[2], "impliedGrants": accesses[:2]}]
    return {"name": name, "resources": levels, "accessTypes": grants, "dataMaskDef": {**parts, "maskTypes": kinds}, "rowFilterDef": parts}


DEF = definition("d", [{"name": "database", "level": 1, "excludesSupported": True},
                       {"name": "table", "level": 2, "parent": "database", "recursiveSupported": True}], ACCESSES)
TAG_DEF = definition("tag", [{"name": "tag"}], ["d:" + access for access in ACCESSES])


def mixed(number):
    for _ in range(2):
        number = number * FACTOR % WORD
        number ^= number >> 32
    return number


class Draw:
    """Numbers that are drawn, each by its place."""

    def __init__(self, key):
        self.key = key

    def part(self, place):
        return Draw(mixed((self.key + place) % WORD))

    def below(self, place, count):
        return self.part(place).key % count

    def one_of(self, place, things):
        return things[self.below(place, len(things))]


# ---- facts

def item(d, prefix):
    kind, subject = d.one_of(0, SUBJECTS)
    return {kind: [subject], "accesses": [{"type": prefix + d.one_of(1, ACCESSES)}], "dataMaskInfo": {"dataMaskType": d.one_of(2, MASKS)},
            "rowFilterInfo": {"filterExpr": d.one_of(3, TABLES)}}


def lists(d, kind, prefix):
    first, second = item(d.part(1), prefix), item(d.part(2), prefix)
    if kind == 1:
        return {"dataMaskPolicyItems": [first, second]}
    if kind == 2:
        return {"rowFilterPolicyItems": [first, second]}
    return {d.one_of(3, ["policyItems", "policyItems", "policyItems", "denyPolicyItems"]): [first],
            d.one_of(4, ["allowExceptions", "denyExceptions", "policyItems", "denyPolicyItems"]): [second]}


def levels(d, is_tag):
    if is_tag:
        return {"tag": {"values": [d.one_of(0, TAG_VALUES)]}}
    database = {"database": {"values": [d.one_of(0, DATABASE_VALUES)], "isExcludes": d.below(1, 8) == 0}}
    if d.below(2, 2) == 0:
        return database
    return {**database, "table": {"values": [d.one_of(3, TABLE_VALUES)], "isRecursive": d.below(4, 3) == 0}}


def policy(d, id, is_tag):
    kind = d.one_of(0, KINDS)
    return {"id": id, "service": "t" if is_tag else "s", "policyType": kind, "policyPriority": int(d.below(1, 4) == 0),
            "resources": levels(d.part(2), is_tag), "additionalResources": [levels(d.part(3), is_tag)] if d.below(4, 4) == 0 else [],
            "zoneName": d.one_of(5, ZONES), "isEnabled": d.below(6, 8) > 0, "isAuditEnabled": d.below(7, 4) > 0,
            "isDenyAllElse": kind == 0 and d.below(8, 16) == 0, **lists(d.part(9), kind, "d:" if is_tag else "")}


def tag_row(d, id):
    return {"id": id, "serviceName": "s", "resourceElements": {"database": {"values": [d.one_of(0, DATABASES_OF_ROWS)]}},
            "tags": [{"type": d.one_of(1, TAGS)}, {"type": d.one_of(2, TAGS)}]}


def role(d, name, below):
    return {"name": name, "users": [d.one_of(0, USERS)], "groups": [d.one_of(1, GROUPS)], "roles": below if d.below(2, 2) == 0 else []}


def zone(name, database):
    return {"name": name, "services": {"s": {"resources": [{"database": [database]}]}}, "tagServices": ["t"]}


def present(d, first, last):
    """Two of three are there."""
    return [id for id in range(first, last + 1) if d.below(id, 3) > 0]


def facts(d):
    policies, tag_policies, rows = d.part(0), d.part(1), d.part(2)
    return records.facts({
        "service": "s", "fallback": d.below(3, 2) == 0, "serviceDef": DEF, "tagServiceDef": TAG_DEF,
        "policies": [policy(policies.part(id), id, False) for id in present(policies.part(0), 1, 8)],
        "tagPolicies": [policy(tag_policies.part(id), id, True) for id in present(tag_policies.part(0), 11, 14)],
        "zones": [zone("z1", d.one_of(4, ["ab", "ab*", "an*"])), zone("z2", d.one_of(5, ["b", "b*", "z"]))],
        "roles": [role(d.part(6), "r1", ["r2"]), role(d.part(7), "r2", [])],
        "resources": [tag_row(rows.part(id), id) for id in present(rows.part(0), 1, 4)]})


# ---- deltas

def led(d, rows, other):
    """Half of what differs is changed: rows that are there in both, those that are new, and those that are gone."""
    theirs = {row["id"]: row for row in other}
    kept = {row["id"]: row for row in rows if row["id"] in theirs or d.below(row["id"], 2)}
    for id, row in theirs.items():
        if id not in kept or d.below(id, 2) == 0:
            kept[id] = row
    return list(kept.values())


def moved(d, before, other):
    after = {**before, "policies": led(d.part(0), before["policies"], other["policies"]),
             "tagPolicies": led(d.part(1), before["tagPolicies"], other["tagPolicies"]),
             "resources": led(d.part(2), before["resources"], other["resources"])}
    after.update({name: other[name] for place, name in ((3, "zones"), (4, "roles")) if d.below(place, 2) == 0})
    return after


# ---- requests

def request(d):
    elements = {"database": d.one_of(0, DATABASES)}
    if d.below(1, 2) == 0:
        elements["table"] = d.one_of(2, TABLES)
    return records.request({"user": d.one_of(3, USERS), "userGroups": [d.one_of(4, GROUPS)],
                            "resource": {"elements": elements, "ownerUser": d.one_of(5, USERS)}, "accessType": d.one_of(6, ACCESSES)})


def main():
    counts = dict.fromkeys(["verdicts", "allowed", "denied", "undetermined", "filtered", "masked", "policies"], 0)
    for chain in range(CHAINS):
        d = Draw(chain).part(0)
        state = facts(d.part(0))
        for step in range(DELTAS + 1):
            if step:
                state = moved(d.part(100 + step), state, facts(d.part(step)))
            assert model.first_fault(state) is None, model.first_fault(state)
            for place in range(REQUESTS):
                verdict = model.decide(state, request(d.part(1000 + step * REQUESTS + place)))
                counts["verdicts"] += 1
                counts[verdict.access.lower()] += 1
                counts["filtered"] += verdict.row_filter is not None
                counts["masked"] += verdict.mask is not None
                counts["policies"] += max(verdict.policy, 0)
    print("facts=%d verdicts=%d agreed=%d allowed=%d denied=%d undetermined=%d filtered=%d masked=%d policies=%d" % (
        CHAINS * (DELTAS + 1), counts["verdicts"], *[counts[key] for key in counts]))


if __name__ == "__main__":
    main()
