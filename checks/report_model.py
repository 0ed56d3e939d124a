#!/usr/bin/env python3
"""The effective access report once more, in Python, written from docs/RULES.md and not from the program.

usage: checks/report_model.py < SCRIPT      prints what `rangerd report` is to print, for a script whose JSON reads
"""

import copy
import json
import sys

import model
import records

WORDS = ("{USER}", "{OWNER}")


def in_byte_order(texts):
    """Each text once."""
    return sorted(set(texts), key=lambda text: text.encode())


def named(facts, kind):
    """The users or the groups of all items and of all role rows."""
    items = [item for policy in facts["policies"] + facts["tagPolicies"] for item in model.items_of(policy)]
    return [text for one in items + facts["roles"] for text in one[kind] if text not in WORDS]


def stranger(facts, owner):
    """The least number of `#`, at least one, that begins no named user, nor the owner."""
    texts = named(facts, "users") + [owner]
    number = 1
    while any(text.startswith("#" * number) for text in texts):
        number += 1
    return "#" * number


def with_members(facts, who):
    """Each role row names its stranger's member besides."""
    more = copy.deepcopy(facts)
    for place, row in enumerate(more["roles"]):
        row["users"].append(who + str(place))
    return more


def askers(facts, owner):
    """Kind, name, the facts that are asked, the user and the groups."""
    who = stranger(facts, owner)
    more = with_members(facts, who)
    places = {row["name"]: place for place, row in reversed(list(enumerate(facts["roles"])))}
    yield from (("user", name, facts, name, []) for name in in_byte_order(named(facts, "users")))
    yield from (("group", name, facts, who, [name]) for name in in_byte_order(named(facts, "groups")))
    yield from (("role", name, more, who + str(places[name]), []) for name in in_byte_order(places))
    yield "other", "", facts, who, []


def report(facts, ask):
    resource = records.filled(ask["resource"], ownerUser="")
    accesses = ask.get("accessTypes") or [access["name"] for access in facts["serviceDef"]["accessTypes"]]
    for kind, name, asked, user, groups in askers(facts, resource["ownerUser"]):
        for access in accesses:
            request = records.request({"user": user, "userGroups": groups, "resource": resource, "accessType": access,
                                       "accessTime": ask.get("accessTime", 0)})
            verdict = model.decide(asked, request)
            yield {"access": verdict.access, "accessType": access, "kind": kind, "name": name, "policyId": verdict.policy}


def printed(script):
    """What is printed for a script."""
    facts, lines = None, []
    for number, line in enumerate(script.split("\n"), 1):
        word, _, text = line.partition(" ")
        if word == "facts":
            facts = records.facts(json.loads(text))
            if model.first_fault(facts):
                sys.exit("bad line %d (%s)" % (number, model.first_fault(facts)))
        elif word == "report":
            lines += [json.dumps(row, separators=(",", ":"), ensure_ascii=False) + "\n" for row in report(facts, json.loads(text))]
    return "".join(lines)


if __name__ == "__main__":
    print(printed(sys.stdin.read()), end="")
