#!/usr/bin/env bash
# One line of at most 1 MiB may not hold the program: times facts lines that cost each rule of soundness most, and
# administrations with one or two such lines, or of an everyday size, and commands after them.
# usage: bench/hostile.sh [CASE]..      (all where none is given)
# Prints for each script its size, its lines, the exit status, the seconds of a processor that it took and the peak of
# resident memory.
set -eu
cd "$(dirname "$0")/.."
bin/rangerd replay </dev/null
folder=$(mktemp -d)
trap 'rm -rf "$folder"' EXIT

python3 - "$folder" "$@" <<'P'
import json, sys

folder, wanted = sys.argv[1], sys.argv[2:]
compact = lambda value: json.dumps(value, separators=(",", ":"))
named = lambda prefix, count: [{"name": "%s%d" % (prefix, n)} for n in range(count)]
numbered = lambda prefix, count: ["%s%d" % (prefix, n) for n in range(count)]
DEFINITION = {"name": "d", "resources": [{"name": "l"}], "accessTypes": [{"name": "a"}]}
SELECT = [{"type": "a"}]
at = lambda *values: {"l": {"values": list(values)}}


def facts(definition=DEFINITION, **more):
    return {"service": "s", "serviceDef": definition, **more}


def policy(number, **more):
    return {"id": number, "resources": at("v"), **more}


def chain(count):
    """Each role names the next."""
    return [{"name": "r%d" % n, "roles": ["r%d" % (n + 1)]} for n in range(count - 1)] + [{"name": "r%d" % (count - 1)}]


def zones(count, values):
    """No two of them share a value."""
    return [{"name": "z%d" % n, "services": {"s": {"resources": [{"l": ["v%d.%d" % (n, m) for m in range(values)]}]}}} for n in range(count)]


def patterned(count):
    return [{"name": "z%d" % n, "services": {"s": {"resources": [{"l": ["v%d.*" % n, "w%d?" % n]}]}}} for n in range(count)]


def scheduled(count):
    """Each policy has a schedule in a time zone of its own."""
    return [policy(n + 1, validitySchedules=[{"startTime": "2024/01/01 00:00:00", "timeZone": "t%d" % n}]) for n in range(count)]


LINES = {
    "a chain of 20,000 roles": facts(roles=chain(20000)),
    "a circle of 20,000 roles": facts(roles=chain(20000)[:-1] + [{"name": "r19999", "roles": ["r0"]}]),
    "one role that names 20,000 others": facts(roles=[{"name": "all", "roles": numbered("r", 20000)}] + named("r", 20000)),
    "20,000 roles of one user": facts(roles=[{"name": "r%d" % n, "users": ["ann"]} for n in range(20000)]),
    "one item that names 60,000 roles of 15,000": facts(
        roles=named("r", 15000), policies=[policy(1, policyItems=[{"roles": numbered("r", 15000) * 4, "accesses": SELECT}])]),
    "300 zones of 60 plain values": facts(zones=zones(300, 60)),
    "1,000 zones of 40 plain values": facts(zones=zones(1000, 40)),
    "6,000 zones of two patterns": facts(zones=patterned(6000)),
    "one zone of 60,000 tag services": facts(zones=[{"name": "z", "tagServices": numbered("t", 60000)}]),
    "one zone of 60,000 roles of 15,000": facts(roles=named("r", 15000), zones=[{"name": "z", "adminRoles": numbered("r", 15000) * 4}]),
    "5,000 policies that name 5,000 zones": facts(
        zones=[{"name": "z%d" % n, "services": {"s": {"resources": [{"l": ["v%d" % n]}]}}} for n in range(5000)],
        policies=[policy(n + 1, zoneName="z%d" % n) for n in range(5000)]),
    "15,000 policies": facts(policies=[policy(n + 1) for n in range(15000)]),
    "one policy of 30,000 levels": facts(policies=[{"id": 1, "resources": {"l%d" % n: {} for n in range(30000)}}]),
    "one policy of 16 maps of 2,000 levels": facts(policies=[
        {"id": 1, "resources": at("v"), "additionalResources": [{"l%d" % n: {} for n in range(2000)}] * 16}]),
    "one policy of 100,000 values": facts(policies=[{"id": 1, "resources": at(*numbered("v", 100000))}]),
    "one item of 40,000 accesses": facts({**DEFINITION, "accessTypes": named("a", 1000)}, policies=[
        policy(1, policyItems=[{"users": ["u"], "accesses": [{"type": "a%d" % (n % 1000)} for n in range(40000)]}])]),
    "60,000 implied grants": facts({**DEFINITION, "accessTypes": [{"name": "all", "impliedGrants": numbered("a", 1000) * 60}] + named("a", 1000)}),
    "50,000 access types": facts({**DEFINITION, "accessTypes": named("a", 50000)}),
    "50,000 levels of a definition": facts({**DEFINITION, "resources": named("l", 50000)}),
    "50,000 levels of masks": facts({**DEFINITION, "dataMaskDef": {"resources": [{"name": "l"}] * 50000}}),
    "50,000 conditions of a definition": facts({**DEFINITION, "policyConditions": named("c", 50000)}),
    "12,000 tag rows": facts(resources=[{"id": n, "resourceElements": at("v")} for n in range(12000)]),
    "one tag row of 50,000 tags": facts(resources=[{"id": 1, "resourceElements": at("v"), "tags": [{"type": "t"}] * 50000}]),
    "6,000 policies that name 6,000 time zones": facts(
        timeZones=[{"name": "t%d" % n, "rule": "EST5"} for n in range(6000)], policies=scheduled(6000)),
    "30,000 time zones": facts(timeZones=[{"name": "t%d" % n, "rule": "EST5"} for n in range(30000)]),
}


# ---- administrations

def config(definitions=[DEFINITION], services=[{"name": "s", "type": "d"}], users=()):
    return b"config " + compact({"admins": ["root"], "plugin": services[0]["name"], "serviceDefs": definitions,
                                 "services": services, "users": users}).encode()


def asked(command, actor="root", **fields):
    return b"admin " + actor.encode() + b" " + compact({"command": command, **fields}).encode()


def administered(name, values, service="s", items=(), **more):
    return asked("createPolicy", policy={"service": service, "name": name, "resources": at(*values), "policyItems": list(items), **more})


def created(count, first=0, values=1, delegate=None):
    """Each policy has values of its own."""
    items = [{"users": [delegate], "accesses": SELECT, "delegateAdmin": True}] if delegate else []
    return [administered("p%d" % n, ["v%d.%d" % (n, m) for m in range(values)], items=items) for n in range(first, first + count)]


def zone(name, services, **more):
    return asked("putZone", zone={"name": name, "services": {s: {"resources": [{"l": ["z" + name]}]} for s in services}, **more})


TAG = {"name": "tag", "resources": [{"name": "tag"}], "accessTypes": [{"name": "d:a"}]}
TAGGED = [DEFINITION, TAG]
many = lambda count, **more: [{"name": "s%d" % n, "type": "d", **more} for n in range(count)]
TAG_POLICY = asked("createPolicy", policy={"service": "t", "name": "p", "resources": {"tag": {"values": numbered("v", 2000)}}})
LISTED = [asked("listPolicies", service="s")]

SCRIPTS = {
    "36,000 services": [config(services=many(36000))],
    "36,000 services, then 20 policies": [config(services=many(36000))] + [administered("p%d" % n, ["v%d" % n], "s%d" % n) for n in range(20)],
    "36,000 services, then a policy changed 20 times": [config(services=many(36000)), administered("p", ["v"], "s35999")]
    + [asked("updatePolicy", policy={"id": 1, "service": "s35999", "name": "p", "resources": at("w%d" % n)}) for n in range(20)],
    "36,000 services, then ten zones of one": [config(services=many(36000))] + [zone("z%d" % n, ["s%d" % n]) for n in range(10)],
    "58,000 users": [config(users=named("u", 58000))],
    "58,000 users, each name twice": [config(users=named("u", 29000) * 2)],
    "13,000 definitions of 2,000 names": [config(definitions=[DEFINITION] + [{**DEFINITION, "name": "d%d" % (n % 2000)} for n in range(13000)])],
    "5,000 roles, one by one": [config()] + [asked("putRole", role={"name": "r%d" % n, "users": ["u%d" % n]}) for n in range(5000)],
    "1,000 policies, then 20 more": [config()] + created(1000) + created(20, 1000),
    "10,000 policies, then 20 more": [config()] + created(10000) + created(20, 10000),
    "100,000 policies, then 20 more": [config()] + created(100000) + created(20, 100000),
    "20,000 policies": [config()] + created(20000),
    "20,000 policies, then listed five times": [config()] + created(20000) + LISTED * 5,
    "2,000 policies of 200 values": [config()] + created(2000, values=200),
    "a user and a zone of 115,000 groups, then a policy": [config(), asked("putUser", user={"name": "u", "groups": numbered("g", 115000)}),
        zone("z", ["s"], adminUserGroups=numbered("h", 115000)), administered("p", ["zz"], zoneName="z"), asked("getPolicy", actor="u", id=1)],
    "a user of 115,000 groups and 5,000 delegating policies": [config(), asked("putUser", user={"name": "u", "groups": numbered("g", 115000)})]
    + [administered("p%d" % n, ["v%d" % n], items=[{"groups": ["h%d" % n], "accesses": SELECT, "delegateAdmin": True}]) for n in range(5000)]
    + [asked("createPolicy", actor="u", policy={"service": "s", "name": "q", "resources": at("w")})],
    "two zones of 20,000 services": [config(services=many(20000)), zone("a", numbered("s", 20000)), zone("b", numbered("s", 20000))],
    "12,000 services that share a tag policy": [config(TAGGED, many(12000, tagService="t") + [{"name": "t", "type": "tag"}]), TAG_POLICY],
    "5,000 delegating policies, listed by the delegate": [config()] + created(5000, delegate="dan") + [asked("listPolicies", actor="dan", service="s")],
    "one policy of 60,000 values over one of 60,000": [config(), *created(1, values=60000, delegate="dan"),
        asked("createPolicy", actor="dan", policy={"service": "s", "name": "q", "resources": at(*("v0.%d" % n for n in range(59999)))})],
}


cases = [(name, [b"facts " + compact(record).encode()]) for name, record in LINES.items()] + list(SCRIPTS.items())
for number, (name, lines) in enumerate(cases):
    if wanted and not any(word in name for word in wanted):
        continue
    for line in lines:
        if len(line) > 1048576:
            sys.exit("%s: %d bytes are too long for a line" % (name, len(line)))
    with open("%s/%02d %s" % (folder, number, name), "wb") as script:
        script.write(b"\n".join(lines) + b"\n")
P

# in a process of its own, since a process that is forked counts the memory of the one that made it
python3 - crates/rangerd/out/rangerd "$folder" <<'P'
import os, sys

program, folder = sys.argv[1:]
for name in sorted(os.listdir(folder)):
    path = os.path.join(folder, name)
    child = os.fork()
    if child == 0:
        os.dup2(os.open(path, os.O_RDONLY), 0)
        os.dup2(os.open(os.devnull, os.O_WRONLY), 1)
        os.execv(program, [program, "replay"])
    _, status, used = os.wait4(child, 0)
    with open(path, "rb") as script:
        lines = sum(1 for _ in script)
    print("%-50s %8d bytes %6d lines  status %d  %5.2f s  %4d MiB" % (name[3:], os.path.getsize(path), lines,
          os.waitstatus_to_exitcode(status), used.ru_utime + used.ru_stime, used.ru_maxrss / 1024), flush=True)
P
