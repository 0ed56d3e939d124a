#!/usr/bin/env python3
"""Times grants, revokes and the decisions after them, of an administration with many policies: bench/grants.py PROGRAM.

Each figure is the time of a script with the lines, less that of the same script without them, by the number of the lines; the best of three
runs counts."""
import json, subprocess, sys, time

PROGRAM, MANY = sys.argv[1], 5000
LEVELS = [{"name": "database", "level": 10}, {"name": "table", "level": 20, "parent": "database"}, {"name": "column", "level": 30, "parent": "table"}]
DEF = {"name": "hive", "resources": LEVELS, "accessTypes": [{"name": "select"}, {"name": "update"}]}
CONFIG = {"admins": ["root"], "plugin": "hive1", "serviceDefs": [DEF], "services": [{"name": "hive1", "type": "hive"}]}


def resources(n):
    return {"database": {"values": [f"db{n % 50}"]}, "table": {"values": [f"t{n}"]}, "column": {"values": ["*"]}}


def policy(n):
    item = {"users": ["ann"], "accesses": [{"type": "select"}]}
    denial = {"users": ["bob", "eve"], "accesses": [{"type": "select"}, {"type": "update"}]}
    return {"service": "hive1", "name": f"p{n}", "resources": resources(n), "policyItems": [item], "denyPolicyItems": [denial]}


def line(word, n, user):
    return f"{word} root " + json.dumps({"service": "hive1", "resources": resources(n), "users": [user], "accessTypes": ["select"]})


def decide(n):
    elements = {"database": f"db{n % 50}", "table": f"t{n}", "column": "c"}
    return "decide " + json.dumps({"user": "ann", "resource": {"elements": elements}, "accessType": "select", "accessTime": 0})


def seconds(lines):
    best = None
    for _ in range(3):
        begun = time.perf_counter()
        done = subprocess.run([PROGRAM, "grants"], input="\n".join(lines).encode(), stdout=subprocess.PIPE, check=True)
        took = time.perf_counter() - begun
        assert b"refused" not in done.stdout, done.stdout[:200]
        best = took if best is None else min(best, took)
    return best


def tell(what, lines):
    "Milliseconds for each line."
    print(f"{what}, {MANY} policies: {(seconds(BASE + lines) - BEFORE) / len(lines) * 1e3:.3f} ms")


BASE = [f"config {json.dumps(CONFIG)}"] + [f"admin root {json.dumps({'command': 'createPolicy', 'policy': policy(n)})}" for n in range(1, MANY + 1)]
BEFORE = seconds(BASE)
PLACES = [1 + n * 7 % MANY for n in range(1000)]
tell("a grant that updates the row's policy", [line("grant", n, "bob") for n in PLACES])
tell("a grant that creates a policy", [line("grant", MANY + n, "bob") for n in range(1, 1001)])
tell("a revoke", [line("revoke", n, "ann") for n in PLACES])
tell("a decision", [decide(n) for n in PLACES[:40]])
