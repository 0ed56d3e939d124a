#!/usr/bin/env python3
"""Times single commands of an administration with many policies: bench/rules.py PROGRAM.

Each figure is the time of a script with the commands, less that of the same script without them, by the number of the commands."""
import json, subprocess, sys, time

PROGRAM, MANY = sys.argv[1], 5000
DEF = {"name": "hive", "resources": [{"name": "database", "level": 10}, {"name": "table", "level": 20, "parent": "database"}],
       "accessTypes": [{"name": "select"}, {"name": "update"}]}
CONFIG = {"admins": ["root"], "plugin": "hive1", "serviceDefs": [DEF], "services": [{"name": "hive1", "type": "hive"}], "users": [{"name": "dan"}]}


def line(actor, command, **fields):
    return f"admin {actor} {json.dumps({'command': command, **fields})}"


def policy(name, database, delegate=False, id=0):
    item = {"users": ["dan" if delegate else "ann"], "accesses": [{"type": "select"}], "delegateAdmin": delegate}
    return {"id": id, "service": "hive1", "name": name, "resources": {"database": {"values": [database]}}, "policyItems": [item]}


def seconds(lines):
    best = None
    for _ in range(3):
        begun = time.perf_counter()
        subprocess.run([PROGRAM, "replay"], input="\n".join(lines).encode(), stdout=subprocess.DEVNULL, check=True)
        took = time.perf_counter() - begun
        best = took if best is None else min(best, took)
    return best


def tell(what, before, commands, unit=1e3):
    "Milliseconds for each command."
    took = (seconds(before + commands) - seconds(before)) / len(commands)
    print(f"{what}: {took * unit:.3f} ms")


START = [f"config {json.dumps(CONFIG)}"]
BASE = START + [line("root", "createPolicy", policy=policy(f"p{n}", f"db{n}")) for n in range(1, MANY + 1)]
DELEGATED = START + [line("root", "createPolicy", policy=policy(f"p{n}", f"d{n}_*", delegate=True)) for n in range(1, MANY + 1)]
ZONES = [line("root", "putZone", zone={"name": f"z{n}", "services": {"hive1": {"resources": [{"database": ["z%d" % n]}]}}}) for n in range(1, 1001)]
tell(f"createPolicy by an administrator into {MANY} policies", BASE, [line("root", "createPolicy", policy=policy(f"q{n}", f"x{n}")) for n in range(500)])
tell(f"createPolicy by a delegate into {MANY} delegating policies", DELEGATED, [line("dan", "createPolicy", policy=policy(f"q{n}", f"d{9 * n + 1}_x{n}")) for n in range(500)])
tell(f"createPolicy that authority refuses, {MANY} delegating policies", DELEGATED, [line("dan", "createPolicy", policy=policy(f"q{n}", f"y{n}")) for n in range(500)])
tell(f"updatePolicy of {MANY} policies", BASE, [line("root", "updatePolicy", policy=policy(f"p{n}", f"y{n}", id=n)) for n in range(1, 501)])
tell(f"deletePolicy of {MANY} policies", BASE, [line("root", "deletePolicy", id=n) for n in range(1, 501)])
tell(f"putDef over {MANY} policies", BASE, [line("root", "putDef", **{"def": {**DEF, "accessTypes": DEF["accessTypes"] + [{"name": f"a{n}"}]}}) for n in range(40)])
tell("putZone against 1,000 zones", START + ZONES, [line("root", "putZone", zone={"name": f"y{n}", "services": {"hive1": {"resources": [{"database": ["y%d" % n]}]}}}) for n in range(200)])
