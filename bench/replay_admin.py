"""Times `rangerd replay` over an administration: policies are created, then changed with a refresh after each tenth, then requests are decided.

usage: bench/replay_admin.py PROGRAM [POLICIES] [CHANGES] [REQUESTS]      (5000, 1000 and 20000 where not given)

Each phase is timed as the difference of two runs, one of which ends before it; the best of three runs counts. Printed are lines a second
of each phase, and the peak of resident memory of the whole run.
"""

import json
import resource
import subprocess
import sys
import tempfile
import time

program = sys.argv[1]
policies, changes, requests = (int(word) for word in (sys.argv[2:] + ["5000", "1000", "20000"][len(sys.argv) - 2:]))

level = lambda name, number, parent="": {"name": name, "level": number, "parent": parent}
definition = {"name": "hive", "resources": [level("database", 10), level("table", 20, "database"), level("column", 30, "table")],
              "accessTypes": [{"name": "select"}, {"name": "all", "impliedGrants": ["select"]}]}


def policy(n, change=0):
    resources = {"database": {"values": ["db%d" % (n % 50)]}, "table": {"values": ["t%d" % n]}, "column": {"values": ["*"]}}
    item = {"users": ["u%d" % (n % 100), "v%d" % change], "accesses": [{"type": "select"}]}
    return {"service": "hive1", "name": "p%d" % n, "resources": resources, "policyItems": [item]}


def request(n):
    about = 1 + n * 13 % policies
    elements = {"database": "db%d" % (about % 50), "table": "t%d" % about, "column": "c"}
    return {"user": "u%d" % ((about + n % 2) % 100), "resource": {"elements": elements}, "accessType": "select", "accessTime": 0}


def admin(command, **fields):
    return "admin root " + json.dumps({"command": command, **fields}, separators=(",", ":"))


start = ["config " + json.dumps({"admins": ["root"], "plugin": "hive1", "serviceDefs": [definition], "services": [{"name": "hive1", "type": "hive"}]})]
created = [admin("createPolicy", policy=policy(n)) for n in range(1, policies + 1)] + ["refresh"]
changed = []
for n in range(1, changes + 1):
    changed.append(admin("updatePolicy", policy={**policy(1 + n * 7 % policies, n), "id": 1 + n * 7 % policies}))
    changed += ["refresh"] * (n % 10 == 0)
decided = ["decide " + json.dumps(request(n), separators=(",", ":")) for n in range(requests)]


def seconds(lines):
    with tempfile.TemporaryFile() as script:
        script.write(("\n".join(lines) + "\n").encode())
        best = None
        for _ in range(3):
            script.seek(0)
            begun = time.perf_counter()
            done = subprocess.run([program, "replay"], stdin=script, stdout=subprocess.PIPE, check=True)
            took = time.perf_counter() - begun
            best = took if best is None else min(best, took)
    return best, done.stdout


before, _ = seconds(start)
for name, lines in (("created", created), ("changed", changed), ("decided", decided)):
    start = start + lines
    took, printed = seconds(start)
    assert b"refused" not in printed, printed[:200]
    print(f"{name}: {len(lines)} lines, {len(lines) / max(took - before, 1e-9):.0f} a second")
    before = took
print(f"peak_kib={resource.getrusage(resource.RUSAGE_CHILDREN).ru_maxrss}")
