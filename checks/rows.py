#!/usr/bin/env python3
"""Runs rangerd over worked rows and compares what it prints, byte for byte, and its status.

usage: checks/rows.py [PROGRAM]      (bin/rangerd where not given)

checks/rows has the rows: definitions.json, the definitions that they are over; decisions.jsonl, one decision each with
what is wanted; unsound.jsonl, facts that break a rule; scripts.json, administration.json and grants.json, whole scripts with
their output and status. What is wanted was worked out from docs/RULES.md and docs/FORMATS.md, and not taken from the program.
"""
import json
import pathlib
import subprocess
import sys

TOP = pathlib.Path(__file__).resolve().parent.parent
ROWS = TOP / "checks" / "rows"


def run(program, words, script):
    done = subprocess.run([program, *words], input=script, capture_output=True, timeout=60)
    return done.stdout, done.returncode


def lines_of(name):
    return [json.loads(line) for line in (ROWS / name).read_text().splitlines()]


def facts_line(definitions, row):
    return "facts " + json.dumps({**definitions[row["over"]], **row["facts"]}) + "\n"


def decision_line(row):
    """The printed decision: compact JSON, keys in byte order."""
    printed = {
        "access": row["access"],
        "audited": row.get("audited", True),
        "mask": row.get("mask"),
        "policyId": row["policyId"],
        "policyVersion": 1,
        "rowFilter": row.get("rowFilter"),
        "serial": 1,
        "tagVersion": 1,
    }
    return json.dumps(printed, separators=(",", ":"), ensure_ascii=False) + "\n"


def many_alike():
    """More policies with the same maps than are counted. All but one are disabled at first, and then all are deleted."""
    definition = {"name": "d", "resources": [{"name": "path"}], "accessTypes": [{"name": "read"}]}
    config = {"admins": ["root"], "plugin": "s", "serviceDefs": [definition], "services": [{"name": "s", "type": "d"}]}
    row = json.dumps({"service": "s", "resources": {"path": {"values": ["a"]}}, "users": ["bob"], "accessTypes": ["read"]})
    many = range(1, 301)

    def policy(word, number, enabled, value="a", **more):
        items = [{"users": ["ann"], "accesses": [{"type": "read"}]}]
        made = {"service": "s", "name": f"p{number}", "isEnabled": enabled, "resources": {"path": {"values": [value]}}, "policyItems": items, **more}
        return "admin root " + json.dumps({"command": word, "policy": made})

    def kept(number, version):
        return json.dumps({"id": number, "version": version}, separators=(",", ":"))

    script = ["config " + json.dumps(config)] + [policy("createPolicy", number, False) for number in many]
    printed = [kept(number, 1) for number in many]
    for line, answer in (("revoke root " + row, '{"refused":"E2"}'),
                         (policy("updatePolicy", 5, True, id=5), kept(5, 2)),
                         (policy("updatePolicy", 9, True, id=9), '{"refused":"V13"}'),
                         ("grant root " + row, kept(5, 3)),
                         (policy("updatePolicy", 7, True, "b", id=7), kept(7, 2)),
                         (policy("updatePolicy", 5, True, "b", id=5), '{"refused":"V13"}'),
                         *(("admin root " + json.dumps({"command": "deletePolicy", "id": number}), '{"done":true}') for number in many),
                         ("grant root " + row, kept(301, 1)),
                         ("grant root " + row, kept(301, 2)),
                         (policy("createPolicy", 1, True), '{"refused":"V13"}'),
                         (policy("createPolicy", 2, True, "b"), kept(302, 1))):
        script.append(line)
        printed.append(answer)
    return "many policies with the same maps", ["grants"], "\n".join(script).encode(), "".join(line + "\n" for line in printed).encode(), 0


def cases():
    """The name, the words, the script, what is to be printed, and the status of each case."""
    definitions = json.loads((ROWS / "definitions.json").read_text())
    for number, row in enumerate(lines_of("decisions.jsonl"), 1):
        script = facts_line(definitions, row) + "decide " + json.dumps(row["request"]) + "\n"
        yield f"decision {number}", ["replay"], script.encode(), decision_line(row).encode(), 0
    for number, row in enumerate(lines_of("unsound.jsonl"), 1):
        yield f"unsound facts {number}", ["replay"], facts_line(definitions, row).encode(), b"bad line 1\n", 2
    for row in (row for name in ("scripts.json", "administration.json", "grants.json") for row in json.loads((ROWS / name).read_text())):
        script = "\n".join(row["script"]).encode("latin-1")
        printed = "".join(line + "\n" for line in row["printed"]).encode()
        yield row["name"], row.get("words", ["replay"]), script, printed, row["status"]
    yield many_alike()
    limit = 1_048_576
    yield "the longest line", ["replay"], b"#" * limit, b"", 0
    yield "a line too long", ["replay"], b"#" * (limit + 1), b"too long\n", 6


def main():
    program = sys.argv[1] if len(sys.argv) > 1 else str(TOP / "bin" / "rangerd")
    failed = count = 0
    for name, words, script, printed, status in cases():
        count += 1
        found = run(program, words, script)
        if found != (printed, status):
            failed += 1
            print(f"{name}: wanted {printed!r} and {status}, got {found[0][:500]!r} and {found[1]}")
    print(f"rows: {count - failed} as wanted, {failed} not")
    return 1 if failed else 0


if __name__ == "__main__":
    sys.exit(main())
