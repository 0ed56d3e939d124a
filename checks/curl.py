#!/usr/bin/env python3
"""Types each line of the table of curl calls in docs/HTTP.md against the command `serve`, and compares what is answered with the answers
that stand beside it. Those with several answers are typed once more in another state.

usage: checks/curl.py [RANGERD]      (the built program where not given)

A row may name several answers, of which the one that fits the state comes; how many of them were seen is told. It is no part of the gate, since
it takes a socket and curl.
"""

import json
import pathlib
import re
import subprocess
import sys
import tempfile

TOP = pathlib.Path(__file__).resolve().parent.parent
ROW = re.compile(r"^\| `(ask [^`]*)` \| (.*) \|$", re.MULTILINE)
DEF = {"name": "hive", "resources": [{"name": "database"}], "accessTypes": [{"name": "select"}]}
ITEM = {"users": ["ann"], "accesses": [{"type": "select"}]}
ZONE = {"name": "fin", "services": {"hive1": {"resources": [{"database": ["fin"]}]}}, "adminUsers": ["zoe"]}
OTHER_ZONE = {**ZONE, "name": "ledger"}
READER = {"service": "hive1", "name": "r", "resources": {"database": {"values": ["hr"]}}, "policyItems": [{**ITEM, "roles": ["r"]}]}
BODIES = {
    "def.json": DEF,
    "policy.json": {"service": "hive1", "name": "sales", "resources": {"database": {"values": ["sales"]}}, "policyItems": [ITEM]},
    "zone.json": ZONE,
    "row.json": {"serviceName": "hive1", "resourceElements": {"database": {"values": ["sales"]}}, "tags": [{"type": "PII"}]},
}
CONFIG = {"admins": ["root"], "plugin": "hive1", "serviceDefs": [DEF], "services": [{"name": "hive1", "type": "hive"}]}
# What is typed between the two rounds, so that other answers of the rows come.
BETWEEN = [
    "ask --data '%s' $A/%s" % (json.dumps(body), path)
    for body, path in [(OTHER_ZONE, "zones"), ({"name": "old", "type": "hive"}, "service"), ({"name": "r"}, "roles"), (READER, "policy")]
]
HEAD = "A=$URL/service/public/v2/api\nask() { curl -s -w ' %{http_code}' -H 'x-user: root' \"$@\"; }\n"


def answers_of(told):
    """The answers that a cell names: a status, and a body where one stands behind it, in which .. is any text."""
    found = []
    for part in told.split("; "):
        status, bodies = part[:3], re.findall(r"`([^`]*)`", part)
        plain = [".*"] if " and " in part or not bodies else []
        found += [(status, plain or [".*".join(map(re.escape, body.split(".."))) for body in bodies])]
    return found


def fits(answers, got):
    """The places of the answers that this is."""
    body, _, status = got.rpartition(" ")
    return {place for place, (wanted, bodies) in enumerate(answers) if wanted == status and any(re.fullmatch(it, body) for it in bodies)}


def main(program=TOP / "crates/rangerd/out/rangerd"):
    rows = [(line, answers_of(told)) for line, told in ROW.findall((TOP / "docs/HTTP.md").read_text())]
    assert rows, "no table"
    with tempfile.TemporaryDirectory() as folder:
        for name, body in BODIES.items():
            pathlib.Path(folder, name).write_text(json.dumps(body))
        serve = subprocess.Popen([pathlib.Path(program).resolve(), "serve", "127.0.0.1:0", "1000000"], stdin=subprocess.PIPE, stdout=subprocess.DEVNULL, cwd=folder)
        try:
            serve.stdin.write(("config %s\n" % json.dumps(CONFIG)).encode())
            serve.stdin.close()
            return compare(rows, folder, address_of(serve))
        finally:
            serve.kill()


def address_of(serve):
    """Where it listens, once it does."""
    for _ in range(100):
        found = subprocess.run(["ss", "-ltnpH"], capture_output=True, text=True).stdout
        for line in found.splitlines():
            if "pid=%d," % serve.pid in line:
                return "http://" + line.split()[3]
        subprocess.run(["sleep", "0.1"])
    raise SystemExit("it doesn't listen")


def compare(rows, folder, url):
    def typed(line):
        return subprocess.run(["bash", "-c", HEAD + line], cwd=folder, env={"URL": url, "PATH": "/usr/bin:/bin"}, capture_output=True, text=True).stdout

    seen, wrong = {place: set() for place in range(len(rows))}, 0
    for number in range(2):
        for place, (line, answers) in enumerate(rows):
            if number and len(answers) == 1:
                continue
            got = typed(line)
            seen[place] |= fits(answers, got)
            if not fits(answers, got):
                wrong += 1
                print("round %d: %s\n  answered %s" % (number + 1, line, got))
        for line in BETWEEN:
            typed(line)
    count = sum(len(answers) for _, answers in rows)
    print("http: %d rows, %d answers not as told; %d of %d answers seen" % (len(rows), wrong, sum(map(len, seen.values())), count))
    return wrong > 0


if __name__ == "__main__":
    sys.exit(main(*sys.argv[1:]))
