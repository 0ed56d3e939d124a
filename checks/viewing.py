#!/usr/bin/env python3
"""What rangerd-view prints of an administration that changes: checks/viewing.py [--seed N] [--changes N] [--program P] [--viewer V].

An administrator changes policies, tags, roles, zones and definitions of `rangerd serve` by HTTP, while rangerd-view is asked again and again. The
same commands in a script of `rangerd replay`, each with a whole download behind it, tell what the plugin sees after each entry. Each view that
was printed has to be one of these, none of an earlier moment than the one before, the last one that of all changes; and a request that is put
behind it in a script has to be decided as `serve` decides it. It is no part of the gate, since it takes a socket."""
import argparse
import http.client
import json
import pathlib
import random
import re
import subprocess
import sys
import threading
import time

TOP = pathlib.Path(__file__).resolve().parent.parent
API = "/service/public/v2/api"
DEF = {"name": "hive", "resources": [{"name": "database", "level": 10}, {"name": "table", "level": 20, "parent": "database"}], "accessTypes": [{"name": "select"}, {"name": "update"}]}
TAG_DEF = {"name": "tag", "resources": [{"name": "tag"}], "accessTypes": [{"name": "hive:select"}, {"name": "hive:update"}]}
CONFIG = {
    "admins": ["root"], "plugin": "hive1", "serviceDefs": [DEF, TAG_DEF],
    "services": [{"name": "hive1", "type": "hive", "tagService": "tags1"}, {"name": "tags1", "type": "tag"}, {"name": "hive2", "type": "hive"}],
}
USERS, DATABASES, TABLES = ["ann", "bob", "cyd"], ["sales", "hr", "fin*"], ["orders", "staff", "*"]


class Changes:
    """Commands of one administrator, each as a route and as a line of a script."""

    def __init__(self, seed):
        self.chance, self.count, self.policies = random.Random(seed), 0, 0

    def pick(self, things):
        return self.chance.choice(things)

    def policy(self, service):
        self.count += 1
        levels = {"tag": {"values": ["PII"]}} if service == "tags1" else {"database": {"values": [self.pick(DATABASES)]}, "table": {"values": [self.pick(TABLES)]}}
        access = self.pick(["select", "update"])
        item = {"users": [self.pick(USERS)], "accesses": [{"type": f"hive:{access}" if service == "tags1" else access}]}
        return {"service": service, "name": f"p{self.count}", "resources": levels, self.pick(["policyItems", "denyPolicyItems"]): [item]}

    def next(self):
        kind = self.chance.random()
        service = self.pick(["hive1", "hive1", "hive1", "tags1", "hive2"])
        if kind < .35 or not self.policies:
            self.policies += 1
            body = self.policy(service)
            return "POST", f"{API}/policy", body, {"command": "createPolicy", "policy": body}
        number = self.chance.randint(1, self.policies)
        if kind < .55:
            body = {**self.policy(service), "id": number}
            return "PUT", f"{API}/policy/{number}", body, {"command": "updatePolicy", "policy": body}
        if kind < .65:
            return "DELETE", f"{API}/policy/{number}", None, {"command": "deletePolicy", "id": number}
        if kind < .8:
            row = {"serviceName": self.pick(["hive1", "hive2"]), "resourceElements": {"database": {"values": [self.pick(DATABASES[:2])]}}, "tags": [{"type": "PII"}]}
            number = self.chance.randint(1, 6)
            return "PUT", f"/service/tags/resources/{number}", row, {"command": "putTags", "id": number, "row": row}
        if kind < .9:
            role = {"name": self.pick(["r", "q"]), "users": [self.pick(USERS)]}
            return "POST", f"{API}/roles", role, {"command": "putRole", "role": role}
        if kind < .97:
            zone = {"name": "z", "services": {"hive1": {"resources": [{"database": [self.pick(["hr", "lab"])]}]}}, "adminUsers": ["zoe"]}
            return "POST", f"{API}/zones", zone, {"command": "putZone", "zone": zone}
        return "DELETE", f"{API}/zones/name/z", None, {"command": "deleteZone", "name": "z"}


def ask(link, method, path, body=None):
    link.request(method, path, body and json.dumps(body), {"x-user": "root"})
    reply = link.getresponse()
    return reply.status, reply.read()


def facts_of(reply):
    """The facts of a whole download, as the format has them."""
    p, t, r = (reply[key]["whole"] for key in ("policies", "tags", "roles"))
    return {
        "service": "hive1", "fallback": p["fallback"], "serviceDef": p["def"], "tagServiceDef": p["tagDef"], "policies": p["policies"],
        "tagPolicies": p["tagPolicies"], "zones": p["zones"], "roles": r["roles"], "resources": t["rows"], "timeZones": p["timeZones"],
        "policyVersion": p["version"], "tagVersion": t["version"], "roleVersion": r["version"],
    }


def moments(program, commands):
    """The facts after no command, after the first, and so on."""
    download = "admin root " + json.dumps({"command": "download", "service": "hive1"})
    script = ["config " + json.dumps(CONFIG), download]
    for command in commands:
        script += ["admin root " + json.dumps(command), download]
    ran = subprocess.run([program, "replay"], input="\n".join(script) + "\n", capture_output=True, text=True)
    if ran.returncode:
        sys.exit(f"the script of all changes ends with status {ran.returncode}")
    return [facts_of(it) for it in map(json.loads, ran.stdout.splitlines()) if "seq" in it]


def decided(program, facts_line, request):
    ran = subprocess.run([program, "replay"], input=facts_line + "decide " + json.dumps(request) + "\n", capture_output=True, text=True)
    return json.loads(ran.stdout)


def main():
    words = argparse.ArgumentParser()
    words.add_argument("--seed", type=int, default=int(time.strftime("%Y%m%d")))
    words.add_argument("--changes", type=int, default=400)
    words.add_argument("--program", default=str(TOP / "crates/rangerd/out/rangerd"))
    words.add_argument("--viewer", default=str(TOP / "crates/rangerd_view/out/rangerd_view"))
    given = words.parse_args()
    served = subprocess.Popen([given.program, "serve", "127.0.0.1:0", "1000000"], stdin=subprocess.PIPE, stdout=subprocess.PIPE, text=True)
    try:
        run(given, served)
    finally:
        served.kill()


def run(given, served):
    served.stdin.write("config " + json.dumps(CONFIG) + "\n")
    served.stdin.close()
    port = port_of(served)
    changes, commands, done = Changes(given.seed), [], threading.Event()

    def change():
        link = http.client.HTTPConnection("127.0.0.1", port, timeout=60)
        for _ in range(given.changes):
            method, path, body, command = changes.next()
            ask(link, method, path, body)
            commands.append(command)
        link.close()
        done.set()

    def view():
        ran = subprocess.run([given.viewer, f"127.0.0.1:{port}", "hive1", "root"], capture_output=True, text=True)
        return ran.returncode, ran.stdout

    thread = threading.Thread(target=change)
    thread.start()
    seen, unsettled = [], 0
    while not done.is_set():
        status, text = view()
        unsettled += status == 5
        if status not in (0, 5):
            sys.exit(f"rangerd-view ended with status {status}")
        if not status:
            seen.append(text)
    thread.join()
    seen.append(view()[1])
    compare(given, port, commands, seen, unsettled)


def compare(given, port, commands, seen, unsettled):
    places, last = moments(given.program, commands), -1
    for number, text in enumerate(seen):
        facts, at = json.loads(text.removeprefix("facts ")), last if last >= 0 else 0
        while at < len(places) and places[at] != facts:
            at += 1
        if at == len(places):
            sys.exit(f"seed {given.seed}: view {number} is none of the moments from {last} on:\n{text}")
        last = at
    if places[-1] != json.loads(seen[-1].removeprefix("facts ")):
        sys.exit(f"seed {given.seed}: the last view isn't that of all changes")
    asked = decide_all(given, port, seen[-1])
    print(f"{len(seen)} views of {len(places)} moments, {unsettled} that didn't settle, {asked} decisions as served; seed {given.seed}")


def decide_all(given, port, facts_line):
    link, asked = http.client.HTTPConnection("127.0.0.1", port, timeout=60), 0
    time.sleep(.5)  # the last change is published behind its answer
    for user in USERS:
        for database in ("sales", "hr", "fin1", "lab"):
            for access in ("select", "update"):
                request = {"user": user, "resource": {"elements": {"database": database, "table": "orders"}}, "accessType": access, "accessTime": 0}
                served = json.loads(ask(link, "POST", "/service/decide/hive1", request)[1])
                viewed = decided(given.program, facts_line, request)
                served.pop("serial"), viewed.pop("serial")
                if served != viewed:
                    sys.exit(f"seed {given.seed}: {request} is decided as {served} by serve, and as {viewed} over the view")
                asked += 1
    return asked


def port_of(served):
    """Where it listens: the only socket of the process."""
    for _ in range(200):
        inodes = {m[1] for link in pathlib.Path(f"/proc/{served.pid}/fd").iterdir() if (m := re.match(r"socket:\[(\d+)\]", safe_link(link)))}
        for row in pathlib.Path("/proc/net/tcp").read_text().splitlines()[1:]:
            cells = row.split()
            if cells[9] in inodes and cells[3] == "0A":
                return int(cells[1].split(":")[1], 16)
        time.sleep(.05)
    sys.exit("serve doesn't listen")


def safe_link(link):
    try:
        return str(link.readlink())
    except OSError:
        return ""


if __name__ == "__main__":
    main()
