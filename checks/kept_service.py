#!/usr/bin/env python3
"""Kills a service that keeps what it administers, and looks for what it acknowledged: checks/kept_service.py [KILLS [CLIENTS [SEED [PROGRAM]]]]

A `rangerd-kept` (the built one where PROGRAM isn't given) is started over a file in a folder of its own, again and again, with a new file after each
20 kills. CLIENTS clients, each with a connection of its own, create, change and delete policies, roles, zones and tag rows, each client things of its
own, until the service is killed at a random moment (SIGKILL). What each client then knows is what its answers told, and the one change that it had
asked for and that wasn't answered. After the next start each thing has to stand as its last answered change left it, or as the open one did; no id
may have been given twice; the version of no part may be below one that was told; and the change since a version that was downloaded before the kill
leads to what is downloaded whole.

Before that, what can't be begun with ends the service with a status and a line, and nothing is changed: records that don't read, configurations that
aren't the one line, a file that may not be read, one that isn't a database, one that was cut, one that another process has. Where a file system of its
own can be mounted, one that fills up has changes answered 503 while decisions go on, and nothing that was acknowledged is lost. The pages on health and
metrics are asked while every worker has a silent client, and their counts are compared with what was asked; the epoch is worked out once more, and so is
what a new start over the same file, another file and another configuration makes of it. What tools/back_up_kept.py copies has what was acknowledged before
it. A file of audit lines that takes no more is told by health.

A kill takes nothing that the operating system has been given, so this shows nothing of a power cut. It is no part of the gate, since it takes minutes
and a socket."""
import collections
import contextlib
import http.client
import json
import re
import os
import pathlib
import random
import shutil
import signal
import socket
import sqlite3
import subprocess
import sys
import tempfile
import threading
import time

from rounds import can_listen
from viewing import API, safe_link

TOP = pathlib.Path(__file__).resolve().parent.parent
KILLS = int(sys.argv[1]) if len(sys.argv) > 1 else 50
CLIENTS = int(sys.argv[2]) if len(sys.argv) > 2 else 20
CHANCE = random.Random(int(sys.argv[3]) if len(sys.argv) > 3 else 1)
PROGRAM = sys.argv[4] if len(sys.argv) > 4 else str(TOP / "crates/rangerd_kept/out/rangerd_kept")
DEF = {"name": "hive", "resources": [{"name": "database"}], "accessTypes": [{"name": "select"}]}
TAG_DEF = {"name": "tag", "resources": [{"name": "tag"}], "accessTypes": [{"name": "hive:select"}]}
CONFIG = {
    "admins": ["root"], "plugin": "hive1", "serviceDefs": [DEF, TAG_DEF],
    "services": [{"name": "hive1", "type": "hive", "tagService": "tags1"}, {"name": "tags1", "type": "tag"}],
}
SCRIPT = "config " + json.dumps(CONFIG) + "\n"
PARTS = {"policies": "/service/plugins/policies/download/hive1", "tags": "/service/tags/download/hive1", "roles": "/service/roles/download/hive1"}
MOST_SECONDS = 0.6
KILLS_OF_A_FILE = 20
PASSED, FAILED = [], []


def judge(name, got, wanted):
    if got == wanted:
        PASSED.append(name)
    else:
        FAILED.append(name)
        print(f"{name}: {str(got)[:400]}; wanted is {str(wanted)[:400]}")


@contextlib.contextmanager
def database_of(file):
    """The file in SQLite's own hands, which are off it again at the end."""
    with contextlib.closing(sqlite3.connect(file)) as database:
        yield database
        database.commit()


def listening(process):
    """The ports at which the process listens."""
    inodes = {m[1] for link in pathlib.Path(f"/proc/{process.pid}/fd").iterdir() if (m := re.match(r"socket:\[(\d+)\]", safe_link(link)))}
    rows = [row.split() for row in pathlib.Path("/proc/net/tcp").read_text().splitlines()[1:]]
    return {int(it[1].split(":")[1], 16) for it in rows if it[9] in inodes and it[3] == "0A"}


class Service:
    """The program over the file."""

    def __init__(self, file, script=SCRIPT, pages=None, audit=None):
        words = [PROGRAM, str(file), "127.0.0.1:0"] + ([str(audit)] if audit else []) + (["--metrics", f"127.0.0.1:{pages}"] if pages else [])
        self.process = subprocess.Popen(words, stdin=subprocess.PIPE, stdout=subprocess.PIPE)
        self.process.stdin.write(script.encode())
        self.process.stdin.close()
        self.pages = pages
        self.port = self.wait()

    def wait(self):
        """The port of its routes, once it serves."""
        while self.process.poll() is None:
            with contextlib.suppress(OSError):
                if ports := listening(self.process) - {self.pages}:
                    return ports.pop()
            time.sleep(.01)
        sys.exit(f"the service ended with status {self.process.returncode}: {self.process.stdout.read()}")

    def link(self):
        return Link(self.port)

    def kill(self):
        self.process.send_signal(signal.SIGKILL)
        self.process.wait()


class Link:
    """A connection."""

    def __init__(self, port):
        self.connection = http.client.HTTPConnection("127.0.0.1", port, timeout=30)

    def ask(self, method, path, body=None):
        self.connection.request(method, path, None if body is None else json.dumps(body), {"x-user": "root"})
        answer = self.connection.getresponse()
        text = answer.read()
        return answer.status, json.loads(text) if text else None

    def close(self):
        self.connection.close()


def policy(name, database, user):
    return {"service": "hive1", "name": name, "resources": {"database": {"values": [database]}}, "policyItems": [{"users": [user], "accesses": [{"type": "select"}]}]}


class Client(threading.Thread):
    """Changes things of its own. `known` is what stands of each by the answers, None where it was deleted; `open` is the change that isn't answered."""

    def __init__(self, number, known, seed):
        super().__init__(daemon=True)
        self.number, self.known, self.chance = number, known, random.Random(seed)
        self.open, self.acknowledged, self.ids, self.faults, self.port = None, 0, {}, [], None

    def run(self):
        link = Link(self.port)
        try:
            while True:
                self.step(link)
        except (OSError, http.client.HTTPException, ValueError):
            return

    def step(self, link):
        kind = self.chance.choice(["policy", "policy", "role", "zone", "tags"])
        key = (kind, f"c{self.number}n{self.chance.randrange(6)}")
        stands = self.known.get(key)
        deletes = stands is not None and self.chance.random() < 0.3
        value = None if deletes else self.chance.choice(["ann", "bob", "cyd"])
        self.open = (key, value)
        status, answer = link.ask(*self.request(key, stands, value))
        if status not in (200, 204):
            self.faults.append(f"{key} {value}: {status} {answer}")
            raise ValueError
        if kind == "policy" and stands is None:
            self.ids[answer["id"]] = key
            value = (answer["id"], value)
        elif kind == "policy" and value is not None:
            value = (stands[0], value)
        self.known[key] = value
        self.open = None
        self.acknowledged += 1

    def request(self, key, stands, value):
        kind, name = key
        number = self.number * 100 + int(name.rsplit("n", 1)[1]) + 1
        if kind == "policy":
            body = policy(name, f"db{number}", value)
            if stands is None:
                return "POST", f"{API}/policy", body
            return ("DELETE", f"{API}/policy/{stands[0]}", None) if value is None else ("PUT", f"{API}/policy/{stands[0]}", body)
        if kind == "role":
            return ("DELETE", f"{API}/roles/name/{name}", None) if value is None else ("POST", f"{API}/roles", {"name": name, "users": [value]})
        if kind == "zone":
            body = {"name": name, "services": {"hive1": {"resources": [{"database": [f"zone{number}"]}]}}, "adminUsers": [value]}
            return ("DELETE", f"{API}/zones/name/{name}", None) if value is None else ("POST", f"{API}/zones", body)
        row = {"serviceName": "hive1", "resourceElements": {"database": {"values": [f"db{number}"]}}, "tags": [{"type": "PII", "attributes": {"by": value}}]}
        return ("DELETE", f"/service/tags/resources/{number}", None) if value is None else ("PUT", f"/service/tags/resources/{number}", row)


def downloads(link, versions=None):
    """The parts, whole, or since those versions: the status and the body of each."""
    told = {}
    for part, path in PARTS.items():
        told[part] = link.ask("GET", path if versions is None else f"{path}?lastKnownVersion={versions[part]}")
    return told


def standing(link):
    """What stands of each thing."""
    found = {}
    for it in link.ask("GET", f"{API}/policies/hive1")[1]:
        found["policy", it["name"]] = (it["id"], it["policyItems"][0]["users"][0])
    whole = {part: told[1]["whole"] for part, told in downloads(link).items()}
    for role in whole["roles"]["roles"]:
        found["role", role["name"]] = role["users"][0]
    for zone in whole["policies"]["zones"]:
        found["zone", zone["name"]] = zone["adminUsers"][0]
    for row in whole["tags"]["rows"]:
        found["tags", f"c{(row['id'] - 1) // 100}n{(row['id'] - 1) % 100}"] = row["tags"][0]["attributes"]["by"]
    return found, whole


def applied(whole, told):
    """The part after what a download since its version told."""
    status, body = told
    if status == 304:
        return whole
    if "whole" in body:
        return body["whole"]
    delta, then = body["delta"], dict(whole)
    name, key = ("policies", "policy") if "policies" in whole else ("rows", "row")
    kept = {it["id"]: it for it in whole[name]}
    for change in delta["changes"]:
        kept.pop(change[key]["id"], None)
        if change["changeType"] != 2:
            kept[change[key]["id"]] = change[key]
    then[name], then["version"] = list(kept.values()), delta["to"]
    if delta.get("zones") is not None:
        then["zones"] = delta["zones"]
    return then


def sorted_part(part):
    return json.dumps({key: sorted(value, key=lambda it: json.dumps(it, sort_keys=True)) if isinstance(value, list) else value for key, value in part.items()}, sort_keys=True)


def agrees(clients, found):
    """What doesn't stand as it was told, or as the open change left it. The clients go on from what stands."""
    wrong = []
    for client in clients:
        keys = set(client.known) | {key for key in found if key[1].startswith(f"c{client.number}n")}
        for key in keys:
            has, was = found.get(key), client.known.get(key)
            might = [was]
            if client.open and client.open[0] == key:
                value = client.open[1]
                if key[0] == "policy" and value is not None:
                    might.append((was[0], value) if was else "new")
                else:
                    might.append(value)
            if has in might:
                client.known[key] = has
            elif "new" in might and has is not None and has[1] == client.open[1]:
                client.known[key] = has
                client.ids[has[0]] = key
            else:
                wrong.append((key, has, might))
        client.open = None
    return wrong


def killed(folder):
    """KILLS kills, over a file for each few of them, since a start takes the longer the more is kept."""
    total = collections.Counter()
    for first in range(0, KILLS, KILLS_OF_A_FILE):
        total.update(killed_over(folder / f"kept{first}.db", min(KILLS_OF_A_FILE, KILLS - first)))
    judge("kills", total["kills"], KILLS)
    print(" ".join(f"{name}={total[name]}" for name in ("kills", "acknowledged", "kept", "ids")), f"clients={CLIENTS}")


def killed_over(file, most):
    """So many kills, each with what stands looked through behind it."""
    known = [{} for _ in range(CLIENTS)]
    ids, acknowledged, before, kills = {}, 0, None, 0
    clients = []
    while True:
        service = Service(file)
        link = service.link()
        found, whole = standing(link)
        wrong = agrees(clients, found)
        if wrong:
            judge(f"after kill {kills}", wrong[:3], [])
            break
        for client in clients:
            for identity, key in client.ids.items():
                if identity in ids:
                    judge("ids", f"{identity} of {ids[identity]} and {key}", "each once")
                ids[identity] = key
            for fault in client.faults:
                judge("answers", fault, "accepted")
            acknowledged += client.acknowledged
        if before:
            for part, told in downloads(link, {part: it["version"] for part, it in before.items()}).items():
                if whole[part]["version"] < before[part]["version"]:
                    judge("versions", whole[part]["version"], f"at least {before[part]['version']}")
                if sorted_part(applied(before[part], told)) != sorted_part(whole[part]):
                    judge(f"the change of {part} since {before[part]['version']}", told, "leads to the whole")
        before = whole
        link.close()
        if kills == most:
            service.kill()
            break
        clients = [Client(number, known[number], CHANCE.random()) for number in range(CLIENTS)]
        for client in clients:
            client.port = service.port
            client.start()
        time.sleep(CHANCE.uniform(0.01, MOST_SECONDS))
        service.kill()
        for client in clients:
            client.join()
        kills += 1
    with database_of(file) as database:
        (kept,) = database.execute("SELECT count(*) FROM kept").fetchone()
    return {"kills": kills, "acknowledged": acknowledged, "kept": kept, "ids": len(ids)}


def ended(file, script=SCRIPT):
    """How it ends over this file: the status and what it prints."""
    ran = subprocess.run([PROGRAM, str(file), "127.0.0.1:0"], input=script.encode(), capture_output=True, timeout=60)
    return ran.returncode, ran.stdout.decode()


def rows_of(file):
    with database_of(file) as database:
        return database.execute("SELECT place, record FROM kept ORDER BY place").fetchall()


def refused(folder):
    """What it can't begin with."""
    user = {"actor": "root", "command": {"command": "putUser", "user": {"groups": [], "name": "u1"}}}
    compact = json.dumps(user, separators=(",", ":"))
    looks = compact.replace('"command":"putUser","user":{"groups":[],"name":"u1"}', '"command":"listPolicies","service":"hive1"')
    cases = [
        ("no bytes of a record", ["{"], "bad record 0\n"),
        ("a record that only looks", [compact, looks], "bad record 1\n"),
        ("a record that is refused", [compact, compact.replace('"root"', '"eve"')], "bad record 1\n"),
        ("a record that isn't printed as it is kept", [compact, compact.replace(":[]", ": []")], "bad record 1\n"),
    ]
    for name, records, printed in cases:
        file = folder / "records.db"
        with database_of(file) as database:
            database.execute("DROP TABLE IF EXISTS kept")
            database.execute("CREATE TABLE kept (place INTEGER PRIMARY KEY, record BLOB NOT NULL)")
            database.executemany("INSERT INTO kept (record) VALUES (?)", [(it.encode(),) for it in records])
        before = rows_of(file)
        judge(name, ended(file), (10, printed))
        judge(f"{name}: the file", rows_of(file), before)
    for name, script, printed in (
        ("no configuration", "", "bad line 1\n"), ("a blank line alone", "\n", "bad line 2\n"), ("a command", SCRIPT + "admin root " + json.dumps(user["command"]) + "\n", "bad line 2\n"),
        ("two configurations", SCRIPT * 2, "bad line 2\n"), ("a configuration that breaks a rule", 'config {"admins":[],"plugin":"none"}\n', "bad line 1\n"),
    ):
        judge(name, ended(folder / "new.db", script), (2, printed))
    text = folder / "text"
    text.write_text("This isn't a database.\n" * 200)
    judge("a file of another program", ended(text), (8, ""))
    judge("its bytes", text.read_text(), "This isn't a database.\n" * 200)
    judge("no folder", ended(folder / "none" / "kept.db"), (8, ""))
    service = Service(folder / "held.db")
    judge("a file that another process has", ended(folder / "held.db"), (8, ""))
    service.kill()
    for words in ([], ["a"], ["a", "127.0.0.1:0", "--metrics"], ["a", "127.0.0.1:0", "--page", "127.0.0.1:0"], ["a", "127.0.0.1:0", "b", "c"]):
        judge(f"the words {words}", subprocess.run([PROGRAM, *words], input=b"", check=False).returncode, 1)
    cut(folder)
    unreadable(folder)


def cut(folder):
    """A file that has lost its end."""
    file = folder / "cut.db"
    service = Service(file)
    link = service.link()
    for number in range(100):
        link.ask("PUT", f"/service/users/user{number}", {"name": "x", "groups": ["staff" * 20]})
    service.kill()
    log = pathlib.Path(f"{file}-wal")
    before = log.read_bytes()
    log.write_bytes(before[:-100])
    service = Service(file)
    service.kill()
    rows = rows_of(file)
    judge("what a log that was cut has", 0 < len(rows) <= 100 and [row[0] for row in rows] == list(range(1, len(rows) + 1)), True)
    whole = file.read_bytes()
    file.write_bytes(whole[: len(whole) // 2])
    judge("a file that was cut", ended(file), (8, ""))
    judge("the bytes that are left of it", file.read_bytes(), whole[: len(whole) // 2])


def unreadable(folder):
    """A file that may not be read. Root may, so it is tried as nobody where it can be."""
    file = folder / "closed.db"
    file.write_bytes(b"")
    file.chmod(0)
    program = shutil.copy(PROGRAM, folder / "program")
    folder.chmod(0o755)
    ran = subprocess.run([program, str(file), "127.0.0.1:0"], input=SCRIPT.encode(), capture_output=True, timeout=60, check=False, **({} if os.geteuid() else {"user": 65534}))
    judge("a file that may not be read", (ran.returncode, ran.stdout), (8, b""))


def page(port, path):
    """A page, whose connection is closed behind it."""
    with contextlib.closing(http.client.HTTPConnection("127.0.0.1", port, timeout=5)) as connection:
        connection.request("GET", path)
        answer = connection.getresponse()
        return answer.status, answer.read().decode()


def metrics_of(port):
    """The values of the metrics, by name and label."""
    return {line.rsplit(" ", 1)[0]: int(line.rsplit(" ", 1)[1]) for line in page(port, "/service/metrics")[1].splitlines() if not line.startswith("#")}


def free_port():
    with socket.socket() as free:
        free.bind(("127.0.0.1", 0))
        return free.getsockname()[1]


def epoch_of(script, first):
    """What health tells: FNV-1a in 64 bits of the configuration line, a byte 0 and the first record, without its last 11 bits."""
    number = 0xCBF29CE484222325
    for byte in script.splitlines()[0].encode() + b"\0" + first:
        number = (number ^ byte) * 0x100000001B3 % 2**64
    return number >> 11


def health_of(port):
    return json.loads(page(port, "/service/health")[1])


def settled_health(port, role_version):
    """Health, once the roles of this version are published."""
    for _ in range(100):
        health = health_of(port)
        if health["roleVersion"] == role_version:
            break
        time.sleep(.05)
    return health


def epoch_at(file, script, port):
    """What a start over the file tells."""
    service = Service(file, script, pages=port)
    epoch = health_of(port)["epoch"]
    service.kill()
    return epoch


def first_record_of(service, file):
    """The first record of a service that runs, from a copy of its file."""
    to = file.with_suffix(".look")
    judge("a copy to look at", backed_up(service.process.pid, file, to), 0)
    return bytes(rows_of(to)[0][1])


def backed_up(pid, file, to):
    """The status of the tool."""
    return subprocess.run([sys.executable, str(TOP / "tools/back_up_kept.py"), str(pid), str(file), str(to)], capture_output=True, timeout=60, check=False).returncode


def dropped(folder):
    """A file of audit lines that takes none."""
    port = free_port()
    service = Service(folder / "dropped.db", pages=port, audit="/dev/full")
    link = service.link()
    link.ask("POST", f"{API}/policy", policy("p", "sales", "ann"))
    request = {"user": "ann", "resource": {"elements": {"database": "sales"}}, "accessType": "select"}
    told = []
    for _ in range(4):
        judge("a decision whose line is lost", link.ask("POST", "/service/decide/hive1", request)[0], 200)
        told.append(health_of(port)["droppedSinks"])
    judge("dropped sinks, after each decision of one worker", told, [0, 0, 1, 1])
    judge("the metric", metrics_of(port)["rangerd_dropped_sinks"], 1)
    service.kill()


def watched(folder):
    """The pages, while nothing else is answered."""
    port = free_port()
    service = Service(folder / "watched.db", pages=port)
    link = service.link()
    for number in range(5):
        link.ask("POST", f"{API}/roles", {"name": f"r{number}", "users": ["ann"]})
    link.ask("POST", f"{API}/roles", {"name": "r", "users": ["ann"], "roles": ["none"]})
    for user in ("ann", "bob"):
        link.ask("POST", "/service/decide/hive1", {"user": user, "resource": {"elements": {"database": "sales"}}, "accessType": "select"})
    silent = [socket.create_connection(("127.0.0.1", service.port)) for _ in range(64)]
    settled_health(port, 6)
    status, body = page(port, "/service/health")
    health = json.loads(body)
    versions = {"policyVersion": 1, "roleVersion": 6, "tagVersion": 1}
    judge("health", (status, health.pop("secondsSinceStart") < 60, health.pop("serial") > 1, health),
          (200, True, True, {"droppedSinks": 0, "epoch": epoch_of(SCRIPT, b""), "keptCommands": 5, "serving": True, "stopped": None, **versions}))
    judge("the order of its members", list(json.loads(body)), sorted(json.loads(body)))
    found = metrics_of(port)
    wanted = {
        'rangerd_answers_total{status="200"}': 7, 'rangerd_answers_total{status="400"}': 1, 'rangerd_decisions_total{access="DENIED"}': 2, "rangerd_kept_commands": 5,
        "rangerd_serving": 1, "rangerd_stopped": 0, "rangerd_dropped_sinks": 0, "rangerd_policy_version": 1, "rangerd_role_version": 6, "rangerd_tag_version": 1,
    }
    judge("metrics", {key: found.get(key) for key in wanted}, wanted)
    judge("publications", found["rangerd_publications"] > 1, True)
    judge("refusals", sum(value for key, value in found.items() if key.startswith("rangerd_refusals_total")), 1)
    judge("other pages", [page(port, path)[0] for path in ("/", "/service/decide/hive1", "/service/health?x")], [404, 404, 404])
    for it in silent:
        it.close()
    service.kill()
    service = Service(folder / "watched.db", pages=port)
    health = health_of(port)
    first = first_record_of(service, folder / "watched.db")
    judge("health of the next start", {key: health[key] for key in ("keptCommands", "epoch", *versions)}, {"keptCommands": 5, "epoch": epoch_of(SCRIPT, first), **versions})
    service.kill()
    judge("the epoch of one start more", epoch_at(folder / "watched.db", SCRIPT, port), health["epoch"])
    judge("a comment plays no part in it", epoch_at(folder / "watched.db", "# other\n\n" + SCRIPT, port), health["epoch"])
    other = SCRIPT.replace('"root"', '"root", "eve"')
    judge("the epoch of another configuration", epoch_at(folder / "watched.db", other, port), epoch_of(other, first))
    judge("the epoch of another file", epoch_at(folder / "watched_too.db", SCRIPT, port), epoch_of(SCRIPT, b""))
    judge("all of them differ", len({epoch_of(SCRIPT, b""), epoch_of(SCRIPT, first), epoch_of(other, first)}), 3)
    with socket.create_server(("127.0.0.1", 0)) as taken:
        ran = subprocess.run([PROGRAM, str(folder / "watched.db"), "127.0.0.1:0", "--metrics", f"127.0.0.1:{taken.getsockname()[1]}"], input=SCRIPT.encode(), capture_output=True, timeout=60, check=False)
    judge("a taken address of the pages", (ran.returncode, ran.stdout), (5, b""))


class Maker(threading.Thread):
    """Makes one role after another. `made` of them were answered."""

    def __init__(self, port):
        super().__init__(daemon=True)
        self.port, self.made = port, 0

    def run(self):
        link = Link(self.port)
        with contextlib.suppress(OSError, http.client.HTTPException, ValueError):
            while link.ask("POST", f"{API}/roles", {"name": f"r{self.made}", "users": []})[0] == 200:
                self.made += 1


def copied(folder):
    """The copy of a service that goes on, by tools/back_up_kept.py."""
    service = Service(folder / "copied.db")
    pid, maker = service.process.pid, Maker(service.port)
    maker.start()
    time.sleep(.5)
    before = maker.made
    judge("a copy", backed_up(pid, folder / "copied.db", folder / "copy.db"), 0)
    behind = maker.made
    time.sleep(.2)
    judge("it goes on behind the copy", maker.made > behind, True)
    judge("a copy that is there already", backed_up(pid, folder / "copied.db", folder / "copy.db"), 1)
    judge("a process that doesn't have the file", backed_up(os.getpid(), folder / "copied.db", folder / "other.db"), 1)
    judge("a folder that isn't there", backed_up(pid, folder / "copied.db", folder / "none" / "copy.db"), 1)
    judge("it goes on behind those", service.link().ask("GET", f"{API}/policies/hive1")[0], 200)
    service.kill()
    maker.join()
    service = Service(folder / "copy.db")
    found = {it["name"] for it in service.link().ask("GET", PARTS["roles"])[1]["whole"]["roles"]}
    judge("what the copy has", found, {f"r{number}" for number in range(len(found))})
    judge("each of them that was answered before it, and none that was asked later", before <= len(found) <= behind + 1, True)
    service.kill()


def filled(folder):
    """A file system that fills up."""
    small = folder / "small"
    small.mkdir()
    if os.geteuid() or subprocess.run(["mount", "-t", "tmpfs", "-o", "size=400k", "none", str(small)], capture_output=True).returncode:
        print("no file system of its own can be mounted: a full one isn't tried")
        return
    try:
        service = Service(small / "kept.db", pages=free_port())
        link, names, refusal = service.link(), [], None
        for number in range(5000):
            try:
                status, answer = link.ask("POST", f"{API}/roles", {"name": f"r{number}", "users": [f"user{number}" * 20]})
            except http.client.HTTPException as fault:
                refusal = repr(fault)
                break
            if status != 200:
                refusal = (status, answer)
                break
            names.append(f"r{number}")
        judge("a change where the disk is full", refusal, (503, {"error": "keeper"}))
        link = service.link()
        judge("another change", link.ask("POST", f"{API}/roles", {"name": "more", "users": []}), (503, {"error": "keeper"}))
        link = service.link()
        request = {"user": "ann", "resource": {"elements": {"database": "sales"}}, "accessType": "select"}
        judge("a decision then", link.ask("POST", "/service/decide/hive1", request)[0], 200)
        roles = [it["name"] for it in link.ask("GET", PARTS["roles"])[1]["whole"]["roles"]]
        judge("what is seen then", sorted(roles), sorted(names))
        judge("what health says then", json.loads(page(service.pages, "/service/health")[1])["stopped"], "keeper")
        service.kill()
        for part in ("kept.db", "kept.db-wal"):
            if (small / part).exists():
                shutil.copy(small / part, folder / part.replace("kept", "full"))
        service = Service(folder / "full.db")
        again = [it["name"] for it in service.link().ask("GET", PARTS["roles"])[1]["whole"]["roles"]]
        judge("what is there again", sorted(set(names) - set(again)), [])
        judge("and at most one more", len(again) - len(names) in (0, 1), True)
        service.kill()
        print(f"a file system of 400 KiB was full after {len(names)} changes")
    finally:
        subprocess.run(["umount", str(small)], check=False)


if not can_listen():
    print("kept_service: nothing is run, since nothing can listen here")
    sys.exit()
with tempfile.TemporaryDirectory() as room:
    room = pathlib.Path(room)
    refused(room)
    watched(room)
    dropped(room)
    copied(room)
    filled(room)
    killed(room)
print(f"kept_service: {len(PASSED)} as wanted, {len(FAILED)} not")
sys.exit(bool(FAILED))
