#!/usr/bin/env python3
"""Many clients at once against the command `serve`: checks/serve.py PROGRAM [SECONDS] [CLIENTS].

Half of the clients change policies of their own, the other half ask for decisions. Each checks what it is answered: a version that it
kept is one more than the last, what it gets is what it stored, and on one connection neither the serial nor the policy version of
decisions falls. In the end the policies that are there are those that the answers to changes tell, the version of the service counts
all accepted changes, and the totals add up. It is no part of the gate, since it takes time and a socket."""
import http.client, json, random, re, sys, threading, time

from started import start

PROGRAM = sys.argv[1]
SECONDS = float(sys.argv[2]) if len(sys.argv) > 2 else 30
CLIENTS = int(sys.argv[3]) if len(sys.argv) > 3 else 20
ROUNDS = 10  # connections of each client, since one takes 10,000 messages at most
MESSAGES = 9000
API = "/service/public/v2/api"
DEF = {"name": "hive", "resources": [{"name": "database"}], "accessTypes": [{"name": "select"}, {"name": "update"}]}
CONFIG = {"admins": ["root"], "plugin": "hive1", "serviceDefs": [DEF], "services": [{"name": "hive1", "type": "hive"}]}


def policy(name, database, user):
    item = {"users": [user], "accesses": [{"type": "select"}]}
    return {"service": "hive1", "name": name, "resources": {"database": {"values": [database]}}, "policyItems": [item]}


class Client(threading.Thread):
    def __init__(self, number, port):
        super().__init__()
        self.number, self.port, self.faults, self.calls, self.decisions, self.changes = number, port, [], 0, 0, 0
        self.kept = {}  # what the answers tell of this client's policies, by id
        self.chance = random.Random(number)

    def ask(self, link, method, path, body=None):
        link.request(method, path, body and json.dumps(body), {"x-user": "root"})
        answer = link.getresponse()
        text = answer.read()
        return answer.status, json.loads(text) if text else None

    def want(self, is_so, what):
        if not is_so:
            self.faults.append(f"client {self.number}: {what}")

    def run(self):
        for _ in range(ROUNDS):
            link = http.client.HTTPConnection("127.0.0.1", self.port, timeout=60)
            end = time.time() + SECONDS / ROUNDS
            try:
                self.work(link, end)
            except Exception as error:  # a connection that ends is a fault too
                self.want(False, repr(error))
            link.close()

    def work(self, link, end):
        messages = 0
        while time.time() < end and messages < MESSAGES:
            messages += self.step(link)


class Changer(Client):
    def step(self, link):
        if not self.kept or self.chance.random() < 0.2:
            name = f"c{self.number}n{self.calls}"
            status, answer = self.ask(link, "POST", f"{API}/policy", policy(name, f"db{self.number}", "ann"))
            self.calls += 1
            self.want(status == 200 and answer["version"] == 1, f"created: {status} {answer}")
            if status == 200:
                self.kept[answer["id"]] = (name, 1, "ann")
                self.changes += 1
                self.rename(link, answer["id"], name)
            return 2
        identity = self.chance.choice(sorted(self.kept))
        name, version, user = self.kept[identity]
        kind = self.chance.random()
        if kind < 0.6:
            user = "ann" if user == "bob" else "bob"
            body = policy(name, f"db{self.number}x{identity}", user)
            status, answer = self.ask(link, "PUT", f"{API}/policy/{identity}", body)
            self.want(status == 200 and answer == {"id": identity, "version": version + 1}, f"updated: {status} {answer}")
            self.kept[identity] = (name, version + 1, user)
            self.changes += 1
        elif kind < 0.8:
            status, answer = self.ask(link, "GET", f"{API}/policy/{identity}")
            got = status == 200 and (answer["name"], answer["version"], answer["policyItems"][0]["users"][0])
            self.want(got == (name, version, user), f"got: {status} {answer}")
        elif kind < 0.9:
            status, answer = self.ask(link, "PUT", f"{API}/policy/{identity}", {"service": "none", "name": name})
            self.want(status == 404 and answer == {"rule": "E1"}, f"refused: {status} {answer}")
        else:
            status, answer = self.ask(link, "DELETE", f"{API}/policy/{identity}")
            self.want(status == 204, f"deleted: {status} {answer}")
            del self.kept[identity]
            self.changes += 1
        self.calls += 1
        return 1

    def rename(self, link, identity, name):
        """No two policies may have the same resources: the id makes them distinct."""
        status, answer = self.ask(link, "PUT", f"{API}/policy/{identity}", policy(name, f"db{self.number}x{identity}", "ann"))
        self.calls += 1
        self.want(status == 200 and answer["version"] == 2, f"renamed: {status} {answer}")
        self.kept[identity] = (name, 2, "ann")
        self.changes += 1


class Decider(Client):
    def work(self, link, end):
        self.serial = self.version = 0
        super().work(link, end)

    def step(self, link):
        database = f"db{self.chance.randrange(CLIENTS)}x{self.chance.randrange(50)}"
        body = {"user": self.chance.choice(["ann", "bob"]), "resource": {"elements": {"database": database}}, "accessType": "select"}
        status, answer = self.ask(link, "POST", "/service/decide/hive1", body)
        self.decisions += 1
        self.want(status == 200 and answer["access"] in ("ALLOWED", "DENIED"), f"decided: {status} {answer}")
        self.want(self.serial <= answer["serial"] and self.version <= answer["policyVersion"], f"fell: {answer}")
        self.serial, self.version = answer["serial"], answer["policyVersion"]
        return 1


def last_client(port, clients, faults):
    """One more connection, when nobody else changes anything."""
    link = http.client.HTTPConnection("127.0.0.1", port, timeout=60)
    one = Client(CLIENTS, port)
    _, listed = one.ask(link, "GET", f"{API}/policies/hive1")
    there = {p["id"]: (p["name"], p["version"], p["policyItems"][0]["users"][0]) for p in listed}
    wanted = {identity: kept for c in clients for identity, kept in c.kept.items()}
    if there != wanted:
        faults.append(f"the policies aren't those of the answers: {len(there)} there, {len(wanted)} wanted")
    _, part = one.ask(link, "GET", "/service/plugins/policies/download/hive1")
    changes = sum(c.changes for c in clients)
    if part["whole"]["version"] != 1 + changes:
        faults.append(f"version {part['whole']['version']} after {changes} changes")
    decisions, end = 0, time.time() + 10
    while time.time() < end:
        body = {"user": "ann", "resource": {"elements": {"database": "none"}}, "accessType": "select"}
        _, answer = one.ask(link, "POST", "/service/decide/hive1", body)
        decisions += 1
        if answer["policyVersion"] == 1 + changes:
            break
    else:
        faults.append("ten seconds after the last change no decision was by it")
    link.close()
    return 2, decisions


def main():
    links = CLIENTS * ROUNDS + 1
    server, port = start(PROGRAM, CONFIG, links)
    clients = [(Changer if n % 2 == 0 else Decider)(n, port) for n in range(CLIENTS)]
    for client in clients:
        client.start()
    for client in clients:
        client.join()
    faults = [fault for client in clients for fault in client.faults]
    calls, decisions = last_client(port, clients, faults)
    calls += sum(c.calls for c in clients)
    decisions += sum(c.decisions for c in clients)
    printed = server.stdout.read()
    status = server.wait(timeout=60)
    found = re.fullmatch(r"links=(\d+) entries=(\d+) publications=(\d+) decisions=(\d+)\n", printed)
    if status != 0 or not found:
        faults.append(f"status {status}, printed {printed!r}")
    else:
        a, e, p, d = map(int, found.groups())
        refreshes = e - calls
        if a != links or d != decisions or refreshes < 2 or not 1 <= p <= refreshes + 1:
            faults.append(f"{printed.strip()} after {links} links, {calls} calls, {decisions} decisions")
    for fault in faults[:20]:
        print(fault)
    print(f"calls={calls} decisions={decisions} changes={sum(c.changes for c in clients)} {printed.strip()}: {len(faults)} faults")
    return 1 if faults else 0


sys.exit(main())
