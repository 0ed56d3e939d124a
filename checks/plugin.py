#!/usr/bin/env python3
"""Runs rangerd-plugin beside an administration of this script: checks/plugin.py [PLUGIN [PROGRAM]]      (the built ones where not given)

Each case has a plugin of its own, which is answered by replies chosen by hand, as in checks/rounds.py: changes between the questions, deltas that
don't fit, replies that don't read, facts that break a rule, nobody. What it decides is compared with `rangerd replay` over the facts of that moment,
and its health, its cache, the questions that it asks and its audit lines with what docs/PLUGIN.md says. Caches that are cut at each byte, and what
can't be begun with, end it. Where nothing can listen nothing is run."""
import concurrent.futures
import http.client
import json
import pathlib
import socket
import subprocess
import sys
import tempfile
import threading
import time

from rounds import PARTS, TOP, can_listen, compact, download, line_of, policy, replies, reply
from viewing import port_of

PLUGIN = sys.argv[1] if len(sys.argv) > 1 else str(TOP / "crates/rangerd_plugin/out/rangerd_plugin")
PROGRAM = sys.argv[2] if len(sys.argv) > 2 else str(TOP / "crates/rangerd/out/rangerd")
UNCHANGED = ["304 "] * 3
ROUTES = ("/service/plugins/policies/download/", "/service/tags/download/", "/service/roles/download/")
REQUESTS = [
    {"user": user, "accessType": "select", "accessTime": 0, "resource": {"elements": {"database": database}}}
    for user in ("ann", "bob", "cyd") for database in ("sales", "hr", "eu_1")
]
PASSED, FAILED = [], []


def judge(name, got, wanted):
    if got == wanted:
        PASSED.append(name)
    else:
        FAILED.append(name)
        print(f"{name}: not as wanted: {str(got)[:300]}; wanted is {str(wanted)[:300]}")


def awaited(get, holds):
    """What is got, once this holds of it, or eight seconds later."""
    for _ in range(160):
        got = get()
        if holds(got):
            break
        time.sleep(.05)
    return got


class Administration:
    """Answers the connections that come, each by the next round's replies, and behind the last ones by nothing new. None answers nothing."""

    def __init__(self, rounds):
        self.rounds, self.targets, self.lock = list(rounds), [], threading.Lock()
        self.listener = socket.create_server(("127.0.0.1", 0))
        self.port = self.listener.getsockname()[1]
        threading.Thread(target=self.serve, daemon=True).start()

    def serve(self):
        while True:
            try:
                connection, _ = self.listener.accept()
            except OSError:
                return
            with self.lock:
                cells = self.rounds.pop(0) if self.rounds else UNCHANGED
            threading.Thread(target=self.answer, args=(connection, cells or []), daemon=True).start()

    def answer(self, connection, cells):
        try:
            self.reply_all(connection, cells)
        except OSError:
            pass  # it doesn't wait for what it doesn't read

    def reply_all(self, connection, cells):
        got = b""
        with connection:
            for cell in cells:
                while b"\r\n\r\n" not in got:
                    piece = connection.recv(65536)
                    if not piece:
                        return
                    got += piece
                head, got = got.split(b"\r\n\r\n", 1)
                self.targets.append(head.split(b" ")[1].decode())
                connection.sendall(reply(cell) if isinstance(cell, str) else cell)

    def last_questions(self):
        """The last three, where each round so far was answered whole."""
        end = len(self.targets) // 3 * 3
        return self.targets[end - 3:end]

    def add(self, *rounds):
        with self.lock:
            self.rounds += rounds

    def end(self):
        # A thread in accept keeps the port: a connection of our own wakes it.
        self.listener.close()
        try:
            socket.create_connection(("127.0.0.1", self.port), timeout=1).close()
        except OSError:
            pass


class Plugin:
    """A plugin with a folder of its own."""

    def __init__(self, administration, kept=None, service="hive1"):
        self.folder = pathlib.Path(tempfile.mkdtemp(dir=ROOM))
        self.cache, self.audit = self.folder / "cache", self.folder / "audit"
        if kept is not None:
            self.cache.write_bytes(kept)
        port = administration.port if administration else nobody()
        words = [PLUGIN, f"127.0.0.1:{port}", service, str(self.cache), "127.0.0.1:0", "1", str(self.audit)]
        self.process = subprocess.Popen(words, stdin=subprocess.DEVNULL)
        self.port = port_of(self.process)

    def ask(self, method, target, body=None, user="gateway"):
        link = http.client.HTTPConnection("127.0.0.1", self.port, timeout=30)
        link.request(method, target, body if body is None or isinstance(body, str) else json.dumps(body), {"x-user": user} if user else {})
        answer = link.getresponse()
        text = answer.read().decode()
        link.close()
        return answer.status, text

    def health(self):
        return json.loads(self.ask("GET", "/service/plugin/health", user=None)[1])

    def await_health(self, **wanted):
        """Its health, once it is so."""
        told = awaited(self.health, lambda told: all(told[key] == value for key, value in wanted.items()))
        return {key: told[key] for key in wanted}

    def await_cache(self, wanted):
        """What is kept, once it is so: it publishes first."""
        return awaited(lambda: self.cache.exists() and self.cache.read_bytes(), lambda kept: kept == wanted)

    def await_audit(self, count):
        """So many audit lines, which may come behind their answers, and in another order."""
        return [json.loads(it) for it in awaited(lambda: self.audit.read_text().splitlines(), lambda lines: len(lines) >= count)]

    def decisions(self):
        return [json.loads(self.ask("POST", "/service/decide/hive1", request)[1]) for request in REQUESTS]

    def end(self):
        self.process.kill()
        self.process.wait()


def nobody():
    """A port at which nobody listens."""
    with socket.create_server(("127.0.0.1", 0)) as listener:
        return listener.getsockname()[1]


def versions_at(moment):
    whole = download(moment, {})
    return {part: whole[part]["whole"]["version"] for part in PARTS}


def health_at(moment, **more):
    known = versions_at(moment)
    return {"policyVersion": known["policies"], "tagVersion": known["tags"], "roleVersion": known["roles"], **more}


def decided_at(moment, serial):
    script = [line_of(moment)] + ["decide " + json.dumps(it) for it in REQUESTS]
    ran = subprocess.run([PROGRAM, "replay"], input="\n".join(script) + "\n", capture_output=True, text=True, check=True)
    return [{**json.loads(it), "serial": serial} for it in ran.stdout.splitlines()]


def kept_at(moment):
    return (line_of(moment).removeprefix("facts ") + "\n").encode()


def first_round(moment):
    return replies([(moment,) * 3] * 2)[0]


def later_round(had, *askings):
    return replies(askings, versions_at(had))[0]


def stands_at(name, plugin, moment, serial, fault=None):
    """The plugin decides by this moment, tells so, and has kept it."""
    wanted = health_at(moment, serial=serial, fault=fault)
    judge(f"{name}: health", plugin.await_health(**wanted), wanted)
    judge(f"{name}: decisions", plugin.decisions(), decided_at(moment, serial))
    if fault is None:
        judge(f"{name}: cache", plugin.await_cache(kept_at(moment)), kept_at(moment))


# ---- the cases, each with an administration and a plugin of its own

def follows():
    administration = Administration([first_round(3)])
    plugin = Plugin(administration)
    stands_at("begun", plugin, 3, 1)
    administration.add(later_round(3, (4, 4, 4), (4, 4, 4)))
    stands_at("a delta", plugin, 4, 2)
    administration.add(later_round(4, (4, 6, 6), (6, 6, 7), (7, 7, 7), (7, 7, 7)))
    stands_at("changes between the questions", plugin, 7, 3)
    known = versions_at(7)
    time.sleep(2.2)
    asked = [f"{route}hive1?lastKnownVersion={known[part]}" for part, route in zip(PARTS, ROUTES)]
    judge("the questions of a round without news", administration.last_questions(), asked)
    judge("a round without news publishes nothing", plugin.health()["serial"], 3)
    judge("it settled lately", plugin.health()["settledSecondsAgo"] in (0, 1, 2), True)
    administration.end()
    stands_at("the administration is away", plugin, 7, 3, "connection")
    plugin.end()


def answers():
    plugin = Plugin(Administration([first_round(3)]))
    stands_at("answers", plugin, 3, 1)
    judge("another service", plugin.ask("POST", "/service/decide/hive2", REQUESTS[0])[0], 404)
    judge("a call of the administration", plugin.ask("GET", "/service/public/v2/api/policy/1"), (404, '{"error":"path"}'))
    judge("a change of the administration", plugin.ask("POST", "/service/public/v2/api/policy", policy("x", "x", "ann"))[0], 404)
    judge("nobody asks", plugin.ask("POST", "/service/decide/hive1", REQUESTS[0], user=None)[0], 401)
    judge("no request", plugin.ask("POST", "/service/decide/hive1", "{")[0], 400)
    judge("another method", plugin.ask("GET", "/service/decide/hive1")[0], 405)
    judge("health by another method", plugin.ask("POST", "/service/plugin/health", "{}")[0], 404)
    judge("health with a query", plugin.ask("GET", "/service/plugin/health?a=b")[0], 404)
    judge("fields of health", sorted(plugin.health()), ["fault", "policyVersion", "roleVersion", "serial", "settledSecondsAgo", "tagVersion"])
    wanted = [(q["user"], d["access"], 1) for q, d in zip(REQUESTS, decided_at(3, 1)) if d["audited"]]
    told = [(it["reqUser"], it["result"], it["serial"]) for it in plugin.await_audit(len(wanted))]
    judge("audit lines", sorted(told), sorted(wanted))
    plugin.end()


def fails(name, cells, fault, moment=3):
    """A round with these replies fails for this cause, and the next one is as ever."""
    administration = Administration([first_round(moment)])
    plugin = Plugin(administration)
    stands_at(f"{name}, before", plugin, moment, 1)
    administration.add(*[cells] * 3)
    stands_at(name, plugin, moment, 1, fault)
    stands_at(f"{name}, behind", plugin, moment, 1)
    plugin.end()


def misfits():
    administration = Administration([first_round(3)])
    plugin = Plugin(administration)
    stands_at("before a delta that doesn't fit", plugin, 3, 1)
    known = versions_at(3)
    delta = {"delta": {"changes": [], "from": known["policies"] + 1, "to": known["policies"] + 2, "zones": None}}
    administration.add(["200 " + compact(delta), "304 ", "304 "], None, first_round(5))
    stands_at("behind a delta that doesn't fit", plugin, 5, 2)
    judge("it asks for all anew", [it for it in administration.targets if "?" not in it], [f"{it}hive1" for it in ROUTES] * 2)
    plugin.end()


def breaks_a_rule():
    administration = Administration([first_round(3)])
    plugin = Plugin(administration)
    stands_at("before unsound facts", plugin, 3, 1)
    whole = download(4, {})["policies"]["whole"]
    bad = {**whole, "policies": [{**whole["policies"][0], "resources": {"nowhere": {"values": ["x"], "isExcludes": False, "isRecursive": False}}}], "version": 9}
    administration.add(*[["200 " + compact({"whole": bad}), "304 ", "304 ", "304 ", "304 ", "304 "]] * 2)
    stands_at("unsound facts", plugin, 3, 1, "unsound")
    administration.add(later_round(3, (4, 4, 4), (4, 4, 4)))
    stands_at("behind unsound facts", plugin, 4, 2)
    plugin.end()


def begins_anew():
    """An administration that was started again has lower versions, and answers with everything."""
    administration = Administration([first_round(7)])
    plugin = Plugin(administration)
    stands_at("before it was started again", plugin, 7, 1)
    administration.add(first_round(1))
    stands_at("an administration that was started again", plugin, 1, 2)
    plugin.end()


def begins_by_its_cache():
    plugin = Plugin(None, kept_at(6))
    wanted = health_at(6, serial=1, settledSecondsAgo=None)
    judge("begun by the cache", plugin.await_health(**wanted), wanted)
    judge("decided by the cache", plugin.decisions(), decided_at(6, 1))
    judge("nobody is there", plugin.await_health(fault="connection", settledSecondsAgo=None), {"fault": "connection", "settledSecondsAgo": None})
    judge("the cache stays", plugin.await_cache(kept_at(6)), kept_at(6))
    plugin.end()
    administration = Administration([later_round(6, (7, 7, 7), (7, 7, 7))])
    plugin = Plugin(administration, kept_at(6))
    stands_at("it follows from its cache", plugin, 7, 2)
    plugin.end()
    for name, kept in [("a cache of another service", kept_at(6).replace(b'"service":"hive1"', b'"service":"hive9"')), ("a cache that is cut", kept_at(6)[:-1])]:
        administration = Administration([first_round(2)])
        plugin = Plugin(administration, kept)
        stands_at(name, plugin, 2, 1)
        plugin.end()


def loses_its_disk():
    administration = Administration([first_round(3)])
    plugin = Plugin(administration)
    stands_at("before the disk is lost", plugin, 3, 1)
    away = plugin.folder.with_suffix(".away")
    plugin.folder.rename(away)
    administration.add(later_round(3, (4, 4, 4), (4, 4, 4)))
    stands_at("the cache can't be written", plugin, 4, 2, "cache")
    away.rename(plugin.folder)
    stands_at("the cache can be written again", plugin, 4, 2)
    plugin.end()


def status_of(kept, address="127.0.0.1:0", audit=None):
    """How a plugin ends that finds nobody."""
    with tempfile.TemporaryDirectory(dir=ROOM) as folder:
        cache = pathlib.Path(folder) / "cache"
        if kept is not None:
            cache.write_bytes(kept)
        words = [PLUGIN, f"127.0.0.1:{nobody()}", "hive1", str(cache), address, "1"] + ([audit] if audit else [])
        ran = subprocess.run(words, capture_output=True, stdin=subprocess.DEVNULL, timeout=60)
    return ran.returncode, ran.stdout


def ends(name, wanted, *given, **more):
    judge(name, status_of(*given, **more), (wanted, b""))


def cuts():
    kept = kept_at(6)
    with concurrent.futures.ThreadPoolExecutor(4) as pool:
        for end, got in enumerate(pool.map(lambda end: status_of(kept[:end]), range(len(kept)))):
            judge(f"a cache cut at byte {end}", got, (5, b""))


def cannot_begin():
    kept = kept_at(6)
    ends("no cache, and nobody", 5, None)
    ends("two lines", 5, kept + kept)
    ends("another service's cache", 5, kept.replace(b'"service":"hive1"', b'"service":"hive9"'))
    ends("a cache that doesn't read", 5, kept.replace(b'"policyVersion":', b'"policyVersion":-'))
    ends("a cache that breaks a rule", 5, kept.replace(b'"resources":{"database":', b'"resources":{"nowhere":'))
    with socket.create_server(("127.0.0.1", 0)) as taken:
        ends("an address that is taken", 5, kept, address="127.0.0.1:%d" % taken.getsockname()[1])
    ends("a file of audit lines in no folder", 4, kept, audit="/nowhere/at/all")
    for words in ([], ["a", "b", "c", "d"], ["a", "b", "c", "d", "0"], ["a", "b", "c", "d", "86401"], ["a", "b c", "c", "d", "1"], ["a", "b", "c", "d", "+1"], ["a", "b", "c", "d", "1", "f", "g"]):
        ran = subprocess.run([PLUGIN, *words], capture_output=True, stdin=subprocess.DEVNULL)
        judge(f"the words {words}", (ran.returncode, ran.stdout), (1, b""))


def main():
    global ROOM
    quiet = later_round(3, (4, 4, 4), (4, 4, 4))
    cases = [
        follows, answers, misfits, breaks_a_rule, begins_anew, begins_by_its_cache, loses_its_disk, cannot_begin, cuts,
        lambda: fails("nobody answers", None, "reply"),
        lambda: fails("a reply that is cut", [reply(quiet[0])[:-1]], "reply"),
        lambda: fails("no reply", [b"hello\r\n\r\n"], "reply"),
        lambda: fails("503", ["503 "], "status"),
        lambda: fails("404 behind a delta", [quiet[0], "404 "], "status"),
        lambda: fails("a body that is no part", ["200 {}"], "body"),
        lambda: fails("a delta, and nothing more", quiet[:3], "reply"),
    ]
    with tempfile.TemporaryDirectory() as room, concurrent.futures.ThreadPoolExecutor(8) as pool:
        ROOM = room
        for case in [pool.submit(it) for it in cases]:
            case.result()
    print(f"plugin: {len(PASSED)} passed, {len(FAILED)} failed")
    sys.exit(bool(FAILED))


if __name__ == "__main__":
    if not pathlib.Path(PLUGIN).exists():
        print(f"plugin: left out, since {PLUGIN} isn't built")
    elif not can_listen():
        print("plugin: left out, since nothing can listen here")
    else:
        main()
