#!/usr/bin/env python3
"""Three plugins that follow an administration which changes: checks/fleet.py [--seed N] [--seconds N] [--program P] [--plugin Q].

An administrator changes policies, tags, roles, zones and definitions of `rangerd serve` 50 times a second by HTTP, while three rangerd-plugin follow
it, each second. Beside them clients ask each plugin for decisions without end, and a plugin is killed now and then and begins anew from what it
kept. The same commands in a script of `rangerd replay`, each with a whole download behind it, tell what a plugin may see after each entry. Each
decision has to be that of one of these moments, within one run of a plugin of none before an earlier one; and soon after the last change all of them
have its versions. Then the administration is killed, the plugins go on, and begin anew without it. It is no part of the gate, since it takes a minute
and a socket each."""
import argparse
import collections
import http.client
import json
import pathlib
import random
import subprocess
import sys
import tempfile
import threading
import time

from viewing import CONFIG, TOP, USERS, Changes, ask, moments, port_of

VERSIONS = ("policyVersion", "tagVersion", "roleVersion")
PLUGINS = 3
REQUESTS = [
    json.dumps({"user": user, "accessType": access, "accessTime": 0, "resource": {"elements": {"database": database, "table": table}}})
    for user in USERS for access in ("select", "update") for database in ("sales", "hr", "fin1", "lab") for table in ("orders", "staff")
]


class Plugin:
    """A plugin, its runs one after another, and what it decided in each."""

    def __init__(self, given, folder, number, administration):
        self.given, self.cache, self.administration = given, folder / f"cache{number}", administration
        self.audit, self.runs, self.lock = folder / f"audit{number}", [], threading.Lock()
        self.refused = []

    def begin(self):
        words = [self.given.plugin, f"127.0.0.1:{self.administration}", "hive1", str(self.cache), "127.0.0.1:0", "1", str(self.audit)]
        with self.lock:
            self.process = subprocess.Popen(words, stdin=subprocess.DEVNULL)
            self.port = port_of(self.process)
            self.runs.append([])

    def kill(self):
        with self.lock:
            self.process.kill()
            self.process.wait()

    def decide(self, chance, link):
        request = chance.choice(REQUESTS)
        status, body = ask(link, "POST", "/service/decide/hive1", json.loads(request))
        if status != 200:
            self.refused.append(f"a decision is answered by {status}: {body}")
            return None
        return request, json.loads(body)

    def health(self):
        link = http.client.HTTPConnection("127.0.0.1", self.port, timeout=60)
        link.request("GET", "/service/plugin/health")
        reply = link.getresponse()
        return json.loads(reply.read())


def ask_without_end(plugin, seed, over):
    """Asks a plugin for decisions; whoever kills it begins it anew."""
    chance = random.Random(seed)
    while not over.is_set():
        run, link = plugin.runs[-1], http.client.HTTPConnection("127.0.0.1", plugin.port, timeout=60)
        try:
            while not over.is_set():
                if decided := plugin.decide(chance, link):
                    run.append(decided)
                time.sleep(.002)
        except (OSError, http.client.HTTPException):
            time.sleep(.05)  # it was killed
        link.close()


def kill_now_and_then(plugins, chance, over):
    while not over.wait(chance.uniform(2, 6)):
        plugin = chance.choice(plugins)
        if plugin.cache.exists():
            plugin.kill()
            plugin.begin()


def change(given, port, commands, over):
    link, changes = http.client.HTTPConnection("127.0.0.1", port, timeout=60), Changes(given.seed)
    while not over.is_set():
        method, path, body, command = changes.next()
        ask(link, method, path, body)
        commands.append(command)
        time.sleep(.02)
    link.close()


def versions_of(told):
    return tuple(told[key] for key in VERSIONS)


class Moments:
    """What a plugin may see after each entry, and what is decided by it."""

    def __init__(self, given, commands):
        self.given, self.facts, self.known = given, moments(given.program, commands), {}
        self.places = collections.defaultdict(list)
        for number, facts in enumerate(self.facts):
            self.places[versions_of(facts)[:2]].append(number)

    def decisions(self, number):
        """The decisions of all requests by this moment, by `rangerd replay`."""
        if number not in self.known:
            script = ["facts " + json.dumps(self.facts[number])] + ["decide " + it for it in REQUESTS]
            ran = subprocess.run([self.given.program, "replay"], input="\n".join(script) + "\n", capture_output=True, text=True, check=True)
            self.known[number] = dict(zip(REQUESTS, map(json.loads, ran.stdout.splitlines())))
        return self.known[number]

    def place(self, request, told, last):
        """The first moment from this one on that decides so; None where there is none. A decision tells no version of the roles."""
        for number in self.places[told["policyVersion"], told["tagVersion"]]:
            if number >= last and self.decisions(number)[request] == {**told, "serial": 1}:
                return number
        return None


def compare(given, commands, plugins):
    """How many decisions there were, and at how many moments."""
    places, count = Moments(given, commands), 0
    for plugin in plugins:
        for run in plugin.runs:
            last = serial = 0
            for request, told in run:
                at = places.place(request, told, last)
                if at is None or told["serial"] < serial:
                    sys.exit(f"seed {given.seed}: after moment {last} {request} is decided as {told}, which is that of no moment from there on")
                last, serial, count = at, told["serial"], count + 1
    return count, len(places.known)


def await_all(given, plugins, wanted, what):
    """Waits until this holds of the health of all plugins."""
    for _ in range(100):
        told = [it.health() for it in plugins]
        if all(map(wanted, told)):
            return told
        time.sleep(.1)
    sys.exit(f"seed {given.seed}: {what}: {told}")


def main():
    words = argparse.ArgumentParser()
    words.add_argument("--seed", type=int, default=int(time.strftime("%Y%m%d")))
    words.add_argument("--seconds", type=int, default=60)
    words.add_argument("--program", default=str(TOP / "crates/rangerd/out/rangerd"))
    words.add_argument("--plugin", default=str(TOP / "crates/rangerd_plugin/out/rangerd_plugin"))
    given = words.parse_args()
    served = subprocess.Popen([given.program, "serve", "127.0.0.1:0", "1000000"], stdin=subprocess.PIPE, stdout=subprocess.PIPE, text=True)
    plugins = []
    try:
        with tempfile.TemporaryDirectory() as folder:
            run(given, served, pathlib.Path(folder), plugins)
    finally:
        served.kill()
        for plugin in plugins:
            plugin.process.kill()


def run(given, served, folder, plugins):
    served.stdin.write("config " + json.dumps(CONFIG) + "\n")
    served.stdin.close()
    port, commands, chance = port_of(served), [], random.Random(given.seed)
    plugins += [Plugin(given, folder, number, port) for number in range(PLUGINS)]
    for plugin in plugins:
        plugin.begin()
    changed, over = threading.Event(), threading.Event()
    changing = threading.Thread(target=change, args=(given, port, commands, changed))
    beside = [threading.Thread(target=ask_without_end, args=(it, given.seed + k, over)) for k, it in enumerate(plugins)]
    beside.append(threading.Thread(target=kill_now_and_then, args=(plugins, chance, over)))
    for thread in [changing, *beside]:
        thread.start()
    time.sleep(given.seconds)
    changed.set()
    changing.join()
    time.sleep(3)
    over.set()
    for thread in beside:
        thread.join()
    last = versions_of(moments(given.program, commands)[-1])
    await_all(given, plugins, lambda it: versions_of(it) == last and it["fault"] is None, f"the plugins don't come to {last}")
    served.kill()
    await_all(given, plugins, lambda it: versions_of(it) == last and it["fault"] == "connection", "the plugins don't tell that the administration is away")
    for plugin in plugins:
        plugin.kill()
        plugin.begin()
    await_all(given, plugins, lambda it: versions_of(it) == last, "the plugins don't begin by what they kept")
    for plugin in plugins:
        link = http.client.HTTPConnection("127.0.0.1", plugin.port, timeout=60)
        plugin.runs[-1] += filter(None, [plugin.decide(chance, link) for _ in range(50)])
        link.close()
        if plugin.refused:
            sys.exit(f"seed {given.seed}: {plugin.refused[0]}")
    asked, at = compare(given, commands, plugins)
    runs = sum(len(it.runs) for it in plugins)
    print(f"{asked} decisions of {PLUGINS} plugins in {runs} runs, at {at} of {len(commands) + 1} moments; seed {given.seed}")


if __name__ == "__main__":
    main()
