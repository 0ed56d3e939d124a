#!/usr/bin/env python3
"""How long rangerd-plugin takes: bench/plugins.py [--policies N] [--plugins N] [--period SECONDS] [--program P] [--plugin Q] [--viewer R]

Over an administration of so many policies: the start without a cache and with one, until it listens; the processor time of rounds that find
nothing new and of rounds that find one policy changed; how soon a change is decided by, with a round each second; how many decisions it answers a
second, alone and while one policy changes each second, over four connections that stay open, each with 50 requests on the way; how long the
administration takes for each question that finds nothing new, one after another; and so many plugins that ask each so many seconds, as this script
plays them for a minute."""
import asyncio
import argparse
import http.client
import json
import multiprocessing
import os
import pathlib
import random
import re
import socket
import subprocess
import sys
import tempfile
import threading
import time

TOP = pathlib.Path(__file__).resolve().parent.parent
sys.path.insert(0, str(TOP / "checks"))
from viewing import CONFIG, ask, port_of  # noqa: E402

API = "/service/public/v2/api"
TICK = os.sysconf("SC_CLK_TCK")


def policy(number, user):
    item = {"users": [user], "accesses": [{"type": "select"}]}
    resources = {"database": {"values": [f"d{number}"]}, "table": {"values": ["*"]}}
    return {"service": "hive1", "name": f"p{number}", "resources": resources, "policyItems": [item]}


def processor_time(process):
    cells = pathlib.Path(f"/proc/{process.pid}/stat").read_text().rsplit(")", 1)[1].split()
    return (int(cells[11]) + int(cells[12])) / TICK


def peak(process):
    return int(re.search(r"VmHWM:\s+(\d+)", pathlib.Path(f"/proc/{process.pid}/status").read_text())[1]) // 1024


def started(given, port, cache, seconds):
    """A plugin that listens, where, and how long that took."""
    begun = time.perf_counter()
    process = subprocess.Popen([given.plugin, f"127.0.0.1:{port}", "hive1", str(cache), "127.0.0.1:0", str(seconds)], stdin=subprocess.DEVNULL)
    listens = port_of(process)
    return process, listens, time.perf_counter() - begun


def health(port):
    link = http.client.HTTPConnection("127.0.0.1", port, timeout=60)
    link.request("GET", "/service/plugin/health")
    return json.loads(link.getresponse().read())


def arrival(given, port, listens, number):
    """The seconds from the answer to a change until it is decided by."""
    link = http.client.HTTPConnection("127.0.0.1", port, timeout=60)
    body = {**policy(number, f"u{time.time_ns()}"), "id": number}
    ask(link, "PUT", f"{API}/policy/{number}", body)
    begun, wanted = time.perf_counter(), versions(port)["policies"]
    while health(listens)["policyVersion"] < wanted:
        time.sleep(.005)
    return time.perf_counter() - begun


ROUTES = {"policies": "/service/plugins/policies/download/hive1", "tags": "/service/tags/download/hive1", "roles": "/service/roles/download/hive1"}


def versions(port):
    """The versions that the administration has, by a view of it."""
    ran = subprocess.run([VIEWER, f"127.0.0.1:{port}", "hive1", "root"], capture_output=True, text=True, check=True)
    facts = json.loads(ran.stdout.removeprefix("facts "))
    return {"policies": facts["policyVersion"], "tags": facts["tagVersion"], "roles": facts["roleVersion"]}


def question(part, known):
    return f"GET {ROUTES[part]}?lastKnownVersion={known[part]} HTTP/1.1\r\nx-user: root\r\n\r\n".encode()


def milliseconds_a_question(port, known, times=50):
    """How long the administration takes for a question of each part that finds nothing new."""
    took = {}
    with socket.create_connection(("127.0.0.1", port)) as link:
        link.setsockopt(socket.IPPROTO_TCP, socket.TCP_NODELAY, 1)
        for part in ROUTES:
            begun = time.perf_counter()
            for _ in range(times):
                link.sendall(question(part, known))
                answer = link.recv(65536)
                if not answer.startswith(b"HTTP/1.1 304"):
                    sys.exit(f"{part} are answered by {answer[:20]}")
            took[part] = (time.perf_counter() - begun) / times * 1000
    return took


async def play(port, known, period, end, took):
    """A plugin that asks each so many seconds and finds nothing new."""
    loop = asyncio.get_running_loop()
    await asyncio.sleep(random.random() * period)
    while loop.time() < end:
        begun = loop.time()
        read, write = await asyncio.open_connection("127.0.0.1", port)
        for part in ROUTES:
            write.write(question(part, known))
            if not (await read.readuntil(b"\r\n\r\n")).startswith(b"HTTP/1.1 304"):
                sys.exit("a part isn't answered by 304")
        write.close()
        took.append(loop.time() - begun)
        await asyncio.sleep(max(0, begun + period - loop.time()))


async def play_all(port, plugins, period, seconds):
    known, took = versions(port), []
    end = asyncio.get_running_loop().time() + seconds
    await asyncio.gather(*(play(port, known, period, end, took) for _ in range(plugins)))
    return sorted(took)


def decide_for(port, seconds, counts):
    body = json.dumps({"user": "ann", "resource": {"elements": {"database": "d7", "table": "t"}}, "accessType": "select", "accessTime": 0})
    one = f"POST /service/decide/hive1 HTTP/1.1\r\nContent-Length: {len(body)}\r\nx-user: root\r\n\r\n{body}".encode()
    batch, done, end = one * 50, 0, time.perf_counter() + seconds
    with socket.create_connection(("127.0.0.1", port)) as link:
        left = 10_000
        while time.perf_counter() < end:
            if left < 50:
                link = socket.create_connection(("127.0.0.1", port))
                left = 10_000
            link.sendall(batch)
            answers = b""
            # (each body ends with the only such character of its answer)
            while answers.count(b"}") < 50:
                piece = link.recv(1 << 20)
                if not piece:
                    sys.exit("the plugin closed a connection")
                answers += piece
            if answers.count(b"HTTP/1.1 200 OK\r\n") != 50:
                sys.exit("a request isn't answered by a decision")
            done, left = done + 50, left - 50
    counts.put(done)


def decisions_a_second(port, seconds=5, processes=4):
    counts = multiprocessing.Queue()
    running = [multiprocessing.Process(target=decide_for, args=(port, seconds, counts)) for _ in range(processes)]
    for it in running:
        it.start()
    total = sum(counts.get() for _ in running)
    for it in running:
        it.join()
    return total / seconds


def spent(process, seconds, beside=lambda: None):
    """The processor seconds that a process takes a second."""
    begun, time_then = time.perf_counter(), processor_time(process)
    while time.perf_counter() < begun + seconds:
        beside()
        time.sleep(1)
    return (processor_time(process) - time_then) / (time.perf_counter() - begun)


def main():
    global VIEWER
    words = argparse.ArgumentParser()
    words.add_argument("--policies", type=int, default=5000)
    words.add_argument("--plugins", type=int, default=1000)
    words.add_argument("--period", type=int, default=30)
    words.add_argument("--program", default=str(TOP / "crates/rangerd/out/rangerd"))
    words.add_argument("--plugin", default=str(TOP / "crates/rangerd_plugin/out/rangerd_plugin"))
    words.add_argument("--viewer", default=str(TOP / "crates/rangerd_view/out/rangerd_view"))
    given = words.parse_args()
    VIEWER = given.viewer
    served = subprocess.Popen([given.program, "serve", "127.0.0.1:0", "1000000"], stdin=subprocess.PIPE, stdout=subprocess.DEVNULL, text=True)
    plugins = []
    try:
        with tempfile.TemporaryDirectory() as folder:
            run(given, served, pathlib.Path(folder) / "cache", plugins)
    finally:
        for it in [served, *plugins]:
            it.kill()


def run(given, served, cache, plugins):
    lines = ["config " + json.dumps(CONFIG)]
    lines += ["admin root " + json.dumps({"command": "createPolicy", "policy": policy(number, "ann")}) for number in range(1, given.policies + 1)]
    served.stdin.write("\n".join(lines) + "\n")
    served.stdin.close()
    port = port_of(served)
    process, listens, cold = started(given, port, cache, 1)
    plugins.append(process)
    time.sleep(3)
    size = cache.stat().st_size
    idle = spent(process, 20)
    numbers = iter(range(1, given.policies + 1))

    def change():
        # (a connection that was silent for half a minute is closed)
        link = http.client.HTTPConnection("127.0.0.1", port, timeout=60)
        number = next(numbers)
        ask(link, "PUT", f"{API}/policy/{number}", {**policy(number, "bob"), "id": number})
        link.close()

    busy = spent(process, 20, change)
    arrivals = sorted(arrival(given, port, listens, number) for number in range(1, 12))
    high = peak(process)
    process.kill()
    process.wait()
    process, listens, warm = started(given, port, cache, 1)
    plugins.append(process)
    print(f"{given.policies} policies: it listens after {cold:.2f} s without a cache and {warm:.2f} s with one of {size / 1e6:.1f} MB; peak {high} MB")
    print(f"a round without news takes {idle * 1000:.1f} ms of processor time, one with one policy changed {busy * 1000:.0f} ms")
    print(f"a change is decided by after {arrivals[len(arrivals) // 2]:.2f} s in the middle, {arrivals[-1]:.2f} s at most, with a round each second")
    alone = decisions_a_second(listens)
    stop = threading.Event()

    def change_on():
        while not stop.wait(1):
            change()

    beside = threading.Thread(target=change_on)
    beside.start()
    print(f"it answers {alone:.0f} decisions a second, and {decisions_a_second(listens):.0f} while one policy changes each second")
    stop.set()
    beside.join()
    process.kill()
    took = milliseconds_a_question(port, versions(port))
    print("a question that finds nothing new takes the administration " + ", ".join(f"{took[part]:.2f} ms for {part}" for part in took))
    before = processor_time(served)
    rounds = asyncio.run(play_all(port, given.plugins, given.period, 60))
    share = (processor_time(served) - before) / 60
    print(f"{given.plugins} plugins that ask each {given.period} s: {len(rounds) / 60:.0f} rounds a second, half within {rounds[len(rounds) // 2] * 1000:.0f} ms, "
          f"99 of 100 within {rounds[len(rounds) * 99 // 100] * 1000:.0f} ms, {share * 100:.0f} % of a processor")


if __name__ == "__main__":
    main()
