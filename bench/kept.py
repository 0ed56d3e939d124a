#!/usr/bin/env python3
"""Measures a service that keeps what it administers: bench/kept.py [SECONDS [RECORDS ..]]      (the built rangerd-kept)

Changes a second that are accepted, by 1, 8 and 64 clients, each a process with a connection of its own that puts users; beside them one client that
asks for decisions, with the time of the median and of the slowest of a hundred. Then how long a start takes over a file of so many records (10,000 and
100,000 where none are given), changes of 1,000 users, until it listens, and how much memory the process has then. The file lies in the folder for
temporary files, so TMPDIR chooses the disk."""
import contextlib
import json
import multiprocessing
import os
import pathlib
import socket
import sqlite3
import subprocess
import sys
import tempfile
import time

TOP = pathlib.Path(__file__).resolve().parent.parent
sys.path.insert(0, str(TOP / "checks"))
from viewing import port_of

PROGRAM = str(TOP / "crates/rangerd_kept/out/rangerd_kept")
SECONDS = float(sys.argv[1]) if len(sys.argv) > 1 else 3
RECORDS = [int(it) for it in sys.argv[2:]] or [10000, 100000]
DEF = {"name": "hive", "resources": [{"name": "database"}], "accessTypes": [{"name": "select"}]}
SCRIPT = "config " + json.dumps({"admins": ["root"], "plugin": "hive1", "serviceDefs": [DEF], "services": [{"name": "hive1", "type": "hive"}]}) + "\n"
REQUEST = json.dumps({"user": "ann", "resource": {"elements": {"database": "sales"}}, "accessType": "select"})
MESSAGES = 9000  # of a connection, which takes 10,000
USERS = 1000  # whom the records of a start are about, one after the other


def start(file):
    process = subprocess.Popen([PROGRAM, str(file), "127.0.0.1:0"], stdin=subprocess.PIPE, stdout=subprocess.DEVNULL)
    process.stdin.write(SCRIPT.encode())
    process.stdin.close()
    while True:
        try:
            return process, port_of(process)
        except SystemExit:  # it takes its records yet
            if process.poll() is not None:
                raise


def message(method, path, body):
    return f"{method} {path} HTTP/1.1\r\nx-user: root\r\nContent-Length: {len(body)}\r\n\r\n{body}".encode()


def received(link):
    piece = link.recv(65536)
    if not piece:
        sys.exit("the service has closed the connection")
    return piece


def ask(port, messages, begin):
    """Sends one message after another from then on, and gives the seconds that each answer took."""
    times, link, end = [], None, begin + SECONDS
    time.sleep(max(0, begin - time.perf_counter()))
    while time.perf_counter() < end:
        if link is None or len(times) % MESSAGES == 0:
            if link:
                link.close()
            link = socket.create_connection(("127.0.0.1", port))
            link.setsockopt(socket.IPPROTO_TCP, socket.TCP_NODELAY, 1)
        began = time.perf_counter()
        link.sendall(messages(len(times)))
        head = b""
        while b"\r\n\r\n" not in head:
            head += received(link)
        head, body = head.split(b"\r\n\r\n", 1)
        length = next((int(it[15:]) for it in head.split(b"\r\n") if it.lower().startswith(b"content-length:")), 0)
        while len(body) < length:
            body += received(link)
        if not head.startswith(b"HTTP/1.1 200"):
            sys.exit(f"not accepted: {head} {body}")
        times.append(time.perf_counter() - began)
    return times


def change(port, number, begin, counts):
    counts.put(len(ask(port, lambda n: message("PUT", f"/service/users/c{number}n{n}", '{"groups":["staff"],"name":"x"}'), begin)))


def decide(port, begin, counts):
    counts.put(sorted(ask(port, lambda n: message("POST", "/service/decide/hive1", REQUEST), begin)))


def changes(folder, clients):
    process, port = start(folder / f"{clients}.db")
    counts, slow = multiprocessing.Queue(), multiprocessing.Queue()
    begin = time.perf_counter() + .5 + .05 * clients  # the processes are there by then
    works = [multiprocessing.Process(target=change, args=(port, number, begin, counts)) for number in range(clients)]
    works.append(multiprocessing.Process(target=decide, args=(port, begin, slow)))
    for work in works:
        work.start()
    total, times = sum(counts.get() for _ in range(clients)), slow.get()
    for work in works:
        work.join()
    process.kill()
    process.wait()
    print(f"{clients} clients: {total / SECONDS:.0f} changes a second; {len(times) / SECONDS:.0f} decisions beside them, half in {times[len(times) // 2] * 1e6:.0f} us, 99 % in {times[len(times) * 99 // 100] * 1e6:.0f} us")


def resident(process):
    status = pathlib.Path(f"/proc/{process.pid}/status").read_text()
    return next(int(it.split()[1]) // 1024 for it in status.splitlines() if it.startswith("VmRSS"))


def starts(folder, records):
    file = folder / f"start{records}.db"
    with contextlib.closing(sqlite3.connect(file)) as database:
        database.execute("CREATE TABLE kept (place INTEGER PRIMARY KEY, record BLOB NOT NULL)")
        database.executemany(
            "INSERT INTO kept (record) VALUES (?)",
            ((f'{{"actor":"root","command":{{"command":"putUser","user":{{"groups":["staff"],"name":"user{number % USERS}"}}}}}}'.encode(),) for number in range(records)),
        )
        database.commit()
    size, began = os.path.getsize(file), time.perf_counter()
    process, _ = start(file)
    print(f"{records} records of {size / records:.0f} bytes: listens after {time.perf_counter() - began:.2f} s, {resident(process)} MiB")
    process.kill()
    process.wait()


with tempfile.TemporaryDirectory() as folder:
    for clients in (1, 8, 64 - 1):
        changes(pathlib.Path(folder), clients)
    for records in RECORDS:
        starts(pathlib.Path(folder), records)
