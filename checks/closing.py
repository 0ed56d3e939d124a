#!/usr/bin/env python3
"""How the command `serve` closes its links: checks/closing.py PROGRAM [TIMES].

A client sends three messages and then a body of 1,048,577 bytes, in one piece, and reads to the end: each time it has to get all four
answers, whatever of the body was read. Then as many clients as there are workers each ask to close and never close themselves, half of them
silent and half of them sending on: a further client waits for the two seconds that a link is read on at most, and no longer. It is no
part of the gate, since it takes time and sockets."""
import re, socket, sys, threading, time

from started import start

PROGRAM = sys.argv[1]
TIMES = int(sys.argv[2]) if len(sys.argv) > 2 else 1000
WORKERS = 64
DEF = {"name": "hive", "resources": [{"name": "database"}], "accessTypes": [{"name": "select"}]}
CONFIG = {"admins": ["root"], "plugin": "hive1", "serviceDefs": [DEF], "services": [{"name": "hive1", "type": "hive"}]}
ASK = b"GET /service/public/v2/api/policies/hive1 HTTP/1.1\r\nx-user: root\r\n"
BODY = 1_048_577  # one byte more than a body may have
LONG = b"POST /service/decide/hive1 HTTP/1.1\r\nx-user: root\r\nContent-Length: %d\r\n\r\n" % BODY + b" " * BODY


def connect(port):
    return socket.create_connection(("127.0.0.1", port), timeout=60)


def read_to_end(link):
    got = b""
    while piece := link.recv(65536):
        got += piece
    return got


def statuses(answer):
    return [int(status) for status in re.findall(rb"HTTP/1\.1 (\d+)", answer)]


def too_long_a_body(port, faults):
    with connect(port) as link:
        got = b""
        try:
            link.sendall((ASK + b"\r\n") * 3 + LONG)
            got = read_to_end(link)
        except OSError as error:
            faults.append(repr(error))
            return
        if statuses(got) != [200, 200, 200, 413]:
            faults.append(f"answered {statuses(got)}")


def never_close(port, sends_on, is_over, faults):
    """Asks to close, and stays. What is sent after the link's end may be refused."""
    with connect(port) as link:
        link.sendall(ASK + b"Connection: close\r\n\r\n" + b"more")
        if statuses(read_to_end(link)) != [200]:
            faults.append("a client that asks to close isn't answered")
        while not is_over.wait(0.05):
            if sends_on:
                try:
                    link.send(b"x")
                except OSError:
                    sends_on = False


def wait_behind(port, faults):
    """A client that comes when each worker waits for one that never closes."""
    is_over = threading.Event()
    held = [threading.Thread(target=never_close, args=(port, n % 2 == 0, is_over, faults)) for n in range(WORKERS)]
    for client in held:
        client.start()
    time.sleep(0.5)
    begin = time.monotonic()
    with connect(port) as link:
        link.sendall(ASK + b"Connection: close\r\n\r\n")
        if statuses(read_to_end(link)) != [200]:
            faults.append("a client that waited isn't answered")
    took = time.monotonic() - begin
    is_over.set()
    for client in held:
        client.join()
    if took > 2.5:
        faults.append(f"a client waited {took:.1f} seconds for a worker")
    return took


def main():
    links = TIMES + WORKERS + 1
    server, port = start(PROGRAM, CONFIG, links)
    faults = []
    begin = time.monotonic()
    for _ in range(TIMES):
        too_long_a_body(port, faults)
    bodies = time.monotonic() - begin
    broken = len(faults)
    took = wait_behind(port, faults)
    printed = server.stdout.read()
    if server.wait(timeout=60) != 0 or not printed.startswith(f"links={links} "):
        faults.append(f"status {server.returncode}, printed {printed!r}")
    for fault in faults[:20]:
        print(fault)
    print(f"{TIMES} bodies of {BODY} bytes in {bodies:.1f} s, {broken} not answered whole; a client waited {took:.1f} s behind those that never close: {len(faults)} faults")
    return 1 if faults else 0


sys.exit(main())
