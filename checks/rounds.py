#!/usr/bin/env python3
"""Runs rangerd-view over replies chosen by hand: checks/rounds.py [VIEWER]      (the built program where not given)

An administration of a handful of commands is asked at chosen moments, between which it changes. Its answers are those of checks/admin_model.py to
a script that ends at the moment of the question; what the questions come to is worked out here, by the rule of docs/FORMATS.md, section 13: ask for
the three parts from the versions at hand until none has changed, nine times at most. Then come replies that don't fit, that aren't read, and that
are cut at each byte. Each row is a connection to a server of this script. Where nothing can listen nothing is run."""
import functools
import json
import pathlib
import socket
import subprocess
import sys
import threading

TOP = pathlib.Path(__file__).resolve().parent.parent
MODEL = TOP / "checks/admin_model.py"
VIEWER = str(TOP / "crates/rangerd_view/out/rangerd_view")
DEF = {"name": "hive", "resources": [{"name": "database"}], "accessTypes": [{"name": "select"}]}
TAG_DEF = {"name": "tag", "resources": [{"name": "tag"}], "accessTypes": [{"name": "hive:select"}]}
CONFIG = {
    "admins": ["root"], "plugin": "hive1", "serviceDefs": [DEF, TAG_DEF],
    "services": [{"name": "hive1", "type": "hive", "tagService": "tags1"}, {"name": "tags1", "type": "tag"}],
}


def policy(name, database, user, **more):
    item = {"users": [user], "accesses": [{"type": "select"}]}
    return {"service": "hive1", "name": name, "resources": {"database": {"values": [database]}}, "policyItems": [item], **more}


def row(database):
    return {"serviceName": "hive1", "resourceElements": {"database": {"values": [database]}}, "tags": [{"type": "PII", "attributes": {"k": "v"}}]}


COMMANDS = [
    {"command": "createPolicy", "policy": policy("sales", "sales", "ann")},
    {"command": "putTags", "id": 1, "row": row("sales")},
    {"command": "putRole", "role": {"name": "readers", "users": ["bob"]}},
    {"command": "updatePolicy", "policy": policy("sales", "s*", "bob", id=1)},
    {"command": "putZone", "zone": {"name": "eu", "services": {"hive1": {"resources": [{"database": ["eu_*"]}]}}, "adminUsers": ["zoe"]}},
    {"command": "putTags", "id": 2, "row": row("hr")},
    {"command": "putRole", "role": {"name": "readers", "users": ["bob", "cyd"]}},
    {"command": "deletePolicy", "id": 1},
    {"command": "deleteTags", "id": 1},
    {"command": "createPolicy", "policy": policy("hr", "hr", "cyd")},
    {"command": "putRole", "role": {"name": "writers", "roles": ["readers"]}},
]
PARTS = ("policies", "tags", "roles")


@functools.lru_cache(None)
def downloaded(moment, known):
    """What is downloaded after so many commands, from these versions."""
    asked = {"command": "download", "service": "hive1"}
    asked.update({key + "From": version for key, version in known})
    lines = ["config " + json.dumps(CONFIG)] + ["admin root " + json.dumps(it) for it in COMMANDS[:moment] + [asked]]
    ran = subprocess.run([sys.executable, MODEL], input="\n".join(lines) + "\n", capture_output=True, text=True, check=True)
    return json.loads(ran.stdout.splitlines()[-1])


def download(moment, known):
    return downloaded(moment, tuple(known.items()))


def line_of(moment):
    """The facts after so many commands, as a script."""
    whole = download(moment, {})
    p, t, r = (whole[part]["whole"] for part in PARTS)
    facts = {
        "service": "hive1", "fallback": p["fallback"], "serviceDef": p["def"], "tagServiceDef": p["tagDef"], "policies": p["policies"],
        "tagPolicies": p["tagPolicies"], "zones": p["zones"], "roles": r["roles"], "resources": t["rows"], "timeZones": p["timeZones"],
        "policyVersion": p["version"], "tagVersion": t["version"], "roleVersion": r["version"],
    }
    return "facts " + compact(facts)


def compact(value):
    return json.dumps(value, separators=(",", ":"), sort_keys=True, ensure_ascii=False)


def replies(askings, had=None):
    """The replies to questions at these moments, three a time, by who has these versions; and of which moment all is after the last, None where it
    never settles."""
    known, cells = dict(had or {}), []
    for number, moments in enumerate(askings):
        changed = False
        for part, moment in zip(PARTS, moments):
            told = download(moment, known)[part]
            if told == "unchanged":
                cells.append("304 ")
                continue
            changed = True
            cells.append("200 " + compact(told))
            inside = told.get("delta") or told["whole"]
            known = {**known, part: inside["to"] if "delta" in told else inside["version"]}
        if not changed:
            return cells, askings[number][0]
    return cells, None


# ---- the server

def reply(cell):
    """The bytes of a reply: a status, and a body with its length."""
    status, _, body = cell.partition(" ")
    return b"HTTP/1.1 %s -\r\nContent-Length: %d\r\n\r\n%s" % (status.encode(), len(body.encode()), body.encode())


def answer(listener, replies, last):
    """Answers one connection: a reply to each question, and behind them what is left over."""
    connection, _ = listener.accept()
    with connection:
        got = b""
        try:
            for part in replies + ([last] if last else []):
                while b"\r\n\r\n" not in got:
                    piece = connection.recv(65536)
                    if not piece:
                        return
                    got += piece
                got = got.split(b"\r\n\r\n", 1)[1]
                connection.sendall(part)
        except OSError:
            pass  # it doesn't wait for what it doesn't read


def viewed(replies, last=b""):
    """What rangerd-view comes to: its status, and what it prints."""
    with socket.create_server(("127.0.0.1", 0)) as listener:
        server = threading.Thread(target=answer, args=(listener, replies, last))
        server.start()
        ran = subprocess.run([VIEWER, "127.0.0.1:%d" % listener.getsockname()[1], "hive1", "root"], capture_output=True, text=True)
        server.join()
    return f"{ran.returncode} {ran.stdout}".strip()


PASSED, FAILED = [], []


def judge(name, got, wanted):
    if got == wanted.strip():
        PASSED.append(name)
    else:
        FAILED.append(name)
        print(f"{name}: not as wanted: {got[:300]}; wanted is {wanted[:300]}")


def put(name, cells, wanted):
    judge(name, viewed([reply(it) for it in cells]), wanted)


def put_bytes(name, text):
    """Bytes that are no reply that is read."""
    judge(name, viewed([text.replace("~", "\r\n").encode()]), "5")


def round_of(name, *askings):
    cells, settled = replies(askings)
    put(name, cells, "5" if settled is None else f"0 {line_of(settled)}")
    return cells


def cut_at_each_byte(cells):
    """Each beginning of these replies that isn't all of them, and then the end of the connection."""
    whole = [reply(it) for it in cells]
    for number, last in enumerate(whole):
        for end in range(len(last)):
            judge(f"reply {number} cut at byte {end}", viewed(whole[:number], last[:end]), "5")


def main():
    end = len(COMMANDS)
    quiet = round_of("quiet", (3, 3, 3), (3, 3, 3))
    round_of("before any change", (0, 0, 0), (0, 0, 0))
    round_of("a change between policies and tags", (1, 2, 2), (2, 2, 2))
    round_of("a change between tags and roles", (2, 2, 3), (3, 3, 3))
    round_of("changes between all", (1, 2, 3), (3, 3, 3))
    round_of("policies that change behind their answer", (3, 4, 4), (4, 4, 4), (4, 4, 4))
    round_of("a zone that changes behind the policies' answer", (4, 5, 5), (5, 5, 5), (5, 5, 5))
    round_of("changes within the second time", (3, 3, 3), (3, 6, 7), (7, 7, 7), (7, 7, 7))
    round_of("a change within each of three times", (1, 2, 3), (4, 6, 7), (8, 9, 9), (9, 9, 9))
    round_of("a policy deleted, tags deleted, a policy created", (7, 7, 7), (end, end, end), (end, end, end))
    round_of("changes of another kind behind the last questions", (3, 3, 3), (3, 3, 6))
    round_of("a change at each of nine times", *[(n, n, n) for n in range(9)])
    put("one time and no more", quiet[:3], "5")
    put("a first answer that is unchanged", ["304 "] + quiet[1:], "5")
    delta = "200 " + compact(download(4, {"policies": 2})["policies"])
    put("a first answer that is a delta", [delta] + quiet[1:], "5")
    put("a delta from another version", quiet[:3] + ["200 " + compact({"delta": {"changes": [], "from": 1, "to": 9, "zones": None}}), "304 ", "304 "], "5")
    put("a delta that goes back", quiet[:3] + ["200 " + compact({"delta": {"changes": [], "from": 2, "to": 1, "zones": None}}), "304 ", "304 "], "5")
    put("404", ["404 " + compact({"error": "path"})] + quiet[1:], "5")
    put("500 behind the policies", quiet[:1] + ["500 "] + quiet[2:], "5")
    put("a body that is no JSON", ["200 {"] + quiet[1:], "5")
    put("a body without a part", ["200 {}"] + quiet[1:], "5")
    put("roles in place of policies", [quiet[2]] + quiet[1:], "5")
    cut_at_each_byte(quiet)
    for name, head in [("a coded body", "Transfer-Encoding: chunked"), ("a body without a length", "X: y"), ("two lengths", "Content-Length: 2~Content-Length: 2"),
                       ("a length that is no number", "Content-Length: +2"), ("a body that is too long", "Content-Length: 268435457")]:
        put_bytes(name, f"HTTP/1.1 200 OK~{head}~~{{}}")
    put_bytes("an interim reply", "HTTP/1.1 100 Continue~~")
    put_bytes("no reply", "hello~~")
    put_bytes("a head that is too long", "HTTP/1.1 200 OK~" + "x" * 16400)
    put_bytes("too many fields", "HTTP/1.1 304 -~" + "a: b~" * 65 + "~")
    print(f"rounds: {len(PASSED)} passed, {len(FAILED)} failed")
    sys.exit(bool(FAILED))


def can_listen():
    """Whether something can listen on this machine."""
    try:
        socket.create_server(("127.0.0.1", 0)).close()
    except OSError:
        return False
    return True


if __name__ == "__main__":
    if len(sys.argv) > 1:
        VIEWER = sys.argv[1]
    if not pathlib.Path(VIEWER).exists():
        print(f"rounds: left out, since {VIEWER} isn't built")
    elif not can_listen():
        print("rounds: left out, since nothing can listen here")
    else:
        main()
