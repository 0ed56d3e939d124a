#!/usr/bin/env python3
"""The table of links that crates/test_threads serves, and what each has to leave, worked out from docs/HTTP.md and not from the program.

usage: checks/links.py          compares data/links.rows of crates/test_threads, and the lines of its stdout under `== links`, with what is
                                worked out here
       checks/links.py --write  writes them
"""
import json
import pathlib
import sys

CRATE = pathlib.Path(__file__).resolve().parent.parent / "crates" / "test_threads"
PHRASES = {200: "OK", 204: "No Content", 304: "Not Modified", 400: "Bad Request", 401: "Unauthorized", 403: "Forbidden", 404: "Not Found",
           405: "Method Not Allowed", 411: "Length Required", 413: "Payload Too Large", 431: "Request Header Fields Too Large",
           501: "Not Implemented"}
START = "HTTP/1.1 "

rows, wanted = [], []


def spelled(text):
    """The bytes that a text of the table stands for."""
    parts = text.split("@")
    for place in range(1, len(parts), 2):
        times, part = parts[place].split(" ", 1)
        parts[place] = part * int(times)
    text = "".join(parts)
    return text.replace("~", "\r\n").replace("$", "\n").replace("^", "\r").replace("%", "\0").encode()


def response(status, body="", close=False):
    text = f"{START}{status} {PHRASES[status]}\r\n" + ("Connection: close\r\n" if close else "")
    if status not in (204, 304):
        text += f"Content-Length: {len(body)}\r\n" + ("Content-Type: application/json\r\n" if body else "")
    return text + "\r\n" + body


def told(text):
    """As the program prints what was written: equal responses one after another are counted."""
    front, *parts = text.replace("\r\n", "~").replace("\r", "^").split(START)
    runs = []
    for part in parts:
        if runs and runs[-1][1] == part:
            runs[-1][0] += 1
        else:
            runs.append([1, part])
    return front + "".join((f"{count}*" if count > 1 else "") + START + part for count, part in runs)


def line(name, end, calls, text, audited=(), dropped=0, second=(), bell=()):
    """What is printed of one link."""
    left = f"{name}|{end}|{calls}|{told(text)}|audited" + "".join(f" {audit}" for audit in audited) + f"|dropped {dropped}"
    if dropped:
        left += "|the second sink" + "".join(f" {audit}" for audit in second)
    if bell:
        left += "|bell" + "".join(f" {word}" for word in bell)
    wanted.append(left)


def row(name, text, cut="", piece="", fails="", sink="", before="", bell=""):
    rows.append("|".join([name, text, cut, str(piece), fails, sink, before, bell]).rstrip("|"))


def case(name, text, end, calls, responses, audited=(), pieces=("",), before="", sink="", dropped=0, second=()):
    """A link, served once for each of these sizes of a piece. How it is cut plays no part."""
    for piece in pieces:
        called = name + (f", in pieces of {piece}" if piece else "")
        row(called, text, piece=piece, before=before, sink=sink)
        line(called, end, calls, "".join(responses), audited, dropped, second)


def get(target, user="ann", fields="", version="1.1"):
    return f"GET {target} HTTP/{version}~" + (f"x-user: {user}~" if user else "") + fields + "~"


def send(method, target, body, user="root", fields=""):
    return f"{method} {target} HTTP/1.1~x-user: {user}~{fields}Content-Length: {len(spelled(body))}~~{body}"


def compact(value):
    return json.dumps(value, separators=(",", ":"))


API = "/service/public/v2/api"
DOWNLOAD = "/service/plugins/policies/download/hive1?lastKnownVersion=1"
DECIDE = "/service/decide/hive1"
CURRENT = get(DOWNLOAD)
ONE = len(spelled(CURRENT))
UNCHANGED = response(304)
EVERY = ("", 61, 1)


def policy(**fields):
    return compact({"service": "hive1", "name": "p1", "resources": {"database": {"values": ["sales"]}},
                    "policyItems": [{"users": ["ann"], "accesses": [{"type": "select"}]}]} | fields)


def request(database="sales", moment=0, user="ann"):
    asked = {"user": user, "resource": {"elements": {"database": database}}, "accessType": "select"}
    return compact(asked if moment is None else asked | {"accessTime": moment})


def decision(access, policy, serial, version, audited=True):
    return response(200, compact({"access": access, "audited": audited, "mask": None, "policyId": policy, "policyVersion": version,
                                  "rowFilter": None, "serial": serial, "tagVersion": 1}))


def audit(access, policy, serial, moment=0, database="sales", user="ann"):
    return compact({"access": "select", "evtTime": moment, "policy": policy, "repo": "hive1", "reqUser": user, "resource": database,
                    "result": access, "serial": serial})


CREATE = send("POST", f"{API}/policy", policy())
CREATED = response(200, '{"id":1,"version":1}')
ASK = send("POST", DECIDE, request(), user="ann")
DENIED, ALLOWED = decision("DENIED", -1, 1, 1), decision("ALLOWED", 1, 2, 2)


def calls_on_the_link(piece):
    """For each call on a link of two downloads, which moves at most `piece` bytes: how often the administration was called before
    it, and how many bytes were written."""
    came = written = 0
    for message in (1, 2):
        while came < message * ONE:
            yield message - 1, written
            came = min(came + piece, 2 * ONE)
        while written < message * len(UNCHANGED):
            yield message, written
            written = min(written + piece, message * len(UNCHANGED))
    yield 2, written


def failing(name, piece, most):
    """Two downloads with each call in turn that fails. What was written before it stays."""
    row(name, f"@2 {CURRENT}@", piece=piece or "", fails=f"each {most}")
    before = list(calls_on_the_link(piece or 2 * ONE))
    for call in range(1, most + 1):
        if call <= len(before):
            calls, written = before[call - 1]
            line(f"{name}, call {call} fails", "failed", calls, (UNCHANGED * 2)[:written])
        else:
            line(f"{name}, call {call} fails", "ended after 2", 2, UNCHANGED * 2)


def cut(name):
    """Each number of the first bytes of two downloads. The messages that came whole are answered."""
    row(name, f"@2 {CURRENT}@", cut="each")
    for size in range(2 * ONE + 1):
        whole, rest = divmod(size, ONE)
        line(f"{name}, {size} bytes", ("cut" if rest else "ended") + f" after {whole}", whole, UNCHANGED * whole)


def heading(size):
    """A head of so many bytes that asks for a download."""
    front = CURRENT[:-1] + "a:"
    return f"{front}@{size - len(spelled(front)) - 4} x@~~"


def downloads_and_refusals():
    case("two downloads", f"@2 {CURRENT}@", "ended after 2", 2, [UNCHANGED] * 2, pieces=EVERY)
    case("half a body", f"POST {DECIDE} HTTP/1.1~x-user: ann~Content-Length: 9~~four", "cut after 0", 0, [], pieces=EVERY)
    case("no length", f"POST {API}/policy HTTP/1.1~x-user: root~~", "bad 411 after 0", 0, [response(411, close=True)], pieces=EVERY)
    case("no such policy", f"DELETE {API}/policy/9 HTTP/1.1~x-user: root~~", "ended after 1", 1, [response(404, '{"rule":"E2"}')], pieces=EVERY)
    case("not the administrator", send("PUT", "/service/users/bob", '{"name":"bob"}', user="ann"), "ended after 1", 1,
         [response(403, '{"rule":"A1"}')])
    case("a user put and deleted", send("PUT", "/service/users/bob", '{"name":"bob"}') + "DELETE /service/users/bob HTTP/1.1~x-user: root~~",
         "ended after 2", 2, [response(200, '{"done":true}'), response(204)])
    case("answers without a call", get("/nowhere") + f"PATCH {API}/policy/9 HTTP/1.1~x-user: root~~" + get(f"{API}/policy/9", user="")
         + send("POST", DECIDE, "{}"), "ended after 4", 0,
         [response(404, '{"error":"path"}'), response(405, '{"error":"method"}'), response(401, '{"error":"x-user"}'),
          response(400, '{"kind":"missing","path":"/user"}')])
    case("the decision of another service", send("POST", "/service/decide/hive2", request()), "ended after 1", 0,
         [response(404, '{"error":"path"}')])


def ends():
    closing = get(DOWNLOAD, fields="Connection: close~")
    case("no bytes", "", "ended after 0", 0, [])
    case("empty lines alone", "~~", "cut after 0", 0, [])
    case("a message that asks to close", f"{closing}{CURRENT}", "ended after 1", 1, [response(304, close=True)], pieces=EVERY)
    case("an old version closes", get(DOWNLOAD, version="1.0") + "%", "ended after 1", 1, [response(304, close=True)])
    case("a bad place behind a message", CURRENT + "%", "bad 400 after 1", 1, [UNCHANGED, response(400, close=True)], pieces=EVERY)
    case("a line that breaks off", CURRENT + "GET", "cut after 1", 1, [UNCHANGED], pieces=EVERY)
    case("10,001 downloads", f"@10001 {CURRENT}@", "full after 10000", 10000, [UNCHANGED] * 10000)
    case("10,000 downloads", f"@10000 {CURRENT}@", "full after 10000", 10000, [UNCHANGED] * 10000)
    case("9,999 downloads", f"@9999 {CURRENT}@", "ended after 9999", 9999, [UNCHANGED] * 9999)
    case("the 10,000th asks to close", f"@9999 {CURRENT}@{closing}{CURRENT}", "ended after 10000", 10000,
         [UNCHANGED] * 9999 + [response(304, close=True)])


def limits():
    case("a head of 16,384 bytes", heading(16384), "ended after 1", 1, [UNCHANGED], pieces=("", 61))
    case("a head of 16,385 bytes", heading(16385), "bad 431 after 0", 0, [response(431, close=True)], pieces=("", 61))
    fields = CURRENT[:-1]
    case("64 fields", f"{fields}@63 a: b~@~", "ended after 1", 1, [UNCHANGED])
    case("65 fields", f"{fields}@64 a: b~@~", "bad 431 after 0", 0, [response(431, close=True)])
    case("a body of 1,048,576 bytes", f"{fields}Content-Length: 1048576~~@1048576 b@{CURRENT}", "ended after 2", 2, [UNCHANGED] * 2)
    case("a body of 1,048,577 bytes", f"{fields}Content-Length: 1048577~~@1048577 b@", "bad 413 after 0", 0, [response(413, close=True)])
    for name, lengths in (("two lengths", "Content-Length: 1~Content-Length: 1~"), ("a length with a letter", "Content-Length: 1x~"),
                          ("an empty length", "Content-Length:~")):
        case(name, f"{fields}{lengths}~a", "bad 400 after 0", 0, [response(400, close=True)])
    case("chunks beside two lengths", f"{fields}Transfer-Encoding: chunked~Content-Length: 1~Content-Length: 1~~a", "bad 501 after 0", 0,
         [response(501, close=True)])


def nested(depth):
    """A request with a field that nobody reads, nested so deep in all."""
    front, back = request()[:-1] + ',"x":', "}"
    size = len(front) + len(back) + 2 * (depth - 1)
    return f"POST {DECIDE} HTTP/1.1~x-user: ann~Content-Length: {size}~~{front}@{depth - 1} [@@{depth - 1} ]@{back}"


def decisions():
    case("a policy created and a decision", CREATE + ASK, "ended after 2", 1, [CREATED, DENIED], [audit("DENIED", -1, 1)], pieces=EVERY)
    case("a decision after a refresh", ASK, "ended after 1", 0, [ALLOWED], [audit("ALLOWED", 1, 2)], pieces=EVERY, before=CREATE)
    case("a decision that isn't audited", ASK + send("POST", DECIDE, request("hr")), "ended after 2", 0,
         [decision("ALLOWED", 1, 2, 2, audited=False), decision("DENIED", -1, 2, 2)], [audit("DENIED", -1, 2, database="hr")],
         before=send("POST", f"{API}/policy", policy(isAuditEnabled=False)))
    later = send("POST", DECIDE, request(moment=None))
    case("each message takes a moment", later + get("/nowhere") + later + later, "ended after 4", 0,
         [DENIED, response(404, '{"error":"path"}'), DENIED, DENIED],
         [audit("DENIED", -1, 1, moment) for moment in (100, 300, 300)])
    case("a request nested 127 deep", nested(127), "ended after 1", 0, [DENIED], [audit("DENIED", -1, 1)])
    case("a request nested 128 deep", nested(128), "ended after 1", 0, [response(400, '{"kind":"syntax","path":""}')])


def sinks():
    databases = "abcdef"
    asked = "".join(send("POST", DECIDE, request(database)) for database in databases)
    lines = [audit("DENIED", -1, 1, database=database) for database in databases]
    case("six decisions", asked, "ended after 6", 0, [DENIED] * 6, lines)
    case("a sink that fails at its calls 2, 3 and 5", asked, "ended after 6", 0, [DENIED] * 6, [lines[0], lines[3]], sink="2 3 5", dropped=1,
         second=lines)
    case("a sink that fails at every call", asked, "ended after 6", 0, [DENIED] * 6, [], sink="1 2 3 4 5 6", dropped=1, second=lines)
    case("a sink that fails twice", asked, "ended after 6", 0, [DENIED] * 6, lines[2:], sink="1 2")


def bells():
    """The bell is rung after each accepted change, before its answer is written, and for nothing else here."""
    put = send("POST", f"{API}/roles", '{"name":"r"}')
    delete = f"DELETE {API}/roles/name/r HTTP/1.1~x-user: root~~"
    messages = [(CREATE, CREATED, True), (CURRENT.replace("Version=1", "Version=2"), UNCHANGED, False),
                (put, response(200, '{"done":true}'), True), (put.replace("root", "ann"), response(403, '{"rule":"A1"}'), False),
                (ASK, DENIED, False), (get("/nowhere"), response(404, '{"error":"path"}'), False),
                (delete, response(204), True), (delete, response(404, '{"rule":"E4"}'), False)]
    name = "rung before the answers to changes"
    row(name, "".join(text for text, _, _ in messages), bell="told")
    line(name, f"ended after {len(messages)}", 6, "".join(answer for _, answer, _ in messages), [audit("DENIED", -1, 1)],
         bell=["rung" if is_change else "silent" for _, _, is_change in messages])


def enriched():
    """Requests get the pair `k`, `v` behind their own. Of two pairs with one key the first counts."""
    definition = {"name": "hive", "resources": [{"name": "database"}], "accessTypes": [{"name": "select"}],
                  "policyConditions": [{"name": "ctx", "evaluator": "context-value-in", "evaluatorOptions": {"attributeName": "k"}}]}
    item = {"users": ["ann"], "accesses": [{"type": "select"}], "conditions": [{"type": "ctx", "values": ["v"]}]}
    before = send("POST", f"{API}/servicedef", compact(definition)) + send("POST", f"{API}/policy", policy(policyItems=[item]))
    own = compact(json.loads(request()) | {"context": {"k": "w"}})
    case("a pair of the enricher", ASK, "ended after 1", 0, [decision("ALLOWED", 1, 2, 3)], [audit("ALLOWED", 1, 2)], before=before)
    case("a pair of the request", send("POST", DECIDE, own, user="ann"), "ended after 1", 0, [decision("DENIED", -1, 2, 3)],
         [audit("DENIED", -1, 2)], before=before)


def unanswered():
    """Calls on the link that fail between a step and its answer. The calls are a read, the answers, and a read at the end."""
    two = send("POST", DECIDE, request("a")) + send("POST", DECIDE, request("b"))
    lines = [audit("DENIED", -1, 1, database=database) for database in "ab"]
    name = "two decisions"
    row(name, two, fails="each 5")
    for call, told_before in ((1, 0), (2, 0), (3, 1), (4, 2)):
        line(f"{name}, call {call} fails", "failed", 0, DENIED * told_before, lines[:told_before])
    line(f"{name}, call 5 fails", "ended after 2", 0, DENIED * 2, lines)
    name = "a policy created"
    row(name, CREATE, fails="each 3")
    for call, calls, text in ((1, 0, ""), (2, 1, ""), (3, 1, CREATED)):
        line(f"{name}, call {call} fails", "failed", calls, text)
    name = "a bad place"
    row(name, "%", fails="each 3")
    for call in (1, 2):
        line(f"{name}, call {call} fails", "failed", 0, "")
    line(f"{name}, call 3 fails", "bad 400 after 0", 0, response(400, close=True))


def with_table(stdout):
    """What the program prints, with the lines of this table as they are worked out."""
    before, behind = stdout.split("== links\n")
    _, heading, after = behind.partition("== ")
    return before + "== links\n" + "\n".join(wanted) + "\n" + heading + after


def main():
    for title, table in (("downloads, and what is refused", downloads_and_refusals), ("how a link ends", ends),
                         ("heads and bodies at their limits", limits), ("decisions", decisions), ("sinks", sinks), ("an enricher", enriched), ("the bell", bells),
                         ("answers that can't be written", unanswered)):
        rows.append(f"# {title}")
        table()
    rows.append("# cut after each byte, and each call that fails")
    cut("two downloads cut short")
    failing("two downloads", "", 8)
    failing("two downloads in pieces of 61", 61, 8)
    failing("two downloads byte by byte", 1, 2 * ONE + 2 * len(UNCHANGED) + 3)
    texts = {"data/links.rows": "\n".join(rows) + "\n", "stdout": with_table((CRATE / "stdout").read_text())}
    for name, text in texts.items():
        path = CRATE / name
        if "--write" in sys.argv[1:]:
            path.write_text(text)
        elif path.read_text() != text:
            sys.exit(f"{path} differs from what is worked out: checks/links.py --write")
    print(f"{len(rows)} rows, {len(wanted)} lines")


if __name__ == "__main__":
    main()
