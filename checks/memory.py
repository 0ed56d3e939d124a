#!/usr/bin/env python3
"""Serves each of two links again and again, and has another request for memory refused each time: checks/memory.py [PROGRAM]

PROGRAM is the built test_threads (crates/test_threads/out/test_threads where not given). The first link creates a policy, reads it, is refused
another one, puts a role, asks for downloads and decisions, and ends. The second changes policies, tags, roles and a service, and downloads each
part whole, by deltas and unchanged. What has to stand where the session wants memory, by the session theorem:
the answers written are a beginning of those of the whole link, and each is whole; the decisions that were answered are audited, but for
the last one where memory is refused for its line, or one where the sink is refused it; and as many commands were called as were answered, or one more, whose answer is lost.
It is no part of the gate, since it needs a C compiler."""
import pathlib, re, subprocess, sys, tempfile

TOP = pathlib.Path(__file__).resolve().parent.parent
CRATE = TOP / "crates/test_threads"
PROGRAM = pathlib.Path(sys.argv[1]).resolve() if len(sys.argv) > 1 else CRATE / "out/test_threads"
START = "HTTP/1.1 "
REFUSING = r"""
#define _GNU_SOURCE
#include <dlfcn.h>
#include <stdlib.h>
static long left = -1, asked = 0;
static int refuses(void) {
    if (left < 0) { const char *n = getenv("REFUSED"); left = n ? atol(n) : 0; }
    return ++asked == left;
}
void *malloc(size_t n) {
    static void *(*real)(size_t);
    if (!real) real = dlsym(RTLD_NEXT, "malloc");
    return refuses() ? 0 : real(n);
}
void *realloc(void *p, size_t n) {
    static void *(*real)(void *, size_t);
    if (!real) real = dlsym(RTLD_NEXT, "realloc");
    return refuses() ? 0 : real(p, n);
}
"""
API = "/service/public/v2/api"


def message(method, path, user, body=""):
    length = f"Content-Length: {len(body)}~" if body else ""
    return f"{method} {path} HTTP/1.1~x-user: {user}~{length}~{body}"


POLICY = '{"service":"hive1","name":"p1","resources":{"database":{"values":["sales"]}},"policyItems":[{"users":["ann"],"accesses":[{"type":"select"}]}]}'
ASK = '{"user":"ann","resource":{"elements":{"database":"sales"}},"accessType":"select","accessTime":0}'
DOWNLOAD = "/service/plugins/policies/download/hive1"
TAGS = "/service/tags/download/hive1"
ROLES = "/service/roles/download/hive1"
TAG_ROW = '{"serviceName":"hive1","resourceElements":{"database":{"values":["sales"]}},"tags":[{"type":"PII"}]}'


def command(method, path, body=""):
    return message(method, path, "root", body), True, False


def decision():
    return message("POST", "/service/decide/hive1", "ann", ASK), False, True


# each message with whether it is a command, and whether it is a decision
LINKS = {
    "a policy, a role, decisions": [
        command("POST", f"{API}/policy", POLICY),
        command("GET", f"{API}/policy/1"),
        command("POST", f"{API}/policy", POLICY),
        decision(),
        command("POST", f"{API}/roles", '{"name":"r","users":["ann"]}'),
        command("GET", f"{ROLES}?lastKnownVersion=1"),
        (message("GET", "/nowhere", "ann"), False, False),
        decision(),
    ],
    "downloads, whole and by deltas": [
        command("POST", f"{API}/policy", POLICY),
        command("PUT", "/service/tags/resources/1", TAG_ROW),
        command("GET", DOWNLOAD),
        command("GET", f"{DOWNLOAD}?lastKnownVersion=1"),
        command("GET", f"{DOWNLOAD}?lastKnownVersion=2"),
        command("GET", TAGS),
        command("GET", f"{TAGS}?lastKnownVersion=1"),
        command("POST", f"{API}/roles", '{"name":"r","users":["ann"]}'),
        command("GET", f"{ROLES}?lastKnownVersion=1"),
        command("PUT", f"{API}/policy/1", POLICY),
        command("GET", f"{DOWNLOAD}?lastKnownVersion=1"),
        command("DELETE", "/service/tags/resources/1"),
        command("GET", f"{TAGS}?lastKnownVersion=1"),
        command("PUT", f"{API}/service/name/hive1", '{"name":"hive1","type":"hive","fallback":true}'),
        command("GET", f"{DOWNLOAD}?lastKnownVersion=1"),
        command("DELETE", f"{API}/policy/1"),
        decision(),
    ],
}


def told(messages, refused, preload):
    row = "a link|" + "".join(text for text, _, _ in messages)
    run = subprocess.run([PROGRAM, "links"], input=f"{row}\n".encode(), stdout=subprocess.PIPE, stderr=subprocess.DEVNULL,
                         cwd=CRATE / "data", env={"LD_PRELOAD": preload, "REFUSED": str(refused)}, timeout=60)
    return run.returncode, run.stdout.decode()


def untold(text):
    """The responses, of which equal ones one after another are told by their number."""
    parts = re.split(r"(?:([0-9]+)\*)?HTTP/1\.1 ", text)
    return [response for count, part in zip(parts[1::2], parts[2::2]) for response in [START + part] * int(count or 1)]


def parts(line):
    """The end, the calls, the answers and the audited lines of a row."""
    name, end, calls, rest = line.rstrip("\n").split("|", 3)
    answers, audited = rest.split("|audited", 1)
    return end, int(calls), untold(answers), audited


def sweep(name, messages, preload):
    status, whole = told(messages, 0, preload)
    end, all_calls, all_answers, all_audited = parts(whole)
    assert status == 0 and end == f"ended after {len(messages)}" and len(all_answers) == len(messages), whole
    assert all_calls == sum(is_command for _, is_command, _ in messages), whole
    refused = stopped = ended = elsewhere = 0
    while True:
        refused += 1
        status, text = told(messages, refused, preload)
        if status != 0 or text == "":
            # refused before the session, or to what tells of it
            assert status == 1, (refused, status, text)
            elsewhere += 1
            continue
        end, calls, answers, audited = parts(text)
        if text == whole:
            ended += 1
            # no request was refused, or one whose refusal changes nothing
            if ended > 50:
                break
            continue
        ended = 0
        # a link in memory that is refused memory for what is written to it has failed, and a sink in memory loses that line
        assert end in ("no memory", "failed", f"ended after {len(messages)}"), (refused, text)
        assert answers == all_answers[: len(answers)], (refused, text)
        answered = messages[: len(answers)]
        commands = sum(is_command for _, is_command, _ in answered)
        decisions = sum(is_decision for _, _, is_decision in answered)
        assert calls in (commands, commands + 1), (refused, text)
        assert audited.count('"access":') in (decisions, max(decisions - 1, 0)), (refused, text)
        stopped += 1
    assert stopped, "no request for memory is seen, as with a program that rt try has built"
    print(f"{name}: requests={refused - ended} stopped={stopped} elsewhere={elsewhere}: all as the session theorem says", flush=True)


with tempfile.TemporaryDirectory() as folder:
    source, preload = f"{folder}/refusing.c", f"{folder}/refusing.so"
    pathlib.Path(source).write_text(REFUSING)
    subprocess.run(["cc", "-O1", "-shared", "-fPIC", "-o", preload, source, "-ldl"], check=True)
    for name, messages in LINKS.items():
        sweep(name, messages, preload)
