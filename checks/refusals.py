#!/usr/bin/env python3
"""Runs each command over a script again and again, and has another request for memory refused each time, another read or another write.

usage: checks/refusals.py [--every N] [--only WORD] [--programs FOLDER]      (each request; all commands; crates where not given)

FOLDER has the built programs (FOLDER/NAME/out/NAME). What has to stand, by the theorems on the statuses:
- where memory is refused, the status is 9 and nothing is written, or all is as if nothing had been refused (each request of a short script in turn,
  and of the longest stored script of a command some, since each run takes a while);
- where a read fails, the status is 3 and nothing is written;
- where a write fails, the status is 4 and what was written is a beginning of what would have been;
- where reads and writes are cut to one byte, or broken off by a signal before they begin, all is as ever.
A run never hangs, and never ends by a signal. It is no part of the gate, since it needs a C compiler."""
import argparse
import os
import struct
import subprocess
import sys
import tempfile

TOP = os.path.dirname(os.path.dirname(os.path.abspath(__file__)))
HOOKS = r"""
#define _GNU_SOURCE
#include <dlfcn.h>
#include <errno.h>
#include <fcntl.h>
#include <stdlib.h>
#include <string.h>
#include <sys/mman.h>
#include <unistd.h>
static long number(const char *name) { const char *n = getenv(name); return n ? atol(n) : 0; }
// how many requests there were of memory, of reads and of writes; in the file COUNTS where one is named
static long *counts(void) {
    static long own[3], *at;
    if (!at) {
        const char *path = getenv("COUNTS");
        int fd = path ? open(path, O_RDWR) : -1;
        void *shared = fd < 0 ? MAP_FAILED : mmap(0, sizeof own, PROT_READ | PROT_WRITE, MAP_SHARED, fd, 0);
        at = shared == MAP_FAILED ? own : shared;
    }
    return at;
}
static int is_turn(int kind, const char *name) { return ++counts()[kind] == number(name); }
void *malloc(size_t n) {
    static void *(*real)(size_t);
    if (!real) real = dlsym(RTLD_NEXT, "malloc");
    return is_turn(0, "MEMORY") ? 0 : real(n);
}
void *realloc(void *p, size_t n) {
    static void *(*real)(void *, size_t);
    if (!real) real = dlsym(RTLD_NEXT, "realloc");
    return is_turn(0, "MEMORY") ? 0 : real(p, n);
}
static int failing(const char *how, long asked) {
    if (!strcmp(how, "interrupt") && asked % 2) { errno = EINTR; return 1; }
    return 0;
}
ssize_t read(int fd, void *to, size_t n) {
    static ssize_t (*real)(int, void *, size_t);
    if (!real) real = dlsym(RTLD_NEXT, "read");
    const char *how = getenv("HOW") ? getenv("HOW") : "";
    if (fd != 0) return real(fd, to, n);
    if (is_turn(1, "READ")) { errno = EIO; return -1; }
    if (failing(how, counts()[1])) return -1;
    return real(fd, to, !strcmp(how, "short") && n ? 1 : n);
}
ssize_t write(int fd, const void *from, size_t n) {
    static ssize_t (*real)(int, const void *, size_t);
    if (!real) real = dlsym(RTLD_NEXT, "write");
    const char *how = getenv("HOW") ? getenv("HOW") : "";
    if (fd != 1) return real(fd, from, n);
    if (is_turn(2, "WRITE")) { errno = EIO; return -1; }
    if (failing(how, counts()[2])) return -1;
    return real(fd, from, !strcmp(how, "short") && n ? 1 : n);
}
"""


def example(name):
    with open(os.path.join(TOP, "examples", name + ".script"), "rb") as it:
        return it.read()


def stored(*path):
    with open(os.path.join(TOP, "crates", *path), "rb") as it:
        return it.read()


HIVE = ('{"admins":["root"],"plugin":"hive1","serviceDefs":[{"name":"hive","resources":[{"name":"database"}],"accessTypes":[{"name":"select"}]}],'
        '"services":[{"name":"hive1","type":"hive"}]}')
POLICY = ('{"command":"createPolicy","policy":{"service":"hive1","name":"p1","resources":{"database":{"values":["sales"]}},'
          '"policyItems":[{"users":["ann"],"accesses":[{"type":"select"}]}]}}')
TAGS = '{"command":"putTags","id":1,"row":{"serviceName":"hive1","resourceElements":{"database":{"values":["sales"]}},"tags":[{"type":"PII"}]}}'
DOWNLOAD = '{"command":"download","service":"hive1","policiesFrom":1,"tagsFrom":1,"rolesFrom":1}'
DECIDE = 'decide {"user":"ann","resource":{"elements":{"database":"sales"}},"accessType":"select","accessTime":0}'
# refreshes and downloads by deltas of policies and of tags, whole once a service was changed, and with nothing that is new
REFRESHES = "\n".join([
    f"config {HIVE}", f"admin root {POLICY}", f"admin root {DOWNLOAD}", "refresh", DECIDE, f"admin root {TAGS}", "refresh",
    'admin root {"command":"putRole","role":{"name":"r","users":["ann"]}}', "refresh", "refresh",
    'admin root {"command":"updateService","service":{"name":"hive1","type":"hive","fallback":true}}', f"admin root {DOWNLOAD}", "refresh", DECIDE,
    'admin root {"command":"deletePolicy","id":1}', 'admin root {"command":"deleteTags","id":1}', "refresh", DECIDE, ""]).encode()

# the program, its words, and its script
RUNS = [
    ("rangerd", ["replay"], REFRESHES),
    ("rangerd", ["replay"], example("administration")),
    ("rangerd", ["replay"], example("flow")),
    ("rangerd", ["replay"], example("refreshes")),
    ("rangerd", ["grants"], example("grants")),
    ("rangerd", ["report"], example("report")),
    ("rangerd", ["keep"], example("keep")),
    ("rangerd", ["drill", "7", "20", "30"], b""),
    ("rangerd_check", [], stored("rangerd_check", "stdin")),
    ("rangerd_check", ["serve"], stored("test_forms", "data", "unbegun.script")),
    ("rangerd_explain", [], example("cells")),
    ("rangerd_explain", ["--json", "--all"], example("zones")),
    ("rangerd_test", ["--junit"], example("tests")),
]
# the longest stored script of each command, of whose requests for memory about so many are refused
SOME = 300
LONGEST = [
    ("rangerd", ["replay"], stored("test_scripts", "data", "rules.script")),
    ("rangerd", ["grants"], stored("test_scripts", "data", "grants.script")),
    ("rangerd", ["report"], stored("test_scripts", "data", "report.script")),
    ("rangerd", ["keep"], stored("test_scripts", "data", "keep.script")),
    ("rangerd_check", [], stored("test_forms", "data", "commands.script")),
    ("rangerd_explain", ["--all"], stored("rangerd_explain", "stdin")),
    ("rangerd_test", [], stored("rangerd_test", "stdin")),
]


class Command:
    def __init__(self, program, words, script, preload):
        self.line, self.script, self.preload = [program, *words], script, preload
        with tempfile.NamedTemporaryFile() as counts:
            counts.write(bytes(24))
            counts.flush()
            self.status, self.text = self.run(COUNTS=counts.name)
            counts.seek(0)
            self.asked = dict(zip(("MEMORY", "READ", "WRITE"), struct.unpack("@3l", counts.read(24))))
        assert self.asked["MEMORY"], "no request for memory is seen, as with a program that rt try has built"

    def run(self, **settings):
        given = {name: str(value) for name, value in settings.items()}
        ran = subprocess.run(self.line, input=self.script, stdout=subprocess.PIPE, stderr=subprocess.DEVNULL, timeout=60, env={"LD_PRELOAD": self.preload, **given})
        return ran.returncode, ran.stdout

    def is_whole(self, status, text):
        return (status, text) == (self.status, self.text)

    def sweep(self, setting, passes, every=1):
        """Refuses each request of a kind. How many were refused, and how many of these runs had another end."""
        other, turns = 0, range(1, self.asked[setting] + 1, every)
        for number in turns:
            status, text = self.run(**{setting: number})
            if not self.is_whole(status, text):
                other += 1
                if not passes(status, text):
                    sys.exit("%s: %s %d refused: status %d, %r" % (" ".join(self.line), setting, number, status, text[:2000]))
        return "%d of %d" % (other, len(turns))


def main():
    asked = argparse.ArgumentParser(usage=__doc__)
    asked.add_argument("--every", type=int, default=1)
    asked.add_argument("--only")
    asked.add_argument("--programs", default=os.path.join(TOP, "crates"))
    words = asked.parse_args()
    with tempfile.TemporaryDirectory() as folder:
        source, preload = folder + "/hooks.c", folder + "/hooks.so"
        with open(source, "w") as it:
            it.write(HOOKS)
        subprocess.run(["cc", "-O1", "-shared", "-fPIC", "-o", preload, source, "-ldl"], check=True)
        for number, (name, parts, script) in enumerate(RUNS + LONGEST):
            program = os.path.join(words.programs, name, "out", name)
            if words.only not in (None, name, *parts) or not os.path.exists(program):
                continue
            command = Command(program, parts, script, preload)
            every = words.every if number < len(RUNS) else max(1, command.asked["MEMORY"] // SOME)
            memory = command.sweep("MEMORY", lambda status, text: (status, text) == (9, b""), every)
            reads = command.sweep("READ", lambda status, text: (status, text) == (3, b""))
            writes = command.sweep("WRITE", lambda status, text: status == 4 and command.text.startswith(text))
            for how in ("short", "interrupt"):
                status, text = command.run(HOW=how)
                assert command.is_whole(status, text), (" ".join(command.line), how, status, text)
            told = " ".join([name, *parts]), script.count(b"\n"), memory, reads, writes
            print("%s, %d lines: ended otherwise with memory refused %s times, a read %s, a write %s" % told, flush=True)


if __name__ == "__main__":
    main()
