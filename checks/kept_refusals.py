#!/usr/bin/env python3
"""Keeps commands in a database file again and again, and has another request for memory refused each time, another read, write or sync of the file.

usage: checks/kept_refusals.py [PROGRAM] [--every N]      (crates/test_kept/out/test_kept where not given; each request)

PROGRAM keeps five commands in a new file, and five more in a file that has seven, so the file is made and opened anew, and commands are kept. After
each run SQLite reads a copy of the file, and the program, of which nothing is refused then, opens it again. What has to stand:
- the program has ended with status 0 or 1, by no signal, and what it has told are whole lines, `kept N` for each N in order;
- each command that it has told of is in the file, in order, and at most one more; the state is that of these commands.
A file that was refused before anything is in it may have no table yet. Where all is told, all is kept. It is no part of the gate, since it needs a C
compiler."""
import argparse
import os
import pathlib
import shutil
import struct
import subprocess
import sys
import tempfile

import disk_model

CRATE = pathlib.Path(__file__).resolve().parent.parent / "crates" / "test_kept"
ROWS = 3
KINDS = ("MEMORY", "READ", "WRITE", "SYNC")
STARTS = (("a new file", 0, 5), ("a file that has commands", 7, 12))
HOOKS = r"""
#define _GNU_SOURCE
#include <dlfcn.h>
#include <errno.h>
#include <fcntl.h>
#include <stdlib.h>
#include <sys/mman.h>
#include <unistd.h>
static long number(const char *name) { const char *n = getenv(name); return n ? atol(n) : 0; }
// how many requests there were of each kind; in the file COUNTS where one is named
static long *counts(void) {
    static long own[4], *at;
    if (!at) {
        const char *path = getenv("COUNTS");
        int fd = path ? open(path, O_RDWR) : -1;
        void *shared = fd < 0 ? MAP_FAILED : mmap(0, sizeof own, PROT_READ | PROT_WRITE, MAP_SHARED, fd, 0);
        at = shared == MAP_FAILED ? own : shared;
    }
    return at;
}
static int is_turn(int kind, const char *name) { return ++counts()[kind] == number(name); }
#define REAL(type, name, ...) static type (*real)(__VA_ARGS__); if (!real) real = dlsym(RTLD_NEXT, #name);
void *malloc(size_t n) {
    REAL(void *, malloc, size_t)
    return is_turn(0, "MEMORY") ? 0 : real(n);
}
void *realloc(void *p, size_t n) {
    REAL(void *, realloc, void *, size_t)
    return is_turn(0, "MEMORY") ? 0 : real(p, n);
}
static ssize_t do_pread(ssize_t (*real)(int, void *, size_t, off_t), int fd, void *to, size_t n, off_t at) {
    if (is_turn(1, "READ")) { errno = EIO; return -1; }
    return real(fd, to, n, at);
}
static ssize_t do_pwrite(ssize_t (*real)(int, const void *, size_t, off_t), int fd, const void *from, size_t n, off_t at) {
    if (is_turn(2, "WRITE")) { errno = ENOSPC; return -1; }
    return real(fd, from, n, at);
}
ssize_t pread(int fd, void *to, size_t n, off_t at) {
    REAL(ssize_t, pread, int, void *, size_t, off_t)
    return do_pread(real, fd, to, n, at);
}
ssize_t pread64(int fd, void *to, size_t n, off_t at) {
    REAL(ssize_t, pread64, int, void *, size_t, off_t)
    return do_pread(real, fd, to, n, at);
}
ssize_t pwrite(int fd, const void *from, size_t n, off_t at) {
    REAL(ssize_t, pwrite, int, const void *, size_t, off_t)
    return do_pwrite(real, fd, from, n, at);
}
ssize_t pwrite64(int fd, const void *from, size_t n, off_t at) {
    REAL(ssize_t, pwrite64, int, const void *, size_t, off_t)
    return do_pwrite(real, fd, from, n, at);
}
int fsync(int fd) {
    REAL(int, fsync, int)
    if (is_turn(3, "SYNC")) { errno = EIO; return -1; }
    return real(fd);
}
int fdatasync(int fd) {
    REAL(int, fdatasync, int)
    if (is_turn(3, "SYNC")) { errno = EIO; return -1; }
    return real(fd);
}
"""


class Start:
    """A folder in which a run begins, and how many commands it is to keep in all."""

    def __init__(self, program, preload, folder, had, most):
        self.program, self.preload, self.folder, self.had, self.most = program, preload, pathlib.Path(folder), had, most
        if had:
            subprocess.run([program, "append", self.folder / "kept.db", str(had), str(ROWS)], stdout=subprocess.DEVNULL, check=True)
        with tempfile.NamedTemporaryFile() as counts:
            counts.write(bytes(8 * len(KINDS)))
            counts.flush()
            status, told, kept = self.run(COUNTS=counts.name)
            counts.seek(0)
            self.asked = dict(zip(KINDS, struct.unpack("@4l", counts.read(8 * len(KINDS)))))
        assert (status, told, kept) == (0, most, most), (status, told, kept)
        assert self.asked["MEMORY"] and self.asked["WRITE"], self.asked

    def run(self, **settings):
        """The status, the last number that was told, and how many commands are kept."""
        with tempfile.TemporaryDirectory() as folder:
            shutil.copytree(self.folder, folder, dirs_exist_ok=True)
            file = folder + "/kept.db"
            given = {name: str(value) for name, value in settings.items()}
            ran = subprocess.run([self.program, "append", file, str(self.most), str(ROWS)], stdout=subprocess.PIPE, stderr=subprocess.DEVNULL,
                                 timeout=60, env={"LD_PRELOAD": self.preload, **given})
            lines = ran.stdout.decode().splitlines(keepends=True)
            wanted = [f"kept {number}\n" for number in range(self.had + 1, self.had + 1 + len(lines))]
            if ran.returncode not in (0, 1) or lines != wanted:
                sys.exit(f"{settings}: status {ran.returncode}, {lines[-3:]}")
            kept = disk_model.reopened(self.program, file, ROWS) if os.path.exists(file) else 0
            return ran.returncode, self.had + len(lines), kept

    def sweep(self, kind, every):
        """Of how many runs with a refused request each, how many ended otherwise, and in how many there was a command more than was told."""
        otherwise = more = 0
        numbers = range(1, self.asked[kind] + 1, every)
        for number in numbers:
            status, told, kept = self.run(**{kind: number})
            if not told <= kept <= told + (status != 0) or status == 0 and kept != self.most:
                sys.exit(f"{kind} {number} refused: status {status}, {told} were told, and {kept} are kept")
            otherwise += status != 0
            more += kept > told
        return f"{kind.lower()} {otherwise} of {len(numbers)} ({more} with an untold command)"


def main():
    asked = argparse.ArgumentParser(usage=__doc__)
    asked.add_argument("program", nargs="?", default=str(CRATE / "out" / "test_kept"))
    asked.add_argument("--every", type=int, default=1)
    words = asked.parse_args()
    program = str(pathlib.Path(words.program).resolve())
    with tempfile.TemporaryDirectory() as folder:
        source, preload = folder + "/hooks.c", folder + "/hooks.so"
        pathlib.Path(source).write_text(HOOKS)
        subprocess.run(["cc", "-O1", "-shared", "-fPIC", "-o", preload, source, "-ldl"], check=True)
        for name, had, most in STARTS:
            with tempfile.TemporaryDirectory() as first:
                start = Start(program, preload, first, had, most)
                told = ", ".join(start.sweep(kind, words.every if kind == "MEMORY" else 1) for kind in KINDS)
            print(f"{name}: ended otherwise where refused: {told}; nothing told is lost", flush=True)


if __name__ == "__main__":
    main()
