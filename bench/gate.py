#!/usr/bin/env python3
"""Runs the gate's proofs, and prints how many minutes of one processor each kind of work and each crate took, and which functions took
longest to prove.
usage: bench/gate.py [WORD]..      (the words of `rt ci`; none: all crates)

The tables come behind what `rt ci` prints; the status is that of `rt ci`. Minutes come from looking at its processes every
half second, so shorter work isn't told apart, and goes into `rest`. Seconds of functions are by the clock, between the files that a
proof leaves in the folder that the prover works in; where it has no such folder none are printed.

Where RT_JOBS doesn't say how many proofs run side by side, as many do as there are processors, and memory for most of them. One that
the memory isn't there for, by what it was seen to take, is held still until older ones have ended, so that the system needn't kill
one."""
import os
import re
import resource
import signal
import subprocess
import sys
import time
from collections import defaultdict

TICK = os.sysconf("SC_CLK_TCK")
# What a job takes in the middle. (What rt reckons with by itself leaves processors idle.)
BYTES_OF_A_JOB = 5.5e9
# What the proofs of the largest programs were seen to take at most, in GB, and what other work may take.
OF_A_PROGRAM = {"test_kept": 7, "test_threads": 5.5, "test_values": 5}
OF_A_KIND = {"programs": 4.7, "libraries": 3.3, "edits": 3.3, "builds": 2}
# What other processes leave of the memory.
SHARE = 0.93
CRATE = re.compile(r"crate-name\0(\w+)")
PAGE = os.sysconf("SC_PAGE_SIZE")


def kind_of(words, folder):
    """What a process does, and for which crate: the proof of a library or a program, its build, or an edit. None of another process."""
    crate = CRATE.search(words)
    if crate is None:
        return None
    if "--crate-checked" in words:
        return "builds", crate[1]
    if "rt-edit" in folder:
        return "edits", crate[1]
    return ("programs" if "src/main.rt" in words else "libraries"), crate[1]


def fields_of(pid):
    """What the system tells of a process behind its name: its state, its parent and so on."""
    with open(f"/proc/{pid}/stat") as it:
        return it.read().rpartition(")")[2].split()


def is_below(pid, top):
    """Whether the process descends from the other one."""
    while pid not in (0, top):
        pid = int(fields_of(pid)[1])
    return pid == top


def bytes_of(kind, crate):
    """How much memory such work for the crate may take."""
    most = OF_A_KIND[kind]
    return 1e9 * (OF_A_PROGRAM.get(crate, most) if kind == "programs" else most)


class Parts:
    """When each file came that the proofs of crates leave: one for each part of what is proved of a function."""

    FOLDER, EVERY, MOST = "/tmp/rattle-logic-built-locked-%d-0", 10, 40
    FILE = re.compile(r"Rattle-\w+-proofs\.(.+)\.[^.]+\.oantt$")

    def __init__(self):
        self.came, self.next = defaultdict(dict), 0

    def look(self, running):
        if time.monotonic() < self.next:
            return
        self.next = time.monotonic() + self.EVERY
        for job in running:
            try:
                with os.scandir(self.FOLDER % job.pid) as files:
                    for it in files:
                        self.came[job.pid, job.crate][it.name] = it.stat().st_mtime
            except OSError:
                # (the folder went, or a file of it)
                pass

    def longest(self):
        """The functions that took longest, each with its crate and its seconds."""
        seconds = defaultdict(float)
        for (_, crate), files in self.came.items():
            before = None
            for when, name in sorted((when, name) for name, when in files.items()):
                part = self.FILE.match(name)
                if part and before is not None:
                    seconds[crate, part[1]] += when - before
                before = when
        return sorted(seconds.items(), key=lambda it: -it[1])[: self.MOST]


class Job:
    """A process that checks or builds a crate."""

    def __init__(self, pid, kind, crate, fields):
        self.pid, self.crate, self.begun = pid, crate, int(fields[19])
        self.held = fields[0] == "T"
        self.has = int(fields[21]) * PAGE
        self.needs = max(self.has, bytes_of(kind, crate))

    def signal(self, number):
        try:
            os.kill(self.pid, number)
        except OSError:
            # (it has ended)
            pass


def look(seen, top):
    """Notes the processor time of each process below this one that checks or builds a crate, and gives these, the oldest first."""
    found = []
    for pid in map(int, filter(str.isdigit, os.listdir("/proc"))):
        try:
            with open(f"/proc/{pid}/cmdline", "rb") as it:
                words = it.read().decode(errors="replace")
            kind = kind_of(words, os.readlink(f"/proc/{pid}/cwd"))
            if kind is not None and is_below(pid, top):
                fields = fields_of(pid)
                # (its own time, and that of the children it waited for)
                seen[pid, kind] = sum(map(int, fields[11:15])) / TICK
                found.append(Job(pid, *kind, fields))
        except OSError:
            # (it has ended)
            pass
    return sorted(found, key=lambda job: (job.begun, job.pid))


def hold(running, memory):
    """Lets each go on that there is memory for beside the older ones, and so the oldest always; holds the others still."""
    left = memory
    for place, job in enumerate(running):
        goes_on = place == 0 or job.needs <= left
        if job.held == goes_on:
            job.signal(signal.SIGCONT if goes_on else signal.SIGSTOP)
        left -= job.needs if goes_on else job.has


def jobs(memory):
    """How many proofs run side by side."""
    return max(1, min(len(os.sched_getaffinity(0)), int(memory / BYTES_OF_A_JOB)))


def main(words):
    seen, parts, start = {}, Parts(), time.monotonic()
    memory = PAGE * os.sysconf("SC_PHYS_PAGES")
    gate = subprocess.Popen(["rt", "ci", *words], env={"RT_JOBS": str(jobs(memory)), **os.environ})
    while gate.poll() is None:
        running = look(seen, gate.pid)
        hold(running, SHARE * memory)
        parts.look(running)
        time.sleep(0.5)
    used = resource.getrusage(resource.RUSAGE_CHILDREN)
    total, clock = (used.ru_utime + used.ru_stime) / 60, (time.monotonic() - start) / 60
    kinds, crates = defaultdict(float), defaultdict(lambda: defaultdict(float))
    for (_, (kind, crate)), seconds in seen.items():
        kinds[kind] += seconds / 60
        crates[crate][kind] += seconds / 60
    for (crate, function), took in parts.longest():
        print(f"seconds: {crate} {function} {took:.0f}")
    for crate, of in sorted(crates.items(), key=lambda it: -sum(it[1].values())):
        print(f"minutes: {crate}", *(f"{kind} {of[kind]:.1f}" for kind in sorted(of)))
    print("minutes: all", *(f"{kind} {kinds[kind]:.0f}" for kind in sorted(kinds)), f"rest {max(total - sum(kinds.values()), 0):.0f}; of one processor {total:.0f}, by the clock {clock:.0f}", flush=True)
    return gate.returncode


if __name__ == "__main__":
    sys.exit(main(sys.argv[1:]))
