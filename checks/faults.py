#!/usr/bin/env python3
"""Runs stored scripts of each command again and again, with each call in turn of their source, sink, audit sink or listener failing, and `serve` with
each of its requests for memory refused.

usage: checks/faults.py [PROGRAM] [--only WORD]      (crates/test_scripts/out/test_scripts where not given; scripts whose name has WORD)

The scripts and what is to be printed are those that are stored in crates/test_scripts and examples; the longest of each command are among them.
What has to stand, by the theorems on the statuses:
- a read fails: status 3, and nothing is printed;
- a write fails: status 4, and what is printed is a beginning of the text;
- one, two or three calls of the first audit sink fail: text, status and the second sink are as ever, and the first sink has the other lines; none
  from the third fault on;
- the listener fails: status 5, the replies and no totals are printed, and the links that were taken before are answered whole, no other at all;
- `serve` is refused memory: status 9 and nothing or the replies, status 4 and a beginning where it is the sink in memory that is refused it, or status
  0, the replies and totals; each link got a beginning of its answers.
A call past the last fails nothing, so the sweep of each kind goes on until a run is as if no call had failed. Printed is for each script how many
calls failed; where a run is otherwise it is printed, and the status is 1. Keepers of which each call fails stand in `checks/kept.py --runs`.
It is no part of the gate, since it takes minutes and a C compiler."""
import argparse
import itertools
import os
import pathlib
import re
import shutil
import struct
import subprocess
import sys
import tempfile

import refusals

TOP = pathlib.Path(__file__).resolve().parent.parent
CRATE = TOP / "crates" / "test_scripts"
DATA, EXAMPLES = CRATE / "data", TOP / "examples"
SINK_FAULTS = 3
TRIPLES = 6  # two and three calls fail where there are no more audited lines than these
SCRIPTS = [
    ("replay", DATA, ("rules", "delegation", "downloads", "administration", "dropped")),
    ("replay", EXAMPLES, ("zones", "cells", "first", "refreshes")),
    ("grants", DATA, ("grants",)), ("grants", EXAMPLES, ("grants",)),
    ("report", DATA, ("report",)), ("report", EXAMPLES, ("report",)),
    ("keep", DATA, ("keep",)), ("keep", EXAMPLES, ("keep",)),
]
# rows of serving.rows; those that are refused memory ask what has one answer, whatever was published
SERVED = ("one of eight fails", "fewer than there are")
STARVED = ("two downloads", "fewer than there are")


class Run:
    """What is told of a row: its status, how many bytes were printed, whether that is as wanted, and the lines of the audit sinks."""

    def __init__(self, head, lines):
        found = re.fullmatch(r"(.*): status ([0-9]+), ([0-9]+) bytes, (as|not as) wanted", head)
        self.head, self.lines = head, lines
        self.status, self.size, self.is_wanted = int(found[2]), int(found[3]), found[4] == "as"
        self.first, self.second = self.sink("first"), self.sink("second")
        self.dropped = any(line.startswith("  worker 0, dropped: ") for line in lines)

    def sink(self, which):
        start = f"  worker 0, {which} sink: "
        return [line[len(start):] for line in self.lines if line.startswith(start) and line != start + "nothing"]


class Program:
    """The built program, in a folder with the scripts."""

    def __init__(self, path, folder):
        self.path, self.folder = path, folder
        for path in DATA.iterdir():
            os.symlink(path, folder / path.name)
        (folder / "serving.rows").unlink()
        (folder / "serving.rows").write_text("")

    def run(self, table):
        ran = subprocess.run([self.path], input=table.encode(), stdout=subprocess.PIPE, cwd=self.folder, timeout=600)
        if ran.returncode:
            sys.exit(f"the program ended with status {ran.returncode}")
        return ran.stdout.decode()

    def rows(self, rows):
        """The runs of these rows."""
        heads, lines = [], []
        for line in self.run("\n".join(rows) + "\n").split("== keeping\n")[0].splitlines():
            if line.startswith("  "):
                lines[-1].append(line)
            else:
                heads.append(line)
                lines.append([])
        assert len(heads) == len(rows), (len(heads), len(rows))
        return [Run(head, under) for head, under in zip(heads, lines)]

    def served(self, rows):
        (self.folder / "serving.rows").write_text("\n".join(rows) + "\n")
        told = self.run("").split("== serving\n")[1].splitlines()
        (self.folder / "serving.rows").write_text("")
        return told


class Script:
    def __init__(self, program, command, folder, name):
        self.program, self.command, self.name = program, command, f"{command}_{folder.name}_{name}"
        self.text = (folder / f"{name}.{'output' if folder == DATA else 'out'}").read_bytes()
        shutil.copy(folder / f"{name}.script", program.folder / f"{self.name}.script")
        (program.folder / f"{self.name}.output").write_bytes(self.text)
        self.whole = program.rows([f"{self.name} 0 audit=none {command}"])[0]
        self.check(self.whole.is_wanted and self.whole.first == self.whole.second, self.whole)

    def check(self, stands, run):
        if not stands:
            sys.exit("\n".join([f"{self.name}: not as it has to be:", run.head, *run.lines]))

    def row(self, setting, status, wanted=None):
        """A row, with what it is to print in a file of its own where that isn't all of the text."""
        if wanted is None:
            return f"{self.name} {status} script={self.name} {setting} {self.command}"
        name = f"{self.name}_{len(wanted)}"
        (self.program.folder / f"{name}.output").write_bytes(wanted)
        return f"{name} {status} script={self.name} {setting} {self.command}"

    def fails(self, setting, status):
        """How many calls of the source or the sink there are, each of which failed in turn."""
        size = len((self.program.folder / f"{self.name}.script").read_bytes())
        numbers = range(1, max(size, len(self.text)) // 1024 + 8)
        runs = self.program.rows([self.row(f"{setting}={number}", status) for number in numbers])
        last = next(place for place, run in enumerate(runs) if run.status == 0)
        sizes = [run.size for run in runs[:last]]
        again = self.program.rows([self.row(f"{setting}={number}", status, self.text[:size]) for number, size in zip(numbers, sizes)]) if sizes else []
        for run in again:
            self.check(run.is_wanted and (status == 4 or run.size == 0), run)
        for run in runs[last:]:
            self.check((run.status, run.size) == (0, len(self.text)), run)
        return last

    def deaf(self):
        """How many calls of the audit sink failed, in how many runs."""
        lines = self.whole.first
        most = SINK_FAULTS if len(lines) <= TRIPLES else 1
        failing = [fails for count in range(1, most + 1) for fails in itertools.combinations(range(1, len(lines) + 1), count)]
        runs = self.program.rows([self.row(f"audit={','.join(map(str, fails))}", 0) for fails in failing]) if failing else []
        for fails, run in zip(failing, runs):
            is_dropped = len(fails) == SINK_FAULTS
            held = [line for call, line in enumerate(lines, 1) if call not in fails and not (is_dropped and call > fails[-1])]
            self.check(run.is_wanted and run.first == held and run.second == lines and run.dropped == is_dropped, run)
        return len(lines), len(failing)


def listening(program, name):
    """How many calls of the listener failed."""
    workers, most, _, meeting, line, *links = row_of(name).split("|")[1:]
    taking = min(int(most), len(links))
    rows = [f"{name}|{workers}|{most}|{call}|{meeting}|{line}|" + "|".join(links) for call in [0, *range(1, taking + 3)]]
    whole, *told = [one.split("|")[1:] for one in program.served(rows)]
    replies = whole[1][: whole[1].index("links=")]
    failed = 0
    for call, (status, printed, *taken) in enumerate(told, 1):
        if status == "0":
            assert [status, printed, *taken] == whole and call > taking, (name, call, printed)
            continue
        answered = max(call - 2, 0)
        assert (status, printed) == ("5", replies) and taken == whole[2 : 2 + answered] + [""] * (len(links) - answered), (name, call, status, printed, taken)
        failed += 1
    return failed


def row_of(name):
    return next(line for line in (DATA / "serving.rows").read_text().splitlines() if line.startswith(name + "|"))


def starving(program, name):
    """With each request for memory of a run of `serve` refused: how many there were, and how many of the runs ended with which status."""
    hooks = program.folder / "hooks.so"
    (program.folder / "hooks.c").write_text(refusals.HOOKS)
    subprocess.run(["cc", "-O1", "-shared", "-fPIC", "-o", hooks, program.folder / "hooks.c", "-ldl"], check=True)

    def run(rows, **settings):
        (program.folder / "serving.rows").write_text(rows)
        given = {key: str(value) for key, value in settings.items()}
        ran = subprocess.run([program.path], input=b"", stdout=subprocess.PIPE, stderr=subprocess.DEVNULL, cwd=program.folder, timeout=60,
                             env={"LD_PRELOAD": str(hooks), **given})
        return ran.returncode, ran.stdout.decode().partition("== serving\n")[2]

    def asked_by(rows):
        """How many requests there are; what stands before the rows asks as often each time."""
        counts = program.folder / "counts"
        counts.write_bytes(bytes(24))
        run(rows, COUNTS=counts)
        return struct.unpack("@3l", counts.read_bytes())[0]

    row = row_of(name) + "\n"
    _, printed, *taken = run(row)[1].rstrip("\n").split("|")[1:]
    replies = printed[: printed.index("links=")]
    numbers, ends = range(asked_by("") + 1, asked_by(row) + 1), {}
    assert numbers, "no request for memory is seen, as with a program that rt try has built"
    for number in numbers:
        ended, told = run(row, MEMORY=number)
        if ended == 1 and not told:
            ends["no row"] = ends.get("no row", 0) + 1  # refused to what tells of the run
            continue
        status, text, *got = told.rstrip("\n").split("|")[1:]
        stands = {"0": text.startswith(replies + "links="), "9": text in ("", replies), "4": text.startswith(replies) or replies.startswith(text)}
        assert ended == 0 and stands.get(status) and all(map(str.startswith, taken, got)), (name, number, ended, told)
        ends[status] = ends.get(status, 0) + 1
    return len(numbers), ", ".join(f"{count} with {status}" for status, count in sorted(ends.items()))


def main():
    asked = argparse.ArgumentParser(usage=__doc__)
    asked.add_argument("program", nargs="?", default=str(CRATE / "out" / "test_scripts"))
    asked.add_argument("--only", default="")
    words = asked.parse_args()
    with tempfile.TemporaryDirectory() as folder:
        program = Program(pathlib.Path(words.program).resolve(), pathlib.Path(folder))
        for command, where, names in SCRIPTS:
            for name in names:
                if words.only not in f"{command} {name}":
                    continue
                script = Script(program, command, where, name)
                lines, runs = script.deaf()
                print(f"{command} {where.name}/{name}: {script.fails('read', 3)} reads and {script.fails('write', 4)} writes failed, each in turn; "
                      f"calls of an audit sink that has {lines} in {runs} runs", flush=True)
        for name in SERVED:
            if words.only in f"serve {name}":
                print(f"serve, {name}: {listening(program, name)} calls of the listener failed, each in turn", flush=True)
        for name in STARVED:
            if words.only in f"serve {name}":
                print("serve, %s: %d requests for memory refused, each in turn: ended %s" % (name, *starving(program, name)), flush=True)


if __name__ == "__main__":
    main()
