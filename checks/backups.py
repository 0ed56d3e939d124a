#!/usr/bin/env python3
"""Backs up and restores a database file of kept commands, with the program stopped and running, and says what worked: checks/backups.py PROGRAM.

PROGRAM is the built crates/test_kept (out/test_kept in its folder, once `rt run` was run there). Each way of docs/OPERATIONS.md is tried as
it is written there, with sqlite3. A way works where the program reopens the copy and tells the state after all commands that were kept
before the way was begun, and after no more than were kept when it ended. Of a running program each way is tried ROUNDS times. The status is 1 where a
way that the page calls good fails, or one that it calls refused isn't. It is no part of the gate, since it takes sqlite3 and test_kept's file."""
import pathlib, re, shutil, subprocess, sys, tempfile, threading

from disk_model import told

PROGRAM = str(pathlib.Path(sys.argv[1]).resolve())
ROWS, KEPT, MOST, ROUNDS = 20, 500, 1000000, 20
WAYS = {
    ".backup": "sqlite3 kept.db '.backup kept.copy'",
    "VACUUM INTO": "sqlite3 kept.db \"VACUUM INTO 'kept.copy'\"",
    "cp of the file": "cp kept.db kept.copy",
    "cp of both": "cp kept.db kept.copy; cp kept.db-wal kept.copy-wal",
}
# What the page says of each way: with the program stopped, and running.
SAID = {".backup": ("works", "refused"), "VACUUM INTO": ("works", "refused")}


def copied(folder, way):
    """Whether the way's command was done, in a folder without an earlier copy."""
    for name in ("kept.copy", "kept.copy-wal", "kept.copy-shm"):
        (folder / name).unlink(missing_ok=True)
    return subprocess.run(["bash", "-ec", WAYS[way]], cwd=folder, capture_output=True).returncode == 0


def reopened(path):
    """How many commands the program finds in the file; None where it doesn't reopen it, or tells another state than theirs."""
    done = subprocess.run([PROGRAM, "reopen", str(path)], capture_output=True, text=True)
    found = re.match(r"kept=(\d+) ", done.stdout)
    if done.returncode or not found or done.stdout != told(int(found[1]), ROWS):
        return None
    return int(found[1])


def outcome(folder, way, before, after):
    if not copied(folder, way):
        return "refused"
    with tempfile.TemporaryDirectory() as apart:
        for name in ("kept.copy", "kept.copy-wal"):
            if (folder / name).exists():
                shutil.copy(folder / name, pathlib.Path(apart, name))
        found = reopened(pathlib.Path(apart, "kept.copy"))
    if found is None:
        return "isn't reopened"
    return "works" if before <= found <= after() else "loses %d of %d" % (before - found, before)


def append(folder, count):
    subprocess.run([PROGRAM, "append", "kept.db", str(count), str(ROWS)], cwd=folder, stdout=subprocess.DEVNULL, check=True)


def stopped(folder):
    append(folder, KEPT)
    shutil.copytree(folder, folder / "as_it_was")
    for way in WAYS:
        for path in (folder / "as_it_was").iterdir():
            shutil.copy(path, folder)
        yield way, [outcome(folder, way, KEPT, lambda: KEPT)]


class Running:
    """The program while it keeps commands; how many it has acknowledged."""

    def __init__(self, folder):
        words = [PROGRAM, "append", "kept.db", str(MOST), str(ROWS)]
        self.process = subprocess.Popen(words, cwd=folder, stdout=subprocess.PIPE, text=True)
        self.kept = int(self.process.stdout.readline().split()[1])
        threading.Thread(target=self.read, daemon=True).start()

    def read(self):
        for line in self.process.stdout:
            if line.endswith("\n"):
                self.kept = int(line.split()[1])

    def end(self):
        self.process.kill()
        self.process.wait()


def running(folder):
    program = Running(folder)
    try:
        for way in WAYS:
            # (a command may be on the disk before it is acknowledged)
            yield way, [outcome(folder, way, program.kept, lambda: program.kept + 1) for _ in range(ROUNDS)]
    finally:
        program.end()


def restored(folder):
    """A copy takes the place of a file that went on, without and with the old log."""
    append(folder, KEPT)
    assert copied(folder, ".backup")
    append(folder, 2 * KEPT)
    kept_log = (folder / "kept.db-wal").exists()
    shutil.copy(folder / "kept.copy", folder / "kept.db")
    if kept_log:
        shutil.copy(folder / "kept.db-wal", folder / "log")
    subprocess.run(["bash", "-ec", "rm -f kept.db-wal kept.db-shm"], cwd=folder, check=True)
    yield "restored, the old log taken away", reopened(folder / "kept.db")
    if kept_log:
        shutil.copy(folder / "kept.copy", folder / "kept.db")
        shutil.copy(folder / "log", folder / "kept.db-wal")
        yield "restored beside the old log", reopened(folder / "kept.db")


def main():
    failed = 0
    for place, (state, ways) in enumerate((("stopped", stopped), ("running", running))):
        with tempfile.TemporaryDirectory() as folder:
            for way, outcomes in ways(pathlib.Path(folder)):
                told_of = ", ".join("%d %s" % (outcomes.count(it), it) for it in sorted(set(outcomes)))
                failed += way in SAID and set(outcomes) != {SAID[way][place]}
                print("%s, %s: %s" % (state, way, told_of), flush=True)
    with tempfile.TemporaryDirectory() as folder:
        for number, (way, found) in enumerate(restored(pathlib.Path(folder))):
            failed += number == 0 and found != KEPT
            print("%s: %s" % (way, "isn't reopened" if found is None else "%d of %d commands" % (found, KEPT)))
    return failed > 0


if __name__ == "__main__":
    sys.exit(main())
