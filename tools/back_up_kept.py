#!/usr/bin/env python3
"""Copies the file of a service that keeps what it administers, while it runs.

usage: tools/back_up_kept.py PID FILE COPY

PID is the process of a `rangerd-kept` that has FILE. It is stopped (SIGSTOP) while FILE and its log, FILE-wal, are copied to COPY and COPY-wal, and goes
on (SIGCONT) whatever comes of the copies. What is copied is what a crash at that moment would leave, so it has each change that was answered before. The
two files belong together: a start over COPY, or sqlite3, takes up the log. Clients wait while the files are copied, and lose nothing.

The copies are on the disk, and their first bytes are those of a database and of its log, before they get their names. Nothing is overwritten. The status
is 0 where COPY is there, and else 1, with the cause on standard error."""
import os
import pathlib
import signal
import sys
import time

DATABASE = b"SQLite format 3\0"
LOGS = (b"\x37\x7f\x06\x82", b"\x37\x7f\x06\x83")
# How many seconds the process has to stop, which a thread that waits for the disk may put off.
PATIENCE = 10
PIECE = 1 << 20


class Fault(Exception):
    """Why there is no copy."""


class Ended:
    """Which signal came, so that one which comes while the service is stopped can't keep it from going on."""

    number = None

    @classmethod
    def come(cls, number, _frame):
        cls.number = number

    @classmethod
    def check(cls):
        if cls.number is not None:
            raise Fault(f"ended by signal {cls.number}")


def has_open(pid, file):
    """Whether the process has the file."""
    wanted = file.stat()
    for link in pathlib.Path(f"/proc/{pid}/fd").iterdir():
        try:
            found = link.stat()
        except OSError:
            continue
        if (found.st_dev, found.st_ino) == (wanted.st_dev, wanted.st_ino):
            return True
    return False


def has_stopped(pid):
    """Whether each thread of the process has."""
    for task in pathlib.Path(f"/proc/{pid}/task").iterdir():
        # the name of the program stands in parentheses, and may have any bytes
        state = (task / "stat").read_bytes().rpartition(b")")[2].split()[0]
        if state not in (b"T", b"t"):
            return False
    return True


def wait_until_stopped(pid):
    for _ in range(PATIENCE * 100):
        Ended.check()
        if has_stopped(pid):
            return
        time.sleep(0.01)
    raise Fault(f"process {pid} has not stopped in {PATIENCE} seconds")


def copy(file, to):
    """Copies the bytes to a new file, which is still open."""
    with open(file, "rb") as source:
        target = open(to, "xb")
        while piece := source.read(PIECE):
            Ended.check()
            target.write(piece)
    return target


def copy_stopped(pid, pairs):
    """Copies the files while the process is stopped. It goes on, whatever comes of them."""
    copies = []
    try:
        os.kill(pid, signal.SIGSTOP)
        wait_until_stopped(pid)
        for file, to in pairs:
            if file.exists():
                copies.append(copy(file, to))
    finally:
        os.kill(pid, signal.SIGCONT)
    for target in copies:
        with target:
            target.flush()
            os.fsync(target.fileno())


def begins_with(file, beginnings):
    with open(file, "rb") as source:
        return source.read(len(beginnings[0])) in beginnings


def check(main, log):
    """The first bytes of the copies. A log may be empty, and so may a database be of which the log has everything."""
    has_log = log.exists() and log.stat().st_size > 0
    if has_log and not begins_with(log, LOGS):
        raise Fault("the log that was copied is none of SQLite's")
    if not (main.stat().st_size == 0 and has_log) and not begins_with(main, (DATABASE,)):
        raise Fault("the file that was copied is no database of SQLite's")


def log_of(path):
    return pathlib.Path(f"{path}-wal")


def back_up(pid, file, to):
    part = pathlib.Path(f"{to}.part")
    for path in (to, log_of(to), part, log_of(part)):
        if path.exists():
            raise Fault(f"{path} is there already")
    if not has_open(pid, file):
        raise Fault(f"process {pid} does not have {file}")
    try:
        copy_stopped(pid, [(file, part), (log_of(file), log_of(part))])
        check(part, log_of(part))
        if log_of(part).exists():
            log_of(part).rename(log_of(to))
        part.rename(to)
    finally:
        for path in (part, log_of(part)):
            path.unlink(missing_ok=True)
    folder = os.open(to.parent, os.O_RDONLY)
    try:
        os.fsync(folder)
    finally:
        os.close(folder)


def main(words):
    if len(words) != 3 or not words[0].isdecimal() or int(words[0]) < 2:
        print(__doc__.split("\n\n")[1], file=sys.stderr)
        return 1
    for number in (signal.SIGTERM, signal.SIGINT, signal.SIGHUP):
        signal.signal(number, Ended.come)
    try:
        back_up(int(words[0]), pathlib.Path(words[1]), pathlib.Path(words[2]))
    except (Fault, OSError) as fault:
        print(f"back_up_kept: {fault}", file=sys.stderr)
        return 1
    return 0


if __name__ == "__main__":
    sys.exit(main(sys.argv[1:]))
