#!/usr/bin/env python3
"""Kills a program that keeps commands in a database file, and looks for what it acknowledged: checks/kills.py PROGRAM [KILLS [SEED]].

PROGRAM is the built crates/test_kept (out/test_kept in its folder, once `rt run` was run there). It is to keep 10,000 commands in a
file, is killed by its own id (SIGKILL) and is started again over the same file, until all are kept; then a new file begins, until KILLS kills
were done (200 where not given). One half of the kills comes at a random moment of the first half second, in which the file is opened and its
commands are taken first; the other half up to 5 ms after a random number of answers. After each kill the file and its log are copied and
read by SQLite itself, and the program reopens the file. Both have to find every command that was acknowledged and at most one more: SQLite
the record of each in order, the program a state with the mark of each. A kill takes nothing that the operating system has been given, so
this shows nothing of a power cut. It is no part of the gate, since it takes minutes."""
import random, signal, subprocess, sys, tempfile, threading

from disk_model import reopened

PROGRAM = sys.argv[1]
KILLS = int(sys.argv[2]) if len(sys.argv) > 2 else 200
CHANCE = random.Random(int(sys.argv[3]) if len(sys.argv) > 3 else 1)
MOST, ROWS = 10000, 2000
OPENING, ANSWERING = 0.5, 0.005  # in seconds


def killed(file):
    """Starts the program and kills it. The numbers that it acknowledged, and whether it was killed before it had ended."""
    process = subprocess.Popen([PROGRAM, "append", file, str(MOST), str(ROWS)], stdout=subprocess.PIPE)
    answers, wait = CHANCE.choice(((0, CHANCE.uniform(0, OPENING)), (CHANCE.randint(1, 200), CHANCE.uniform(0, ANSWERING))))
    lines = [process.stdout.readline() for _ in range(answers)]
    timer = threading.Timer(wait, process.kill)
    timer.start()
    lines += process.stdout.readlines()
    status = process.wait()
    timer.cancel()
    if status not in (0, -signal.SIGKILL):
        sys.exit(f"the program ended with status {status}")
    return [int(line.split()[1]) for line in lines if line.endswith(b"\n")], status != 0


files = kills = early = acknowledged = lost = unacknowledged = 0
while kills < KILLS:
    files += 1
    with tempfile.TemporaryDirectory() as folder:
        file, kept = folder + "/kept.db", 0
        while kept < MOST and kills < KILLS:
            answers, was_killed = killed(file)
            last = answers[-1] if answers else kept
            kills += was_killed
            early += was_killed and not answers
            acknowledged += last - kept
            kept = reopened(PROGRAM, file, ROWS)
            lost += max(0, last - kept)
            unacknowledged += max(0, kept - last)
            if kept > last + was_killed:
                sys.exit(f"{last} commands were acknowledged, and {kept} are found")

print(f"kills={kills} before_any_answer={early} files={files} acknowledged={acknowledged} lost={lost} unacknowledged_found={unacknowledged}")
sys.exit(lost > 0)
