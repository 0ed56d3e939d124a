#!/usr/bin/env python3
"""Times keeping commands in a database file, and reopening them: bench/reopen.py PROGRAM [ROWS].

PROGRAM is the built crates/test_kept (out/test_kept in its folder, once `rt run` was run there). ROWS is how many policies, users,
roles and tag rows the commands are about (20 where not given): what a command costs rises with these, so the state is to stand while the
list gets longer. Printed are, for lists of 10,000, 50,000 and 100,000 commands, how many are reopened in a second of processor time, and
that time, in the best of three runs; the same by the clock; the peak of resident memory of a reopening; the size of the files; and how many
commands were kept in a second by the clock, each on the disk before its answer."""
import os, pathlib, subprocess, sys, tempfile, time

PROGRAM = sys.argv[1]
ROWS = sys.argv[2] if len(sys.argv) > 2 else "20"
COUNTS = (10000, 50000, 100000)


def run(*words):
    """The processor time that the program takes, the time by the clock, and its peak of resident memory in KiB."""
    begun = time.perf_counter()
    process = subprocess.Popen([PROGRAM, *words], stdout=subprocess.DEVNULL)
    _, status, usage = os.wait4(process.pid, 0)
    process.returncode = os.waitstatus_to_exitcode(status)
    if status:
        sys.exit(f"{' '.join(words)} ended with status {process.returncode}")
    return usage.ru_utime + usage.ru_stime, time.perf_counter() - begun, usage.ru_maxrss


with tempfile.TemporaryDirectory() as folder:
    file, kept, before = folder + "/kept.db", 0, 0
    for count in COUNTS:
        _, took, _ = run("append", file, str(count), ROWS)
        appended = (count - kept) / max(took - before, 1e-9)
        kept, (worked, before, peak) = count, min(run("reopen", file) for _ in range(3))
        size = sum(part.stat().st_size for part in pathlib.Path(folder).iterdir())
        print(f"commands={count} rows={ROWS}: reopened {count / worked:.0f} a second of processor time, in {worked:.2f} s; by the clock "
              f"{count / before:.0f} a second; peak_kib={peak} file_kib={size // 1024}; kept {appended:.0f} a second by the clock", flush=True)
