"""What test_kept tells of commands that it keeps in a database file, from the rules, and what SQLite finds there: for kept.py, kills.py and
kept_refusals.py."""
import contextlib
import json
import pathlib
import shutil
import sqlite3
import subprocess
import sys
import tempfile

KINDS = ("createPolicy", "putUser", "putRole", "updatePolicy", "putTags")  # in turn, about one row of each kind


def told(kept, rows):
    """What the program tells of the state after so many commands: each number is left in one name, until its row's turn comes again."""
    rounds, more = divmod(kept, len(KINDS))
    policies, users, roles, tag_rows = (min(rows, rounds + (more > kind)) for kind in (0, 1, 2, 4))
    marks = range(max(1, kept - len(KINDS) * rows + 1), kept + 1)
    return (f"kept={kept} policies={policies} users={users} roles={roles} tag_rows={tag_rows} next_id={policies + 1} "
            f"marks={len(marks)} sum={sum(marks)} squares={sum(mark * mark for mark in marks)}\n")


def demonstrated():
    """What the program prints of a small file: of 7 commands that are kept and reopened, and then of all up to the 38th."""
    return "".join("".join(f"kept {kept}\n" for kept in range(first, last + 1)) + told(last, 4) for first, last in ((1, 7), (8, 38)))


def records(file):
    """The records that SQLite reads in a copy of the file and its log; none where there is no table yet."""
    with tempfile.TemporaryDirectory() as folder:
        for part in pathlib.Path(file).parent.iterdir():
            shutil.copy(part, folder)
        with contextlib.closing(sqlite3.connect(pathlib.Path(folder, pathlib.Path(file).name))) as copy:
            try:
                return [bytes(record).decode() for (record,) in copy.execute("SELECT record FROM kept ORDER BY place")]
            except sqlite3.DatabaseError:
                return []


def is_of(number, record):
    """Whether the record is that of the command with this number."""
    return json.loads(record)["command"]["command"] == KINDS[(number - 1) % len(KINDS)] and f'"{number}"' in record


def reopened(program, file, rows):
    """How many commands are kept, once it is seen that the state is theirs, and that SQLite finds the same."""
    found = records(file)
    for number, record in enumerate(found, 1):
        if not is_of(number, record):
            sys.exit(f"the record {number} is {record}")
    printed = subprocess.run([program, "reopen", file], stdout=subprocess.PIPE, check=True).stdout.decode()
    if printed != told(len(found), rows):
        sys.exit(f"SQLite finds {len(found)} commands, and the program tells {printed}")
    return len(found)
