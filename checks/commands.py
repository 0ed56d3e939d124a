#!/usr/bin/env python3
"""Prints what the program check_models is to print under `# commands`: the first fault of each command of its table, by the tables of
reading.py.

usage: checks/commands.py
"""
import pathlib

import reading

TABLE = pathlib.Path(__file__).resolve().parent.parent / "crates" / "check_models" / "data" / "commands.rows"


def main():
    for line in TABLE.read_bytes().split(b"\n"):
        if line and not line.startswith(b"#"):
            _, fault = reading.read_command(line)
            print('%s "%s"' % (fault[1], fault[0]) if fault else "reads")


if __name__ == "__main__":
    main()
