#!/usr/bin/env python3
"""Whether each wrong body still fits its crate: checks/edits.py. Each line `old:` of an edit has to stand once in the file that it names, as it is
after the edit's lines before it. What no longer fits is told, and the status is 1."""
import pathlib
import sys

TOP = pathlib.Path(__file__).resolve().parent.parent


def fault(edit, crate):
    """Why the edit can't be made, or None."""
    texts, file, old = {}, None, None
    for line in edit.read_text().splitlines():
        key, _, rest = line.partition(":")
        rest = rest[1:]
        if key == "file":
            file = rest.strip()
            path = crate / file
            if not path.is_file():
                return f"there is no {file}"
            texts.setdefault(file, path.read_text())
        elif key == "old":
            if file is None:
                return "no line before its first `old:` names a file"
            old = rest
            if texts[file].count(old) != 1:
                return f"stands {texts[file].count(old)} times in {file}: {old.strip()}"
        elif key == "new":
            texts[file] = texts[file].replace(old, rest)
    return None


def main():
    edits = [(edit, TOP / "crates" / edit.parent.name) for edit in TOP.glob("checks/wrong_bodies/*/*.edit")]
    edits += [(edit, edit.parent.parent) for edit in TOP.glob("crates/*/must-fail/*.edit")]
    faults = [(edit, why) for edit, crate in sorted(edits) if (why := fault(edit, crate)) is not None]
    for edit, why in faults:
        print(f"{edit.relative_to(TOP)}: {why}")
    print(f"edits: {len(edits) - len(faults)} fit, {len(faults)} don't")
    sys.exit(1 if faults else 0)


if __name__ == "__main__":
    main()
