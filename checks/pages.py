#!/usr/bin/env python3
"""Types every block of commands that the pages show, in a checkout of its own for each page, and compares what is printed, byte for byte,
and the exit status.

usage: checks/pages.py [RANGERD [CHECKER [EXPLAINER [TESTER [VIEWER]]]]]      (the built programs where not given)
       checks/pages.py --list                                        (which blocks are left out, and why)

A block of the language sh is typed as it stands. Where one line that begins with `prints` or `answers` stands between it and the block
behind it, that block is what it is to print on standard output, with lines of standard error where the line says so; else only its status is
compared. A block with a script is compared with the block behind it, where one line that begins with `Printed` stands between them. The line
may name the exit status, which is 0 where it doesn't, and the command that the script is for, which is `replay` where it doesn't. A block
of the language json is to hold JSON texts. A block that ends by starting `serve` is left running until the end of its page; its port is
another one, in all blocks of the page. A table whose rows begin with an actor and a command is typed as one script behind the `config` line
before it; each row's answer is compared whole, or, where several parts of it stand in the row, each is to stand in the answer. Blocks of
other languages, and blocks that no command stands before, are no commands.
"""

import json
import os
import pathlib
import re
import shutil
import signal
import socket
import subprocess
import sys
import tempfile
import time

TOP = pathlib.Path(__file__).resolve().parent.parent
PROGRAMS = {"bin/rangerd": "crates/rangerd/out/rangerd", "bin/rangerd-check": "crates/rangerd_check/out/rangerd_check",
            "bin/rangerd-explain": "crates/rangerd_explain/out/rangerd_explain", "bin/rangerd-test": "crates/rangerd_test/out/rangerd_test",
            "bin/rangerd-view": "crates/rangerd_view/out/rangerd_view"}
ROW = re.compile(r"^\| `(\w+ \{.*?\})` \| (.*?) \| ", re.MULTILINE)
CONFIG = re.compile(r"^config \{.*", re.MULTILINE)
BLOCK = re.compile(r"^```(\w*)\n(.*?)^```\n", re.MULTILINE | re.DOTALL)
PORT = "6080"
NAMES_PORT = re.compile(r"\b%s\b" % PORT)
SERVES = re.compile(r"bin/rangerd serve ")
# (one that the block itself puts aside ends within it)
STARTS = re.compile(r"^bin/rangerd serve [^&\n]*\n\Z", re.MULTILINE)

# What is left out: the page, how the block begins, and why.
LEFT_OUT = [
    ("README.md", ".ci/run", "it is the gate, which this is a part of"),
    ("CONTRIBUTING.md", "rt check", "it proves for minutes, and the gate does so already"),
    ("README.md", "bin/rangerd-plugin", "it runs until it is ended; checks/plugin.py runs plugins"),
    ("README.md", "grep '^config ' examples/hive.config | bin/rangerd-kept", "it runs until it is ended; checks/kept_service.py runs services that keep"),
    ("docs/OPERATIONS.md", "grep '^config ' examples/hive.config | bin/rangerd-kept", "it runs until it is ended; checks/kept_service.py runs services that keep"),
    ("docs/OPERATIONS.md", "tools/back_up_kept.py", "it copies the file of a service that runs, as checks/kept_service.py does"),
    ("docs/PLUGIN.md", "bin/rangerd-plugin", "it runs until it is ended; checks/plugin.py runs plugins"),
    ("docs/PLUGIN.md", "curl", "it asks a plugin, as checks/plugin.py does"),
]
# Blocks that are no commands, by their language.
NO_COMMANDS = {
    "nginx": "a configuration of another program, which the gate doesn't have",
    "ini": "a unit of systemd, which a gate without it can't start",
    "yaml": "a step of a build server, which the gate doesn't have",
    "sql": "what the keeper does to a database; the programs that stand on it are run",
}
# Files that a page speaks of as the reader's own.
SAMPLES = {"docs/RANGER.md": {name: "tools/samples/" + name for name in ("policies.json", "tags.json", "roles.json")}}
KEEPS_A_FILE = ("docs/OPERATIONS.md", "docs/KEEPING.md")
# Makes a database as a kept administration leaves it: three records, of which the log has the last ones.
KEEP_A_FILE = """
import os, sqlite3
database = sqlite3.connect("kept.db", isolation_level=None)
database.execute("PRAGMA journal_mode = WAL")
database.execute("CREATE TABLE kept (place INTEGER PRIMARY KEY, record BLOB NOT NULL)")
for number in range(1, 4):
    record = '{"actor":"root","command":{"command":"putUser","user":{"groups":[],"name":"u%d"}}}' % number
    database.execute("INSERT INTO kept (place, record) VALUES (?, ?)", (number, record.encode()))
os._exit(0)
"""


def pages():
    return ["README.md", "CONTRIBUTING.md"] + sorted("docs/" + path.name for path in (TOP / "docs").glob("*.md"))


def blocks_of(page):
    """The blocks of a page in order: the language, the text, the line behind it where it stands alone before a block, and that block."""
    text = (TOP / page).read_text()
    found = list(BLOCK.finditer(text))
    blocks = []
    for number, block in enumerate(found):
        told = wanted = None
        if number + 1 < len(found):
            between = text[block.end() : found[number + 1].start()]
            if re.fullmatch(r"\n(prints|answers|Printed)[^\n]*\n\n", between):
                told, wanted = between.strip(), found[number + 1][2]
        blocks.append((block[1], block[2], told, wanted))
    return blocks


def why_left_out(page, language, text):
    for left_page, begins, why in LEFT_OUT:
        if page == left_page and text.startswith(begins):
            return why
    return NO_COMMANDS.get(language)


def status_of(told):
    found = re.search(r"status (\d+)", told or "")
    return int(found[1]) if found else 0


def command_of(told):
    found = re.search(r"by `(\w+)`", told)
    return found[1] if found else "replay"


def listed_files():
    """The files of the checkout, without what was built."""
    done = subprocess.run(["git", "ls-files", "-z", "-co", "--exclude-standard"], cwd=TOP, capture_output=True)
    if done.returncode == 0 and done.stdout:
        return [name for name in done.stdout.decode().split("\0") if name and (TOP / name).is_file()]
    found = []
    for folder, below, names in os.walk(TOP):
        below[:] = [name for name in below if name not in (".git", "out", "__pycache__")]
        found += [os.path.relpath(os.path.join(folder, name), TOP) for name in names]
    return found


def check_out(folder, programs):
    """Lays out a clean checkout, in which the programs are built already."""
    for name in listed_files():
        to = folder / name
        to.parent.mkdir(parents=True, exist_ok=True)
        shutil.copy2(TOP / name, to)
    named = {"crates/%s/out/%s" % (name, name) for page in pages() for name in programs_in((TOP / page).read_text())}
    built = {folder / name: TOP / name for name in named if (TOP / name).exists()}
    for to, program in {**built, **{folder / PROGRAMS[word]: program for word, program in programs.items()}}.items():
        to.parent.mkdir(parents=True, exist_ok=True)
        shutil.copy(program, to)
    # nothing is built here
    rt = folder / "stub" / "rt"
    rt.parent.mkdir()
    rt.write_text("#!/bin/sh\necho 'rt: nothing is built for the pages' >&2\nexit 1\n")
    rt.chmod(0o755)


def lay_out(checkout, page, folder):
    """A checkout for one page, which has the crates of the clean one."""
    for part in checkout.iterdir():
        if part.name == "crates":
            (folder / part.name).symlink_to(part)
        elif part.is_dir():
            shutil.copytree(part, folder / part.name)
        else:
            shutil.copy2(part, folder / part.name)
    for name, sample in SAMPLES.get(page, {}).items():
        shutil.copy(TOP / sample, folder / name)
    if page in KEEPS_A_FILE:
        subprocess.run([sys.executable, "-c", KEEP_A_FILE], cwd=folder, check=True)


def free_port():
    """None where there are no sockets."""
    try:
        with socket.socket() as free:
            free.bind(("127.0.0.1", 0))
            return str(free.getsockname()[1])
    except OSError:
        return None


def programs_in(text):
    """The programs, besides those of bin, that are named as built."""
    return set(re.findall(r"bin/built (\w+)", text) + re.findall(r"crates/(\w+)/out/\1\b", text))


def missing(text, page):
    """What the block needs and isn't here."""
    programs = page.programs
    if SERVES.search(text) and page.port is None:
        return "there are no sockets"
    if NAMES_PORT.search(text) and not SERVES.search(text) and not page.services:
        return "no service runs"
    for word in PROGRAMS:
        if re.search(re.escape(word) + r"(?![\w-])", text) and word not in programs:
            return "%s isn't built" % word
    for name in sorted(programs_in(text)):
        if not (page.folder / "crates" / name / "out" / name).exists():
            return "%s isn't built" % name
    if re.search(r"https?://(?!127\.0\.0\.1)\w", text):
        return "it asks a server that isn't here"
    for tool in ("curl", "sqlite3"):
        if re.search(r"\b%s " % tool, text) and shutil.which(tool) is None:
            return "there is no %s" % tool
    return None


class Page:
    """A page whose blocks are typed one after another in one folder."""

    def __init__(self, name, folder, programs):
        self.name, self.folder, self.programs = name, folder, programs
        self.port, self.services = free_port(), []
        self.environment = {**os.environ, "PATH": "%s:%s" % (folder / "stub", os.environ["PATH"])}

    def with_port(self, text):
        return NAMES_PORT.sub(self.port or PORT, text)

    def run(self, commands):
        words = ["bash", "-ec", self.with_port(commands)]
        pipes = {"stdin": subprocess.DEVNULL, "stdout": subprocess.PIPE, "stderr": subprocess.PIPE, "text": True}
        typed = subprocess.Popen(words, cwd=self.folder, env=self.environment, start_new_session=True, **pipes)
        try:
            printed, said = typed.communicate(timeout=60)
        except subprocess.TimeoutExpired:
            os.killpg(typed.pid, signal.SIGKILL)
            return "", -1, "not done in a minute\n"
        return printed, typed.returncode, said

    def start(self, commands):
        """Starts a service, and gives what it printed by the time that it listens."""
        printed, told = self.folder / "printed", self.folder / "told"
        with open(printed, "w") as out, open(told, "w") as said:
            words = ["bash", "-ec", self.with_port(commands)]
            service = subprocess.Popen(
                words, cwd=self.folder, env=self.environment, stdin=subprocess.DEVNULL, stdout=out, stderr=said, start_new_session=True
            )
        self.services.append(service)
        for _ in range(600):
            if "listening on " in told.read_text() or service.poll() is not None:
                break
            time.sleep(0.1)
        return printed.read_text(), service.poll() or 0, told.read_text()

    def type(self, language, text, told):
        if language != "sh":
            word = "%s" % self.programs["bin/rangerd"]
            return self.run("'%s' %s <<'END'\n%sEND\n" % (word, command_of(told), text))
        return self.start(text) if STARTS.search(text) else self.run(text)

    def end(self):
        for service in self.services:
            if service.poll() is None:
                os.killpg(service.pid, signal.SIGTERM)
                service.wait(timeout=30)


def json_fault(text):
    """Why these aren't JSON texts, one after another."""
    decoder, place = json.JSONDecoder(), 0
    while text[place:].strip():
        place += len(text[place:]) - len(text[place:].lstrip())
        try:
            _, place = decoder.raw_decode(text, place)
        except ValueError as fault:
            return str(fault)
    return None


def printed_part(wanted, told, said):
    """What of a block is wanted on standard output: all but the lines of standard error, where these are shown with it."""
    if "standard error" not in told:
        return wanted
    return "".join(line for line in wanted.splitlines(True) if line not in said.splitlines(True))


def compare(page, block, counts, left):
    language, text, told, wanted = block
    if language == "json":
        fault = json_fault(text)
        if fault:
            return "%s: no JSON: %s\n%s" % (page.name, fault, text)
        counts["read"] += 1
        return None
    is_script = language == "" and told is not None and told.startswith("Printed")
    if language != "sh" and not is_script:
        return None
    why = why_left_out(page.name, language, text) or missing("bin/rangerd" if is_script else text, page)
    if why:
        left.append("%s: %s: left out: %s" % (page.name, text.splitlines()[0], why))
        return None
    got, status, said = page.type(language, text, told)
    fits = status == status_of(told) and (wanted is None or got == printed_part(page.with_port(wanted), told, said))
    counts["typed"] += fits
    return None if fits else "%s: not as the page says:\n%sgot status %d and\n%s%s" % (page.name, text, status, got, said)


def has_parts(answer, told):
    """Whether the answer is what the cell of a table tells."""
    parts = re.findall(r"`([^`]*)`", told)
    if len(parts) == 1 and parts[0].startswith("{"):
        return answer == parts[0]
    return all(part in answer for part in parts)


def compare_rows(page, counts, left):
    """Types the table of commands of a page, if it has one."""
    text = (TOP / page.name).read_text()
    rows = ROW.findall(text)
    if not rows:
        return []
    if "bin/rangerd" not in page.programs:
        left.append("%s: its table of commands: left out: bin/rangerd isn't built" % page.name)
        return []
    config = CONFIG.findall(text[: text.index(rows[0][0])])[-1]
    script = "".join("%s\n" % line for line in [config] + ["admin " + asked for asked, _ in rows])
    got, status, _ = page.run("'%s' replay <<'END'\n%sEND\n" % (page.programs["bin/rangerd"], script))
    answers = got.splitlines() + [""] * len(rows)
    wrong = ["%s: `%s` is answered %s" % (page.name, asked, answer) for (asked, told), answer in zip(rows, answers) if not has_parts(answer, told)]
    counts["typed"] += len(rows) - len(wrong)
    return wrong + (["%s: its table of commands ends with status %d" % (page.name, status)] if status else [])


def type_pages(programs):
    counts, left, faults = {"typed": 0, "read": 0}, [], []
    with tempfile.TemporaryDirectory() as checkout:
        check_out(pathlib.Path(checkout), programs)
        for name in pages():
            with tempfile.TemporaryDirectory() as folder:
                lay_out(pathlib.Path(checkout), name, pathlib.Path(folder))
                page = Page(name, pathlib.Path(folder), programs)
                try:
                    faults += [fault for fault in (compare(page, block, counts, left) for block in blocks_of(name)) if fault]
                    faults += compare_rows(page, counts, left)
                finally:
                    page.end()
    for line in faults + left:
        print(line)
    print("pages: %d passed, %d failed, %d left out; %d blocks of JSON read" % (counts["typed"], len(faults), len(left), counts["read"]))
    return len(faults) > 0


def list_left_out():
    for name in pages():
        for language, text, _, _ in blocks_of(name):
            why = why_left_out(name, language, text)
            if why:
                print("%s: %s: %s" % (name, text.splitlines()[0], why))
    return 0


def main(words):
    if words == ["--list"]:
        return list_left_out()
    given = dict(zip(PROGRAMS, words))
    programs = {word: pathlib.Path(given.get(word, TOP / PROGRAMS[word])).resolve() for word in PROGRAMS}
    return type_pages({word: program for word, program in programs.items() if program.exists()})


if __name__ == "__main__":
    sys.exit(main(sys.argv[1:]))
