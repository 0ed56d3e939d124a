#!/usr/bin/env python3
"""Tries tools/from_ranger.py: each kind of input that can't be said here is told as docs/RANGER.md says, each key of its table does what the
table says, what it writes loads without a bad line or a refusal, and both outputs of the samples decide alike.

usage: checks/ranger.py [RANGERD [--serve]]      (the built program where not given; where there is none, the models of checks/ decide)

The cases stand in ranger_cases.py. Time zones are read from zone files that this writes, so the machine needs none. With --serve the lines of
docs/RANGER.md that need a socket and curl are typed too.
"""

import json
import os
import pathlib
import random
import re
import socket
import subprocess
import sys
import tempfile

TOP = pathlib.Path(__file__).resolve().parent.parent
SAMPLES = TOP / "tools" / "samples"
sys.path[:0] = [str(TOP / "tools"), str(TOP / "checks")]

import zoneinfo  # noqa: E402

import admin_model  # noqa: E402
import from_ranger  # noqa: E402
import ranger_cases  # noqa: E402
from conversion import keys  # noqa: E402
from conversion.told import Bad  # noqa: E402

RULES = {"America/New_York": b"EST5EDT,M3.2.0,M11.1.0", "Asia/Kolkata": b"IST-5:30", "Nowhere/Footless": b""}
REQUESTS = 500
WRITTEN = {}  # what stands in the files


def write_zone_files(folder):
    """As the machine's, with the rule alone. One without a rule has an empty last line."""
    head = b"TZif2" + bytes(15) + b"".join(number.to_bytes(4, "big") for number in (0, 0, 0, 0, 1, 4))
    block = bytes(6) + b"UTC\0"
    for name, rule in RULES.items():
        path = pathlib.Path(folder, name)
        path.parent.mkdir(exist_ok=True)
        path.write_bytes(head + block + head + block + b"\n" + rule + b"\n")


# ---- the tool

def samples():
    return {path.stem: json.loads(path.read_text()) for path in SAMPLES.glob("*.json")}


def words_of(files, folder, mode, left_out=()):
    """The words of a download of the samples, or of an export, and its files written."""
    for name, value in files.items():
        text = json.dumps(value)
        if WRITTEN.get((folder, name)) != text:
            pathlib.Path(folder, name + ".json").write_text(text)
            WRITTEN[folder, name] = text
    path = lambda name: str(pathlib.Path(folder, name + ".json"))
    options = [word for name in ("tags", "roles", "zones", "users") if name not in left_out for word in ("--" + name, path(name))]
    options += [word for word in left_out if word.startswith("--")]
    if "export" in mode:
        options += ["--definition", path("hive"), "--tag-definition", path("tag")]
    return [mode.split()[0], path("export" if "export" in mode else "policies")] + options


def converted(words):
    """Status, lines, ids and what was told, without the folder of the files."""
    try:
        made = from_ranger.Conversion(from_ranger.arguments(words))
        lines, ids = made.administration() if words[0] == "--administration" else made.facts()
    except Bad as what:
        return 2, [], {}, [str(what)]
    return made.told.status(), lines, ids, made.told.lines


def short(told, folder):
    return [line.replace(str(folder) + "/", "") for line in told]


# ---- what scripts print

class Worker:
    """Works scripts by the program, or by the model."""

    def __init__(self, program):
        self.program = program if os.access(program, os.X_OK) else None

    def replay(self, lines):
        text = "".join(line + "\n" for line in lines).encode()
        if self.program is None:
            printed, status, _ = admin_model.worked(text)
            return printed.splitlines(), status
        ran = subprocess.run([self.program, "replay"], input=text, capture_output=True, timeout=120)
        return ran.stdout.decode().splitlines(), ran.returncode

    def faults(self, lines):
        """Where what the tool wrote doesn't load."""
        printed, status = self.replay(lines)
        refused = [line for line in printed if "refused" in line]
        return (["status %d: %s" % (status, printed[-1:])] if status else []) + refused


class Tally:
    def __init__(self):
        self.passed, self.failed = 0, 0

    def want(self, is_so, what):
        self.passed += bool(is_so)
        self.failed += not is_so
        if not is_so:
            print(what)


# ---- cases

MODES = {"export": ("--facts export",), "facts": ("--facts",), "administration": ("--administration",)}


def try_cases(tally, worker, folder):
    for name, edit, status, wanted, absent in ranger_cases.CASES:
        files = samples()
        left_out = edit(files) or ()
        for mode in MODES.get(name.split()[0], ("--facts", "--administration")):
            got, lines, _, told = converted(words_of(files, folder, mode, left_out))
            told = short(told, folder)
            missing = [text for text in wanted if not any(text in line for line in told)]
            tally.want(got == status and not missing and is_absent(absent, lines),
                       "%s, %s: status %d, %d is wanted; not told: %s\n  told: %s" % (name, mode, got, status, missing, "\n        ".join(told)))
            faults = worker.faults(lines) if lines and worker.program and not any("warning" in line for line in told) else []
            tally.want(not faults, "%s, %s: what is written doesn't load: %s" % (name, mode, faults[:3]))


def is_absent(texts, lines):
    """A text with ! before it is wanted."""
    whole = "\n".join(lines)
    return all((text[1:] in whole) if text.startswith("!") else (text not in whole) for text in texts)


# ---- keys

def records_of(kind, value, found):
    """The first record of each kind, by the table."""
    if not isinstance(kind, tuple) or value is None:
        return
    sort, of = kind
    if sort == "record":
        if isinstance(value, dict):
            found.setdefault(of, value)
            for key, item in value.items():
                if key in keys.TABLE[of]:
                    records_of(keys.TABLE[of][key].kind, item, found)
        return
    for item in value if sort == "list" else value.values():
        records_of(of, item, found)


TOPS = {"policies": keys.record("policy download"), "tags": keys.record("tag download"), "roles": keys.record("role download"),
        "zones": keys.record("zone list"), "users": keys.record("user store")}
TOPS_OF_AN_EXPORT = {"export": keys.record("policy export"), "hive": keys.record("service definition")}


def found_in(files, tops):
    found = {}
    for name, kind in tops.items():
        records_of(kind, files[name], found)
    return found


def try_keys(tally, folder):
    """What means nothing changes nothing and is told nowhere; what isn't known is named; what is of a wrong kind is bad."""
    kinds = set()
    for mode, tops in (("--facts", TOPS), ("--facts export", TOPS_OF_AN_EXPORT)):
        plain = converted(words_of(wrapped(), folder, mode))
        for kind in set(found_in(wrapped(), tops)) - kinds:
            kinds.add(kind)
            for change, wanted in changes_of(kind):
                files = wrapped()
                change(found_in(files, tops)[kind])
                got = converted(words_of(files, folder, mode))
                tally.want(wanted(plain, got), "%s: %s: status %d, told %s" % (kind, change.__name__, got[0], short(got[3], folder)))
    tally.want(kinds == set(keys.TABLE), "no sample has %s" % (set(keys.TABLE) - kinds))


def wrapped():
    """The samples, with zones as a list that has its pages."""
    files = samples()
    return {**files, "zones": {"securityZones": files["zones"]}}


def changes_of(kind):
    """Each is an edit of a record and what is wanted then. A key whose value is a wrong one is a bad input."""
    def setting(key, value):
        def change(row):
            row[key] = value
        change.__name__ = "%s set to %r" % (key, value)
        return change

    unknown = lambda plain, got: got[:2] == (max(3, plain[0]), plain[1]) and any('the key "surprise" of a %s isn\'t known' % kind in line for line in got[3])
    yield setting("surprise", 1), unknown
    for key, row in keys.TABLE[kind].items():
        if row.fate == keys.NOTHING:
            yield setting(key, {"anything": [1]}), lambda plain, got: got[:2] == plain[:2] and got[3] == plain[3]
        elif row.kind is not keys.ANY:
            wrong = 7.5 if row.kind is not keys.INTEGER else "7"
            yield setting(key, wrong), lambda plain, got: got[0] == 2 and got[3][0].count(".json: /") == 1
        else:
            yield setting(key, {"anything": 1}), lambda plain, got: got[0] == 2


# ---- both outputs decide alike

PLACES = """sales/orders/id sales/orders sales/customers/ssn sales/customers/phone sales/cards/number sales/closing_june/id sales/campaign_2024/id
sales/offers/id sales hr/salaries/amount hr/audit_log/id home_ann/t/c home_dan/t/c archive/t/c marketing/leads/email marketing/flyers/id marketing/draft_1/id
sandbox1/t/c fin_eu/ledger fin_eu/ledger/amount fin_us/bonus/amount fin_eu/bonus/amount lab/trial_7/id lab/other/id public_data/t/c other/t/c""".split()
URLS = ["s3a://lake/landing", "s3a://lake/landing/a/b", "s3a://lake/labs/x", "s3a://lake/other"]
GROUPS = "analysts staff hr auditors closers etl contractors privacy science".split()
# Around the ends of the schedule and of the tags' time.
MOMENTS = [1717214399, 1717214400, 1718000000, 1719806399, 1719806400, 1735603200, 1735603201, 1743458400, 1743458401]


def requests(count):
    """Requests about what the samples speak of."""
    chance = random.Random(20240610)
    one = chance.choice
    for _ in range(count):
        elements = dict(zip(("database", "table", "column"), one(PLACES).split("/")))
        if chance.random() < .08:
            elements = {"url": one(URLS)}
        yield {"user": one("ann dan pat fay lea zoe trainee ian".split()), "userGroups": chance.sample(GROUPS, chance.randrange(1, 4)),
               "resource": {"elements": elements, "ownerUser": one(["", "ann", "dan"])},
               "accessType": one(["read", "write"]) if "url" in elements else one("select select select select update drop all".split()),
               "accessTime": one(MOMENTS), "clientIPAddress": one(["", "10.20.3.4", "10.20.3.4", "10.21.3.4"])}


def try_alike(tally, worker, files, folder, name):
    """The decisions are the same but for the versions, the serial and the policy's number, which the map leads from the old to the new."""
    decides = ["decide " + json.dumps(request) for request in requests(REQUESTS)]
    _, facts, _, _ = converted(words_of(files, folder, "--facts"))
    _, lines, ids, _ = converted(words_of(files, folder, "--administration"))
    old, status = worker.replay(facts + decides)
    printed, other = worker.replay(lines + ["refresh"] + decides)
    new, seen = printed[len(lines):], {}
    tally.want((status, other, len(old), len(new)) == (0, 0, REQUESTS, REQUESTS), "%s: status %d and %d" % (name, status, other))
    for asked, here, there in zip(decides, map(json.loads, old), map(json.loads, new)):
        number = ids.get(here["policyId"], here["policyId"])
        alike = all(here[key] == there[key] for key in ("access", "audited", "mask", "rowFilter")) and number == there["policyId"]
        seen.setdefault((here["access"], here["policyId"], bool(here["mask"]), bool(here["rowFilter"])), asked)
        if not alike:
            tally.want(False, "%s: %s\n  facts:          %s\n  administration: %s" % (name, asked, here, there))
    tally.want(True, "")
    return len(seen)


# ---- the command itself

def try_command(tally, folder):
    """As it is typed: no traceback, whatever the file is."""
    tool = [sys.executable, str(TOP / "tools" / "from_ranger.py")]
    for name, data in ranger_cases.BAD_FILES.items():
        path = pathlib.Path(folder, "bad.json")
        path.write_bytes(data) if data is not None else path.unlink(missing_ok=True)
        ran = subprocess.run(tool + ["--facts", "bad.json"], cwd=folder, capture_output=True, text=True)
        is_told = ran.stderr.startswith("bad.json: ") and ran.stderr.count("\n") == 1
        tally.want(ran.returncode == 2 and not ran.stdout and is_told, "%s: status %d, told %s" % (name, ran.returncode, ran.stderr))
    words = words_of(samples(), folder, "--administration") + ["--ids", str(pathlib.Path(folder, "ids"))]
    ran = subprocess.run(tool + words, capture_output=True, text=True, env={**os.environ, "PYTHONTZPATH": folder})
    ids = json.loads(pathlib.Path(folder, "ids").read_text())
    tally.want(ran.returncode == 0 and ids == {str(old): new for old, new in converted(words)[2].items()} and ran.stderr.startswith("written: 16 policies, "),
               "the samples: status %d, told %s" % (ran.returncode, ran.stderr))
    tally.want(subprocess.run(tool + ["--keys"], capture_output=True, text=True).stdout == keys.printed() + "\n", "--keys")


def try_example(tally, folder):
    """The facts of examples/ranger.script are those of the samples."""
    _, lines, _, _ = converted(words_of(samples(), folder, "--facts"))
    tally.want(lines[0] in (TOP / "examples/ranger.script").read_text().split("\n"), "examples/ranger.script: its facts aren't what the tool makes")


def try_serve(tally, program, folder):
    """The lines of the page that serve and ask, at a port that is free."""
    found = re.search(r"```sh\n((?:(?!```).)*bin/rangerd serve(?:(?!```).)*)```\n\nanswers[^\n]*\n\n```\n((?:(?!```).)*)```", (TOP / "docs/RANGER.md").read_text(), re.DOTALL)
    with socket.socket() as free:
        free.bind(("127.0.0.1", 0))
        port = free.getsockname()[1]
    pathlib.Path(folder, "tools").symlink_to(TOP / "tools")
    commands = found[1].replace("bin/rangerd", str(pathlib.Path(program).resolve())).replace(":6080", ":%d" % port)
    ran = subprocess.run(["bash", "-c", commands], cwd=folder, stdout=subprocess.PIPE, stderr=subprocess.STDOUT, text=True, timeout=120)
    tally.want(ran.stdout == found[2], "docs/RANGER.md: served, and answered\n%s" % ran.stdout)


def main(program=TOP / "crates/rangerd/out/rangerd", serve=None):
    tally, worker = Tally(), Worker(program)
    with tempfile.TemporaryDirectory() as folder:
        write_zone_files(folder)
        zoneinfo.reset_tzpath([folder])
        try_cases(tally, worker, folder)
        try_keys(tally, folder)
        kinds = try_alike(tally, worker, samples(), folder, "the samples")
        spoilt = samples()
        ranger_cases.spoil(spoilt)
        try_alike(tally, worker, spoilt, folder, "the samples with parts that go")
        try_command(tally, folder)
        try_example(tally, folder)
        if serve == "--serve":
            try_serve(tally, program, folder)
    print("ranger: %d passed, %d failed; %d requests over both outputs, with %d kinds of answers, by %s"
          % (tally.passed, tally.failed, REQUESTS, kinds, "the program" if worker.program else "the models"))
    return tally.failed > 0


if __name__ == "__main__":
    sys.exit(main(*sys.argv[1:]))
