"""Runs `rangerd replay` over made-up scripts of administration, and compares each line with the model.

usage: checks/compare_admin.py PROGRAM SCRIPTS [--seed SEED] [--lines LINES] [--grants | --keep]      (seed 1, 60 lines where not given)

With --grants it runs `rangerd grants`, over scripts with grants and revokes, with --keep `rangerd keep`, over scripts with lines `reopen`.

It stops at the first difference, prints it, and leaves the script in the file that it names. Where PROGRAM is `-` no program is
run. Printed is how often each command was answered, and how often each of its rules refused; a rule that never did is named.
"""

import argparse
import collections
import json
import subprocess
import sys
import tempfile

import admin_maker
import admin_model
import admin_rules
import grants_maker
import grants_model
import keeping
import kept_maker
import kept_model
import reading

OUT_OF_REACH = {"L1"}  # 2^62 entries


def kept():
    return kept_model.KeptScript(keeping.Keeper())


# what makes the scripts of a command, and what works them
KINDS = {"replay": (admin_maker.AdminMaker, admin_model.Script), "grants": (grants_maker.GrantsMaker, grants_model.GrantScript),
         "keep": (kept_maker.KeptMaker, kept)}


def ends(making, lines):
    """With LF, or with CR LF, and now and then without an end at last."""
    end = b"\r\n" if making.maybe(.1) else b"\n"
    return end.join(lines) + (end if making.maybe(.9) else b"")


def script_of(making, script, most):
    """The script, the wanted text and status, and what to count."""
    lines, counts = [], []
    making.script = script
    printed, status, to_begin = "", 0, making.first_policies()
    while len(lines) < most and status == 0:
        lines.append(next(to_begin, None) or making.next_line() if lines else b"config " + json.dumps(making.config()).encode())
        try:
            answer = script.work(lines[-1])
        except admin_model.Bad as cause:
            answer, status = "bad line %d" % len(lines), 2
            counts.append("bad line: " + str(cause).split(" at ")[0])
        counts += labels(script, lines[-1], answer)
        printed += "" if answer is None else answer + "\n"
    return ends(making, lines), printed, status, counts


def authority(state, actor, command):
    """By what somebody who is no administrator had a policy command accepted."""
    policy = command.get("policy") or admin_rules.numbered(state["policies"], command["id"])
    if policy is None or actor in state["admins"]:
        return []
    in_zone = {kind: admin_rules.is_in_zone(state, actor, policy, kind) for kind in ("admin", "audit")}
    return ["accepted by " + ("a zone" if in_zone["admin"] else "delegation" if admin_rules.may(state, actor, policy) else "an audit")]


def labels(script, line, answer):
    """What an answer is counted under."""
    word = line.partition(b" ")[0].decode()
    if word == "decide" and answer.startswith("{"):
        yield "decide: " + json.loads(answer)["access"]
    if word == "refresh" and answer.startswith("{"):
        yield "refresh: " + next(iter(json.loads(answer)))
    if word == "reopen" and answer.startswith("{"):
        yield "reopen: " + ("none" if answer == '{"kept":0}' else "some")
    if word in ("grant", "revoke") and answer.startswith("{"):
        reply = json.loads(answer)
        yield word + ": " + reply.get("refused", "a new policy" if reply.get("version") == 1 else "accepted")
    if word != "admin" or not answer.startswith("{"):
        return
    actor, text = line.decode().split(" ", 2)[1:]
    command, reply = admin_model.filled(reading.read_command(text.encode())[0]), json.loads(answer)
    yield command["command"] + ": " + reply.get("refused", "accepted")
    if reply.get("refused") == "C1":
        yield "C1 by " + admin_rules.is_kept(script.admin.state, command["def"])
    if "refused" not in reply and command["command"] in ("createPolicy", "updatePolicy", "getPolicy"):
        yield from authority(script.admin.state, actor, command)
    if "seq" in reply:
        for part in ("policies", "tags", "roles"):
            yield "download, %s: %s" % (part, reply[part] if reply[part] == "unchanged" else next(iter(reply[part])))
    if "policies" in reply and "seq" not in reply:
        yield "listPolicies: %s" % ("none" if not reply["policies"] else "some")


def long_script():
    """More changes than a log keeps, and downloads on both sides of its end."""
    level = {"name": "path"}
    config = {"admins": ["root"], "plugin": "s", "serviceDefs": [{"name": "d", "resources": [level], "accessTypes": [{"name": "read"}]}],
              "services": [{"name": "s", "type": "d"}]}
    row = lambda number: {"serviceName": "s", "resourceElements": {"path": {"values": ["a%d" % number]}}}
    asks = [{"command": "putTags", "id": 1 + number % 7, "row": row(number)} for number in range(1100)]
    asks += [{"command": "putZone", "zone": {"name": "z%d" % (number % 3)}} for number in range(1100)]
    asks += [{"command": "download", "service": "s", "policiesFrom": version, "tagsFrom": version, "rolesFrom": 1}
             for version in (1101, 1100, 78, 77, 76, 1, 1102)]
    lines = ["config " + json.dumps(config)] + ["admin root " + json.dumps(ask) for ask in asks] + ["refresh", "refresh"]
    script = ("\n".join(lines) + "\n").encode()
    return (script, *admin_model.worked(script)[:2], ["a script of more changes than a log keeps"])


def compare(program, command, name, script, text, status):
    ran = subprocess.run([program, command], input=script, capture_output=True)
    got = ran.stdout.decode("utf-8", "replace")
    if (got, ran.returncode) == (text, status):
        return
    with tempfile.NamedTemporaryFile("wb", suffix=".script", delete=False) as kept:
        kept.write(script)
    pairs = enumerate(zip(got.splitlines() + [""], text.splitlines() + [""]), 1)
    line, (here, there) = next(((n, pair) for n, pair in pairs if pair[0] != pair[1]), (0, ("", "")))
    sys.exit("%s differs, at printed line %d of %s\ngot:    %s\nwanted: %s\nstatus: %d, wanted %d"
             % (name, line, kept.name, here, there, ran.returncode, status))


def never(counts):
    """The rules of commands that never refused."""
    return [command + ": " + rule for command, rules in admin_rules.RULES.items() for rule in rules
            if rule not in OUT_OF_REACH and not counts[command + ": " + rule]]


def words():
    parser = argparse.ArgumentParser()
    parser.add_argument("program")
    parser.add_argument("scripts", type=int)
    parser.add_argument("--seed", type=int, default=1)
    parser.add_argument("--lines", type=int, default=60)
    parser.add_argument("--grants", dest="command", action="store_const", const="grants", default="replay")
    parser.add_argument("--keep", dest="command", action="store_const", const="keep")
    return parser.parse_args()


def main():
    given = words()
    (maker, kind), counts = KINDS[given.command], collections.Counter()
    making = maker(given.seed)
    for number in range(given.scripts):
        script, text, status, labels_here = long_script() if number == 0 and given.command == "replay" else script_of(making, kind(), given.lines)
        counts.update(labels_here)
        if given.program == "-":
            # what was worked line by line while it was made has to be what the whole script gives
            assert admin_model.worked(script, kind=kind)[:2] == (text, status), script.decode("utf-8", "replace")
        else:
            compare(given.program, given.command, "script %d of seed %d" % (number, given.seed), script, text, status)
    print("%d scripts %s" % (given.scripts, "made" if given.program == "-" else "agree"))
    for label, count in sorted(counts.items()):
        print("%8d %s" % (count, label))
    if never(counts):
        print("never refused: " + ", ".join(never(counts)))


main()
