#!/usr/bin/env python3
"""Writes scripts that `rangerd-check` reads in the stored runs, and what it has to print for them.

    checks/bad_lines.py kinds SCRIPT OUTPUT      a line of each kind that is bad, with its cause: stdin and stdout of crates/rangerd_check
    checks/bad_lines.py commands SCRIPT OUTPUT   every command with every key missing, null, of another kind and out of range:
                                                 commands.script and commands.output of crates/test_forms/data
    checks/bad_lines.py NAME SCRIPT OUTPUT       a line of each kind that is bad in a script of grants, report, keep or serve; of
                                                 unbegun, a script of serve without a configuration; of begun, one without bad lines:
                                                 NAME.script and NAME.output there

The causes stand in the tables below, which were written from docs/FORMATS.md and docs/RULES.md.
"""

import json
import sys
from pathlib import Path

MEANINGS = {
    "S1": "the name has 1 to 256 characters",
    "S2": "there are 1 to 16 levels with distinct names of 1 to 256 characters",
    "S3": "each parent is empty or names a level of a smaller number",
    "S4": "there are 1 to 1,024 access types with distinct names of 1 to 256 characters",
    "S5": "each implied grant is an access type of the definition",
    "S6": "there are at most 64 conditions, with distinct names that aren't empty",
    "S7": "there are at most 64 mask types, with distinct names that aren't empty, and the parts for masks and filters name access types and levels of the definition",
    "S8": "a definition named tag has the one level tag",
    "E1": "the service exists",
    "E3": "the definition exists",
    "C2": "the name has 1 to 256 characters and no service has it",
    "C3": "the tag service is one of definition tag, and the service itself isn't",
    "C6": "the plugin's service isn't of definition tag",
    "V3": "the type is 0, 1 or 2, and the definition has masks for 1 and filters for 2",
    "V4": "the priority is 0 or 1",
    "V5": "each of at most 16 resource maps names levels of the definition, distinct and on one path, with the mandatory ones above them, and for masks or filters levels of that part",
    "V6": "each level has a value, each value is a pattern, and isExcludes and isRecursive stand only where the level supports them",
    "V7": "items and isDenyAllElse fit the type",
    "V8": "each item has an access type, and each is one of the definition, or of the part for masks or filters",
    "V9": "each condition is supported and has fitting values",
    "V10": "each item names a user, group or role, and each role exists",
    "V11": "each mask and each filter is whole",
    "V12": "each schedule reads and isn't recurring",
    "V14": "the zone exists and lists the service",
    "Z2": "each service exists and isn't of definition tag, each tag service exists and is, and none is listed twice",
    "Z3": "each service has resources, whose levels are distinct, of the definition and on one path",
    "Z4": "each level has a value, and each value is a pattern without {USER}",
    "Z5": "each role exists",
    "Z6": "no two zones overlap",
    "G2": "the levels are distinct, of the definition and on one path, each has a value, each value is a pattern without {USER}, and isExcludes and isRecursive stand only where the level supports them",
    "G3": "there are at most 64 tags, and each type has 1 to 256 characters",
    "U1": "the name and each group have 1 to 256 characters",
    "U2": "the rule of the time zone reads",
}
NO_LINE = "none of facts JSON, config JSON, admin ACTOR JSON, refresh and decide JSON"


def compact(value):
    return json.dumps(value, separators=(",", ":"), ensure_ascii=False)


def breaks(who, rule):
    return f"{who} breaks {rule} ({MEANINGS[rule]})"


# ---- a line of each kind

DEF = {"name": "d", "resources": [{"name": "database"}], "accessTypes": [{"name": "select"}]}
SALES = {"database": {"values": ["sales"]}}
ITEM = {"users": ["ann"], "accesses": [{"type": "select"}]}
MASKS = {**DEF, "dataMaskDef": {"maskTypes": [{"name": "M"}], "accessTypes": [{"name": "select"}]}}
REQUEST = {"user": "ann", "resource": {"elements": {"database": "sales"}}, "accessType": "select", "accessTime": 0}


def facts(definition=DEF, **more):
    return "facts " + compact({"service": "s", "serviceDef": definition, **more})


def policy(definition=DEF, **more):
    return facts(definition, policies=[{"id": 7, "resources": SALES, **more}])


def zones(*rows):
    return facts(zones=list(rows))


def config(**more):
    return "config " + compact({"admins": ["root"], "plugin": "s", "serviceDefs": [DEF], "services": [{"name": "s", "type": "d"}], **more})


def zone_of(name, *values):
    return {"name": name, "services": {"s": {"resources": [{"database": list(values)}]}}}


NOT_READ = [
    ("hello", NO_LINE),
    ("facts", NO_LINE),
    (" facts {}", NO_LINE),
    ("facts\t{}", NO_LINE),
    ("admin root", NO_LINE),
    ("admin  root {}", NO_LINE),
    ("admin " + "x" * 257 + ' {"command":"getPolicy","id":1}', NO_LINE),
    ("refresh ", NO_LINE),
    ("decide", NO_LINE),
    ("facts {", "JSON: syntax"),
    ("facts null", "JSON: type"),
    ("facts  {}", "/service: missing"),
    ('facts {"service":1}', "/service: type"),
    ('facts {"service":"s"}', "/serviceDef: missing"),
    (policy(conditions=[{}]), "/policies/0/conditions/0/type: missing"),
    (policy(version=-1), "/policies/0/version: range"),
    (policy(resources={"b": {"values": []}, "a/c": {"values": 7}}), "/policies/0/resources/a/c/values: type"),
    ("config {}", "/plugin: missing"),
    ('admin root {"command":"getPolicy"}', "/id: missing"),
    ("decide " + compact({**REQUEST, "user": ""}), "/user: range"),
]

TOO_EARLY = [
    ("decide " + compact(REQUEST), "decide before facts or config"),
    ('admin root {"command":"getPolicy","id":1}', "admin before config"),
    ("refresh", "refresh before config"),
]

TAG_DEF = {**DEF, "name": "tag", "resources": [{"name": "tag"}]}


def definition(**more):
    return facts({**DEF, **more})


UNSOUND = [
    (facts(policyVersion=4611686018427387905), "a version is past 2^62"),
    (definition(name=""), breaks("/serviceDef", "S1")),
    (definition(resources=[]), breaks("/serviceDef", "S2")),
    (definition(resources=[{"name": "a", "level": 1}, {"name": "b", "level": 1, "parent": "a"}]), breaks("/serviceDef", "S3")),
    (definition(accessTypes=[]), breaks("/serviceDef", "S4")),
    (definition(accessTypes=[{"name": "all", "impliedGrants": ["select"]}]), breaks("/serviceDef", "S5")),
    (definition(policyConditions=[{"name": ""}]), breaks("/serviceDef", "S6")),
    (definition(rowFilterDef={"accessTypes": [{"name": "nope"}]}), breaks("/serviceDef", "S7")),
    (definition(name="tag"), breaks("/serviceDef", "S8")),
    (facts(tagServiceDef={**TAG_DEF, "accessTypes": []}), breaks("/tagServiceDef", "S4")),
    (facts(tagServiceDef=DEF), "/tagServiceDef isn't named tag"),
    (facts(tagPolicies=[{"id": 1}]), "/tagPolicies without /tagServiceDef"),
    (facts(policies=[{"resources": SALES}]), "the ids of policies aren't positive and distinct"),
    (facts(policies=[{"id": 1, "resources": SALES}, {"id": 1, "resources": SALES}]), "the ids of policies aren't positive and distinct"),
    (facts(roles=[{"name": "r"}, {"name": "r"}]), "/roles/1 has the name of a role before it"),
    (facts(roles=[{"name": "q"}, {"name": "r", "roles": ["x"]}]), "/roles/1 names a role that isn't there"),
    (facts(roles=[{"name": "r", "roles": ["r"]}]), "/roles/0 holds itself"),
    (policy(policyItems=[{"accesses": [{"type": "select"}]}]), breaks("policy 7", "V10")),
    (policy(zoneName="z"), breaks("policy 7", "V14")),
    (policy(policyType=3), breaks("policy 7", "V3")),
    (policy(policyPriority=2), breaks("policy 7", "V4")),
    (policy(resources={}), breaks("policy 7", "V5")),
    (policy(resources={"database": {"values": []}}), breaks("policy 7", "V6")),
    (policy(dataMaskPolicyItems=[ITEM]), breaks("policy 7", "V7")),
    (policy(policyItems=[{"users": ["ann"]}]), breaks("policy 7", "V8")),
    (policy(conditions=[{"type": "nope"}]), breaks("policy 7", "V9")),
    (policy(MASKS, policyType=1, dataMaskPolicyItems=[ITEM]), breaks("policy 7", "V11")),
    (policy(validitySchedules=[{"startTime": "tomorrow"}]), breaks("policy 7", "V12")),
    (zones({"name": "y"}, {"name": "z", "tagServices": ["s"]}), breaks("/zones/1", "Z2")),
    (zones({"name": "z", "services": {"s": {"resources": []}}}), breaks("/zones/0", "Z3")),
    (zones(zone_of("z", "{USER}")), breaks("/zones/0", "Z4")),
    (zones({"name": "z", "adminRoles": ["r"]}), breaks("/zones/0", "Z5")),
    (zones(zone_of("x", "a"), zone_of("y", "b"), zone_of("z", "*")), breaks("/zones/0 with /zones/2", "Z6")),
    (facts(resources=[{"id": 4, "resourceElements": {"nope": {"values": ["a"]}}}]), breaks("tag row 4", "G2")),
    (facts(resources=[{"id": 5, "resourceElements": SALES, "tags": [{"type": ""}]}]), breaks("tag row 5", "G3")),
    (facts(resources=[{"id": 4, "resourceElements": SALES}, {"id": 4, "resourceElements": SALES}]), "two tag rows have one id"),
    (facts(timeZones=[{"name": "x", "rule": "noon"}]), breaks("/timeZones/0", "U2")),
]

REFUSED = [
    (config(serviceDefs=[{**DEF, "name": ""}]), breaks("the configuration", "S1")),
    (config(services=[{"name": "s", "type": "nope"}]), breaks("the configuration", "E3")),
    (config(services=[{"name": "s", "type": "d"}, {"name": "s", "type": "d"}]), breaks("the configuration", "C2")),
    (config(services=[{"name": "s", "type": "d", "tagService": "s"}]), breaks("the configuration", "C3")),
    (config(users=[{"name": ""}]), breaks("the configuration", "U1")),
    (config(timeZones=[{"name": "x", "rule": "noon"}]), breaks("the configuration", "U2")),
    (config(plugin="nope"), breaks("the configuration", "E1")),
    (config(serviceDefs=[TAG_DEF], services=[{"name": "s", "type": "tag"}]), breaks("the configuration", "C6")),
]

GOOD = None

AFTER_CONFIG = [
    (config(), GOOD),
    ("", GOOD),
    ('admin root {"command":"getPolicy","id":1}', GOOD),
    ("refresh", GOOD),
    ("decide " + compact(REQUEST), GOOD),
    (facts(), "facts after config"),
    (config(), "config after config"),
    ('admin root {"command":"shutDown"}', "/command: type"),
    ("decide " + compact({**REQUEST, "resource": {"elements": {"": "sales"}}}), "/resource/elements/: range"),
    ("refresh", GOOD),
    (policy(resources={'a\nline 1: \x1b[2J"b\\': {"values": 7}}), '/policies/0/resources/a\\nline 1: \\u001b[2J\\"b\\\\/values: type'),
]


def kinds():
    return [("# each kind of bad line", GOOD), *NOT_READ, *TOO_EARLY, *UNSOUND, *REFUSED, *AFTER_CONFIG]


# ---- commands

# A record is a list of keys; a key has a name, whether it is needed, and its kind. Kinds: text, truth, integer, count, word (a truth
# or one of the texts for it), any list (whose items aren't looked at), a record, ("list", kind), ("map", kind).
TEXT, TRUTH, INTEGER, COUNT, WORD, ANY_LIST, MEMBER = "text", "truth", "integer", "count", "word", "any list", "member"
NEEDED, FREE = True, False


def a_list(kind):
    return ("list", kind)


def a_map(kind):
    return ("map", kind)


def record(*keys):
    return ("record", list(keys))


TEXTS = a_list(TEXT)
CONDITION = record(("type", NEEDED, TEXT), ("values", FREE, TEXTS))
NAMED = record(("name", NEEDED, TEXT))
RESOURCES = a_map(record(("values", FREE, TEXTS), ("isExcludes", FREE, TRUTH), ("isRecursive", FREE, TRUTH)))
AN_ITEM = record(
    ("accesses", FREE, a_list(record(("type", NEEDED, TEXT), ("isAllowed", FREE, TRUTH)))),
    ("users", FREE, TEXTS),
    ("groups", FREE, TEXTS),
    ("roles", FREE, TEXTS),
    ("conditions", FREE, a_list(CONDITION)),
    ("delegateAdmin", FREE, TRUTH),
    ("dataMaskInfo", FREE, record(("dataMaskType", FREE, TEXT), ("conditionExpr", FREE, TEXT), ("valueExpr", FREE, TEXT))),
    ("rowFilterInfo", FREE, record(("filterExpr", FREE, TEXT))),
)
A_POLICY = record(
    ("id", FREE, INTEGER),
    ("guid", FREE, TEXT),
    ("version", FREE, COUNT),
    ("service", FREE, TEXT),
    ("name", FREE, TEXT),
    ("policyType", FREE, INTEGER),
    ("policyPriority", FREE, INTEGER),
    ("resources", FREE, RESOURCES),
    ("additionalResources", FREE, a_list(RESOURCES)),
    ("conditions", FREE, a_list(CONDITION)),
    ("policyItems", FREE, a_list(AN_ITEM)),
    ("denyPolicyItems", FREE, a_list(AN_ITEM)),
    ("allowExceptions", FREE, a_list(AN_ITEM)),
    ("denyExceptions", FREE, a_list(AN_ITEM)),
    ("dataMaskPolicyItems", FREE, a_list(AN_ITEM)),
    ("rowFilterPolicyItems", FREE, a_list(AN_ITEM)),
    ("validitySchedules", FREE, a_list(record(("startTime", FREE, TEXT), ("endTime", FREE, TEXT), ("timeZone", FREE, TEXT), ("recurrences", FREE, ANY_LIST)))),
    ("zoneName", FREE, TEXT),
    ("isDenyAllElse", FREE, TRUTH),
    ("isEnabled", FREE, TRUTH),
    ("isAuditEnabled", FREE, TRUTH),
)
A_LEVEL = record(
    ("name", NEEDED, TEXT),
    ("level", FREE, INTEGER),
    ("parent", FREE, TEXT),
    ("mandatory", FREE, TRUTH),
    ("recursiveSupported", FREE, TRUTH),
    ("excludesSupported", FREE, TRUTH),
    ("matcherOptions", FREE, record(("wildCard", FREE, WORD), ("ignoreCase", FREE, WORD))),
)
A_DEFINITION = record(
    ("name", NEEDED, TEXT),
    ("resources", FREE, a_list(A_LEVEL)),
    ("accessTypes", FREE, a_list(record(("name", NEEDED, TEXT), ("impliedGrants", FREE, TEXTS)))),
    ("policyConditions", FREE, a_list(record(("name", NEEDED, TEXT), ("evaluator", FREE, TEXT), ("evaluatorOptions", FREE, a_map(TEXT))))),
    ("dataMaskDef", FREE, record(
        ("maskTypes", FREE, a_list(record(("name", NEEDED, TEXT), ("transformer", FREE, TEXT)))),
        ("accessTypes", FREE, a_list(NAMED)),
        ("resources", FREE, a_list(NAMED)),
    )),
    ("rowFilterDef", FREE, record(("accessTypes", FREE, a_list(NAMED)), ("resources", FREE, a_list(NAMED)))),
)
A_SERVICE = record(("name", NEEDED, TEXT), ("type", NEEDED, TEXT), ("tagService", FREE, TEXT), ("fallback", FREE, TRUTH))
A_USER = record(("name", NEEDED, TEXT), ("groups", FREE, TEXTS))
A_ROLE = record(("name", NEEDED, TEXT), ("users", FREE, a_list(MEMBER)), ("groups", FREE, a_list(MEMBER)), ("roles", FREE, a_list(MEMBER)))
A_ZONE = record(
    ("name", NEEDED, TEXT),
    ("services", FREE, a_map(record(("resources", FREE, a_list(a_map(TEXTS)))))),
    *((name, FREE, TEXTS) for name in ("tagServices", "adminUsers", "adminUserGroups", "adminRoles", "auditUsers", "auditUserGroups", "auditRoles")),
)
A_TAG_ROW = record(
    ("id", FREE, INTEGER),
    ("serviceName", NEEDED, TEXT),
    ("resourceElements", FREE, RESOURCES),
    ("tags", FREE, a_list(record(("type", NEEDED, TEXT), ("attributes", FREE, a_map(TEXT))))),
)

COMMANDS = {
    "putDef": [("def", NEEDED, A_DEFINITION)],
    "createService": [("service", NEEDED, A_SERVICE)],
    "updateService": [("service", NEEDED, A_SERVICE)],
    "deleteService": [("name", NEEDED, TEXT)],
    "createPolicy": [("policy", NEEDED, A_POLICY)],
    "updatePolicy": [("policy", NEEDED, A_POLICY)],
    "deletePolicy": [("id", NEEDED, INTEGER)],
    "getPolicy": [("id", NEEDED, INTEGER)],
    "listPolicies": [("service", NEEDED, TEXT)],
    "putRole": [("role", NEEDED, A_ROLE)],
    "deleteRole": [("name", NEEDED, TEXT)],
    "putZone": [("zone", NEEDED, A_ZONE)],
    "deleteZone": [("name", NEEDED, TEXT)],
    "putTags": [("id", NEEDED, INTEGER), ("row", NEEDED, A_TAG_ROW)],
    "deleteTags": [("id", NEEDED, INTEGER)],
    "putUser": [("user", NEEDED, A_USER)],
    "deleteUser": [("name", NEEDED, TEXT)],
    "download": [("service", NEEDED, TEXT), ("policiesFrom", FREE, COUNT), ("tagsFrom", FREE, COUNT), ("rolesFrom", FREE, COUNT)],
}

SCALARS = {TEXT: "a", TRUTH: True, INTEGER: 1, COUNT: 1, WORD: "false", ANY_LIST: [7], MEMBER: {"name": "a"}}
OTHERS = {TEXT: 7, TRUTH: "true", INTEGER: "1", COUNT: 1.5, WORD: "maybe", ANY_LIST: {}, MEMBER: 7}


def whole(kind):
    """A value of this kind with every key."""
    if isinstance(kind, str):
        return SCALARS[kind]
    if kind[0] == "list":
        return [whole(kind[1])]
    if kind[0] == "map":
        return {"k": whole(kind[1])}
    return {name: whole(inner) for name, _, inner in kind[1]}


def least(kind):
    """A value of this kind with the needed keys alone."""
    if isinstance(kind, str):
        return SCALARS[kind]
    if kind[0] == "record":
        return {name: least(inner) for name, needed, inner in kind[1] if needed}
    return [] if kind[0] == "list" else {}


def out_of_range(kind):
    """Integers that aren't of this kind, with how they are told."""
    if kind == INTEGER:
        return [(9223372036854775808, "range"), (-9223372036854775809, "type"), (1.0, "type")]
    if kind == COUNT:
        return [(-1, "range"), (18446744073709551616, "type"), ("1", "type")]
    return []


def spoilt_inner(kind):
    """Spoilt values of what the kind consists of: the value, the path below it, how it is told."""
    if isinstance(kind, str):
        for value, told in out_of_range(kind):
            yield value, "", told
        if kind == MEMBER:
            yield {}, "/name", "missing"
            yield {"name": 7}, "/name", "type"
    elif kind[0] == "list":
        yield [least(kind[1]), None], "/1", "type"
        for value, path, told in spoilt(kind[1]):
            yield [least(kind[1]), value], "/1" + path, told
    elif kind[0] == "map":
        yield {"j": least(kind[1]), "k": None}, "/k", "type"
        for value, path, told in spoilt(kind[1]):
            yield {"j": least(kind[1]), "k": value}, "/k" + path, told
    else:
        for value, path, told in spoilt_keys(kind[1]):
            yield value, path, told


def spoilt(kind):
    """Spoilt values of this kind."""
    if isinstance(kind, str):
        yield OTHERS[kind], "", "type"
    elif kind[0] == "list":
        yield {}, "", "type"
    else:
        yield [], "", "type"
    yield from spoilt_inner(kind)


def spoilt_keys(keys):
    """Maps with the needed ones of these keys and one that is spoilt."""
    good = {name: least(kind) for name, needed, kind in keys if needed}
    for name, needed, kind in keys:
        if needed:
            yield {key: value for key, value in good.items() if key != name}, "/" + name, "missing"
            yield {**good, name: None}, "/" + name, "missing"
        for value, path, told in spoilt(kind):
            yield {**good, name: value}, "/" + name + path, told


def admin(command):
    return "admin root " + compact(command)


def one_of_each(rows):
    """Of rows with one path and telling the first; a key that is missing and one that is null both stay."""
    seen = set()
    for value, path, told in rows:
        if told == "missing" or (path, told) not in seen:
            seen.add((path, told))
            yield value, path, told


TWINS = {"updateService", "updatePolicy"}
READ = "admin after facts"


def command_rows(name, keys):
    yield admin({"command": name, **{key: whole(kind) for key, _, kind in keys}}), READ
    yield admin({**{key: whole(kind) for key, _, kind in keys}, "command": name}), READ
    yield admin({"command": name, **{key: whole(kind) for key, needed, kind in keys if needed}, "more": None}), READ
    if any(not needed for _, needed, _ in keys):
        yield admin({"command": name, **{key: whole(kind) if needed else None for key, needed, kind in keys}}), READ
    if name in TWINS:
        yield admin({"command": name}), "/" + keys[0][0] + ": missing"
        return
    for value, path, told in one_of_each(spoilt_keys(keys)):
        yield admin({"command": name, **value}), f"{path}: {told}"


NO_COMMANDS = [
    ("admin root {", "JSON: syntax"),
    ("admin root null", "JSON: type"),
    ("admin root []", "JSON: type"),
    ('admin root "getPolicy"', "JSON: type"),
    (admin({}), "/command: missing"),
    (admin({"command": None, "id": 1}), "/command: missing"),
    (admin({"command": 7, "id": 1}), "/command: type"),
    (admin({"command": "", "id": 1}), "/command: type"),
    (admin({"command": "GetPolicy", "id": 1}), "/command: type"),
    (admin({"command": "getPolicy ", "id": 1}), "/command: type"),
    (admin({"id": True, "command": "nope"}), "/command: type"),
    (admin({"id": True, "command": "getPolicy"}), "/id: type"),
    ('admin root {"command":"getPolicy","id":1,"command":"nope"}', "/command: type"),
    ('admin root {"command":"nope","id":1,"command":"getPolicy"}', READ),
    (admin({"row": 7, "command": "putTags"}), "/id: missing"),
    (admin({"row": 7, "id": 1, "command": "putTags"}), "/row: type"),
    (admin({"command": "createPolicy", "policy": {"id": "1", "guid": 7}}), "/policy/id: type"),
    (admin({"command": "createPolicy", "policy": {}}), READ),
]


def commands():
    rows = [("# every command, with every key spoilt", GOOD), (facts(), GOOD), *NO_COMMANDS]
    for name, keys in COMMANDS.items():
        rows.extend(command_rows(name, keys))
    rows.extend([("refresh", "refresh after facts"), (facts(), "facts after facts"), (config(), "config after facts"), ("decide " + compact(REQUEST), GOOD)])
    return rows


# ---- scripts of other commands

NO_LINES = {
    "grants": "none of config JSON, admin ACTOR JSON, grant ACTOR JSON, revoke ACTOR JSON and decide JSON",
    "report": "none of facts JSON and report JSON",
    "keep": "none of config JSON, admin ACTOR JSON, reopen and decide JSON",
    "serve": "none of config JSON and admin ACTOR JSON",
}
LOOK = admin({"command": "getPolicy", "id": 1})
DECIDE = "decide " + compact(REQUEST)
ROW = {"service": "s", "resources": SALES, "users": ["ann"], "accessTypes": ["select"]}
QUESTION = {"resource": {"elements": {"database": "sales"}}, "accessTypes": ["select"]}
UNKNOWN_PLUGIN = (config(plugin="nope"), breaks("the configuration", "E1"))
END = None


def grant(row, word="grant"):
    return f"{word} root {compact(row)}"


def grants():
    none = NO_LINES["grants"]
    read = [
        ("# each kind of bad line of grants", GOOD),
        *((line, none) for line in (
            "grant", "grant root", "grant  root {}", "revoke\troot {}", "Grant root {}", "grants root {}", "revoke " + "x" * 257 + " {}",
            "reopen", "report {}", "refresh ", "admin root", "hello")),
        ("grant root {", "JSON: syntax"),
        ("revoke root []", "JSON: type"),
        ("grant root {}", "/service: missing"),
        (grant({**ROW, "service": 7}, "revoke"), "/service: type"),
        (grant({**ROW, "users": ["ann", 7]}), "/users/1: type"),
        (grant({**ROW, "resources": {"a/c": {"values": 7}}}), "/resources/a/c/values: type"),
        (grant({**ROW, "delegateAdmin": "true"}), "/delegateAdmin: type"),
        ('facts {"service":1}', "/service: type"),
        ('admin root {"command":"getPolicy"}', "/id: missing"),
    ]
    early = [
        (facts(), "facts in a script of grants"),
        ("refresh", "refresh in a script of grants"),
        (LOOK, "admin before config"),
        (DECIDE, "decide before config"),
        (grant(ROW), "grant before config"),
        (grant(ROW, "revoke"), "revoke before config"),
        UNKNOWN_PLUGIN,
    ]
    late = [
        (config(), GOOD),
        (grant(ROW), GOOD),
        (DECIDE, GOOD),
        (grant(ROW, "revoke"), GOOD),
        ("", GOOD),
        (LOOK, GOOD),
        (config(), "config after config"),
        (facts(), "facts in a script of grants"),
        ("refresh", "refresh in a script of grants"),
        (grant({**ROW, "service": "nope"}), GOOD),
        ("revoke root null", "JSON: type"),
    ]
    return read + early + late


def report():
    none = NO_LINES["report"]
    read = [
        ("# each kind of bad line of report", GOOD),
        *((line, none) for line in ("report", "report\t{}", "Report {}", "reports {}", " report {}", "grant root {}", "reopen", "facts", "decide", "hello")),
        ("report {", "JSON: syntax"),
        ("report 7", "JSON: type"),
        ("report {}", "/resource: missing"),
        ("report " + compact({**QUESTION, "resource": {"elements": {"": "sales"}}}), "/resource/elements/: range"),
        ("report " + compact({**QUESTION, "accessTypes": [7]}), "/accessTypes/0: type"),
        ("report " + compact({**QUESTION, "accessTime": "noon"}), "/accessTime: type"),
        ("config {}", "/plugin: missing"),
    ]
    early = [
        ("report " + compact(QUESTION), "report before facts"),
        (config(), "config in a script of report"),
        (LOOK, "admin in a script of report"),
        ("refresh", "refresh in a script of report"),
        (DECIDE, "decide in a script of report"),
        (facts(policyVersion=4611686018427387905), "a version is past 2^62"),
    ]
    late = [
        (facts(), GOOD),
        ("report " + compact(QUESTION), GOOD),
        ("#", GOOD),
        (facts(), "facts after facts"),
        (config(), "config in a script of report"),
        (DECIDE, "decide in a script of report"),
        ("report  {}", "/resource: missing"),
        ("report " + compact({"resource": {"elements": {"nope": "sales"}}}), GOOD),
    ]
    return read + early + late


def keep():
    none = NO_LINES["keep"]
    read = [
        ("# each kind of bad line of keep", GOOD),
        *((line, none) for line in ("reopen ", "reopen {}", "Reopen", " reopen", "grant root {}", "report {}", "admin", "admin root", "admin  root {}", "refresh ", "hello")),
        ("admin root {", "JSON: syntax"),
        ('admin root {"command":"getPolicy"}', "/id: missing"),
        ('facts {"service":1}', "/service: type"),
        ("config {}", "/plugin: missing"),
    ]
    early = [
        ("reopen", "reopen before config"),
        (LOOK, "admin before config"),
        (DECIDE, "decide before config"),
        (facts(), "facts in a script of keep"),
        ("refresh", "refresh in a script of keep"),
        UNKNOWN_PLUGIN,
    ]
    late = [
        (config(), GOOD),
        ("reopen", GOOD),
        (admin({"command": "putUser", "user": {"name": "bob"}}), GOOD),
        ("reopen", GOOD),
        (LOOK, GOOD),
        (DECIDE, GOOD),
        (config(), "config after config"),
        (facts(), "facts in a script of keep"),
        ("refresh", "refresh in a script of keep"),
        ('admin root {"command":"shutDown"}', "/command: type"),
        ("reopen", GOOD),
    ]
    return read + early + late


def serve():
    none = NO_LINES["serve"]
    read = [
        ("# each kind of bad line of serve", GOOD),
        *((line, none) for line in ("serve", "grant root {}", "report {}", "reopen", "admin root", "config", "refresh ", "hello")),
        ("config {", "JSON: syntax"),
        ('admin root {"command":"getPolicy"}', "/id: missing"),
        ("decide {}", "/user: missing"),
    ]
    early = [
        (LOOK, "admin before config"),
        (DECIDE, "decide in a script of serve"),
        (facts(), "facts in a script of serve"),
        ("refresh", "refresh in a script of serve"),
        UNKNOWN_PLUGIN,
    ]
    late = [
        (config(), GOOD),
        (LOOK, GOOD),
        ("", GOOD),
        (config(), "config after config"),
        (DECIDE, "decide in a script of serve"),
        ("refresh", "refresh in a script of serve"),
        (LOOK, GOOD),
    ]
    return read + early + late


def unbegun():
    return [("# no configuration that starts", GOOD), (LOOK, "admin before config"), UNKNOWN_PLUGIN, (END, "the script ends before config")]


def begun():
    return [("# nothing bad for grants, keep and serve", GOOD), (config(), GOOD), (LOOK, GOOD), ("", GOOD), (admin({"command": "putUser", "user": {"name": "bob"}}), GOOD)]


def main(which, script_path, output_path):
    rows = {"kinds": kinds, "commands": commands, "grants": grants, "report": report, "keep": keep, "serve": serve, "unbegun": unbegun, "begun": begun}[which]()
    script = "".join(line + "\n" for line, _ in rows if line is not END)
    told = "".join(f"line {place + 1}: {why}\n" for place, (_, why) in enumerate(rows) if why is not GOOD)
    Path(script_path).write_text(script)
    Path(output_path).write_text(told)


if __name__ == "__main__":
    main(*sys.argv[1:])
