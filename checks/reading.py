"""JSON that is read: the tables of docs/FORMATS.md as data, and the first fault of a text by them.

A shape is text, truth, word, integer, count or anything; a name or a value of a request; or one of
("list", shape), ("map", shape, shape of its keys), ("record", fields) and ("either", shape): a text, or what the shape says.
A field is (key, needed, shape). A fault is (path, kind), the kind being `syntax`, `type`, `missing` or `range`.
"""

import json

NESTING = 127


class Syntax(ValueError):
    pass


# ---- texts

def whole_number(digits):
    """A number that isn't held in 64 bits is held as one with a fraction; so is `-0`."""
    number = int(digits) if len(digits) < 30 else None
    return number if number is not None and digits != "-0" and -2 ** 63 <= number < 2 ** 64 else fraction(digits)


def fraction(digits):
    number = float(digits)
    if number in (float("inf"), float("-inf")):
        raise Syntax("a number past all that are held")
    return number


def refused(word):
    raise Syntax(word)


def half_of_a_pair(value):
    """Half of a surrogate pair is no character."""
    if isinstance(value, str):
        return any(0xD800 <= ord(c) <= 0xDFFF for c in value)
    return isinstance(value, list) and any(map(half_of_a_pair, value))


def members(pairs):
    """Of equal keys the last counts. What an earlier one had must be a text all the same."""
    if any(half_of_a_pair(key) or half_of_a_pair(value) for key, value in pairs):
        raise Syntax("half of a surrogate pair")
    return dict(pairs)


def nesting(text):
    """How deep lists and maps stand in each other. What stands between quotes counts for nothing."""
    deepest = depth = 0
    in_text = escaped = False
    for char in text:
        if in_text:
            in_text, escaped = char != '"' or escaped, char == "\\" and not escaped
        elif char == '"':
            in_text = True
        elif char in "[{":
            depth += 1
            deepest = max(deepest, depth)
        elif char in "]}":
            depth -= 1
    return deepest


def parsed(text):
    """The value of a text of bytes. Raises ValueError where it is no JSON."""
    text = text.decode("utf-8")
    if nesting(text) > NESTING:
        raise Syntax("nested too deep")
    value = json.loads(text, parse_int=whole_number, parse_float=fraction, parse_constant=refused, object_pairs_hook=members)
    if half_of_a_pair(value):
        raise Syntax("half of a surrogate pair")
    return value


# ---- faults

def number_fault(least, past):
    return lambda value: None if type(value) is int and least <= value < past else "range" if type(value) is int else "type"


def text_fault(least, most):
    return lambda value: "type" if not isinstance(value, str) else None if least <= len(value) <= most else "range"


def kind_fault(*kinds):
    return lambda value: None if type(value) in kinds else "type"


LEAVES = {
    "text": kind_fault(str), "name": text_fault(1, 256), "value": text_fault(0, 4096), "truth": kind_fault(bool),
    "word": lambda value: None if type(value) is bool or value in ("true", "false") else "type",
    "integer": number_fault(-2 ** 63, 2 ** 63), "count": number_fault(0, 2 ** 64), "anything": lambda value: None,
}


def faults(shape, value, path=""):
    """All of them, in the order in which they are judged."""
    if isinstance(shape, str):
        kind = LEAVES[shape](value)
        return [(path, kind)] if kind else []
    kind, inner = shape[:2]
    if kind == "either":
        return [] if isinstance(value, str) else faults(inner, value, path)
    if not isinstance(value, list if kind == "list" else dict):
        return [(path, "type")]
    return {"list": list_faults, "map": map_faults, "record": record_faults}[kind](shape, value, path)


def list_faults(shape, value, path):
    return [fault for place, item in enumerate(value) for fault in faults(shape[1], item, "%s/%d" % (path, place))]


def map_faults(shape, value, path):
    """A key is judged before its value."""
    found = []
    for key in sorted(value):
        here = path + "/" + key
        found += faults(shape[2], key, here) + faults(shape[1], value[key], here)
    return found


def record_faults(shape, value, path):
    found = []
    for key, needed, inner in shape[1]:
        here, given = path + "/" + key, value.get(key)
        found += faults(inner, given, here) if given is not None else [(here, "missing")] if needed else []
    return found


# ---- what is kept

def picked(shape, value):
    """Without the keys that no table has, and without those that are null."""
    kind = shape if isinstance(shape, str) else shape[0]
    if kind == "list":
        return [picked(shape[1], item) for item in value]
    if kind == "map":
        return {key: picked(shape[1], value[key]) for key in sorted(value)}
    if kind == "record":
        return {key: picked(inner, value[key]) for key, _, inner in shape[1] if value.get(key) is not None}
    return picked(shape[1], value) if kind == "either" and not isinstance(value, str) else value


def read(shape, text):
    """The value and None, or None and the first fault."""
    try:
        value = parsed(text)
    except (ValueError, RecursionError):
        return None, ("", "syntax")
    found = faults(shape, value)
    return (None, found[0]) if found else (picked(shape, value), None)


# ---- the tables

def record(*fields):
    return "record", fields


def listed(shape):
    return "list", shape


def mapped(shape, keys="text"):
    return "map", shape, keys


def must(shape, *keys):
    return [(key, True, shape) for key in keys]


def may(shape, *keys):
    return [(key, False, shape) for key in keys]


TEXTS, NAMED = listed("text"), record(*must("text", "name"))
LEVEL = record(*must("text", "name"), *may("integer", "level"), *may("text", "parent"),
               *may("truth", "mandatory", "recursiveSupported", "excludesSupported"),
               *may(record(*may("word", "wildCard", "ignoreCase")), "matcherOptions"))
DEFINITION = record(
    *must("text", "name"), *may(listed(LEVEL), "resources"),
    *may(listed(record(*must("text", "name"), *may(TEXTS, "impliedGrants"))), "accessTypes"),
    *may(listed(record(*must("text", "name"), *may("text", "evaluator"), *may(mapped("text"), "evaluatorOptions"))), "policyConditions"),
    *may(record(*may(listed(record(*must("text", "name"), *may("text", "transformer"))), "maskTypes"),
                *may(listed(NAMED), "accessTypes", "resources")), "dataMaskDef"),
    *may(record(*may(listed(NAMED), "accessTypes", "resources")), "rowFilterDef"))
RESOURCES = mapped(record(*may(TEXTS, "values"), *may("truth", "isExcludes", "isRecursive")))
CONDITIONS = listed(record(*must("text", "type"), *may(TEXTS, "values")))
ITEM = record(*may(listed(record(*must("text", "type"), *may("truth", "isAllowed"))), "accesses"), *may(TEXTS, "users", "groups", "roles"),
              *may(CONDITIONS, "conditions"), *may("truth", "delegateAdmin"),
              *may(record(*may("text", "dataMaskType", "conditionExpr", "valueExpr")), "dataMaskInfo"),
              *may(record(*may("text", "filterExpr")), "rowFilterInfo"))
SCHEDULE = record(*may("text", "startTime", "endTime", "timeZone"), *may(listed("anything"), "recurrences"))
POLICY = record(*may("integer", "id"), *may("text", "guid"), *may("count", "version"), *may("text", "service", "name"),
                *may("integer", "policyType", "policyPriority"), *may(RESOURCES, "resources"), *may(listed(RESOURCES), "additionalResources"),
                *may(CONDITIONS, "conditions"),
                *may(listed(ITEM), "policyItems", "denyPolicyItems", "allowExceptions", "denyExceptions", "dataMaskPolicyItems", "rowFilterPolicyItems"),
                *may(listed(SCHEDULE), "validitySchedules"), *may("text", "zoneName"), *may("truth", "isDenyAllElse", "isEnabled", "isAuditEnabled"))
MEMBERS = listed(("either", NAMED))
ROLE = record(*must("text", "name"), *may(MEMBERS, "users", "groups", "roles"))
ZONE = record(*must("text", "name"), *may(mapped(record(*may(listed(mapped(TEXTS)), "resources"))), "services"),
              *may(TEXTS, "tagServices", "adminUsers", "adminUserGroups", "adminRoles", "auditUsers", "auditUserGroups", "auditRoles"))
TAGS = listed(record(*must("text", "type"), *may(mapped("text"), "attributes")))


def tag_row(service):
    return record(*may("integer", "id"), *service, *may(RESOURCES, "resourceElements"), *may(TAGS, "tags"))


TAG_ROW = tag_row(must("text", "serviceName"))
TIME_ZONES = listed(record(*must("text", "name", "rule")))
SERVICE = record(*must("text", "name", "type"), *may("text", "tagService"), *may("truth", "fallback"))
USER = record(*must("text", "name"), *may(TEXTS, "groups"))
CONFIG = record(*may(TEXTS, "admins"), *may(listed(USER), "users"), *may(TIME_ZONES, "timeZones"), *may(listed(DEFINITION), "serviceDefs"),
                *may(listed(SERVICE), "services"), *must("text", "plugin"))
FACTS = record(*must("text", "service"), *may("truth", "fallback"), *must(DEFINITION, "serviceDef"), *may(DEFINITION, "tagServiceDef"),
               *may(listed(POLICY), "policies", "tagPolicies"), *may(listed(ZONE), "zones"), *may(listed(ROLE), "roles"),
               *may(listed(tag_row(may("text", "serviceName"))), "resources"), *may(TIME_ZONES, "timeZones"),
               *may("count", "policyVersion", "tagVersion", "roleVersion"))
REQUEST = record(*must("name", "user"), *may(listed("name"), "userGroups"),
                 *must(record(*must(mapped("value", "name"), "elements"), *may("text", "ownerUser")), "resource"), *must("name", "accessType"),
                 *may("integer", "accessTime"), *may("text", "clientIPAddress"), *may(mapped("text"), "context"))

COMMANDS = {
    "putDef": must(DEFINITION, "def"), "createService": must(SERVICE, "service"), "updateService": must(SERVICE, "service"),
    "deleteService": must("text", "name"), "createPolicy": must(POLICY, "policy"), "updatePolicy": must(POLICY, "policy"),
    "deletePolicy": must("integer", "id"), "getPolicy": must("integer", "id"), "listPolicies": must("text", "service"),
    "putRole": must(ROLE, "role"), "deleteRole": must("text", "name"), "putZone": must(ZONE, "zone"), "deleteZone": must("text", "name"),
    "putTags": must("integer", "id") + must(TAG_ROW, "row"), "deleteTags": must("integer", "id"),
    "putUser": must(USER, "user"), "deleteUser": must("text", "name"),
    "download": must("text", "service") + may("count", "policiesFrom", "tagsFrom", "rolesFrom"),
}


def read_command(text):
    """The word is read before the other fields, and chooses them."""
    value, fault = read(record(*must("text", "command")), text)
    if fault:
        return None, fault
    if value["command"] not in COMMANDS:
        return None, ("/command", "type")
    return read(record(*must("text", "command"), *COMMANDS[value["command"]]), text)
