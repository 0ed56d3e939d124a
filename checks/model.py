"""The rules of decision once more, in Python, written from docs/RULES.md and not from the program.

Records are plain dictionaries with the JSON names of docs/FORMATS.md, all fields present (records.py fills them). Speed is no aim.

usage: checks/model.py < SCRIPT      prints what `rangerd replay` is to print, for a script whose JSON reads
"""

import collections
import functools
import io
import itertools
import json
import re
import struct
import sys
import zoneinfo
from datetime import datetime, timezone

import records

KINDS = ("accessed-after-expiry", "ip-range", "context-value-in", "context-value-not-in")
LAST_INSTANT = 253402207200  # 9999-12-30T22:00:00Z, asked in zones other than UTC


# ---- patterns

def atoms(text, wild):
    """A written value is read from the left."""
    read, at = [], 0
    while at < len(text):
        if text.startswith("{USER}", at):
            read.append(("user",))
            at += len("{USER}")
            continue
        char = text[at]
        read.append(("any",) if wild and char == "*" else ("one",) if wild and char == "?" else ("char", char))
        at += 1
    return read


def twin(pattern):
    return pattern + ([] if pattern and pattern[-1] == ("char", "/") else [("char", "/")]) + [("any",)]


def folded(text, fold):
    return "".join(c.lower() if fold and "A" <= c <= "Z" else c for c in text)


def stands(pattern, text, user, fold):
    """All cuts of the text."""
    text, user = folded(text, fold), folded(user, fold)

    @functools.lru_cache(None)
    def fits(place, at):
        if place == len(pattern):
            return at == len(text)
        kind = pattern[place][0]
        if kind == "char":
            return at < len(text) and folded(pattern[place][1], fold) == text[at] and fits(place + 1, at + 1)
        if kind == "one":
            return at < len(text) and fits(place + 1, at + 1)
        if kind == "user":
            return text.startswith(user, at) and fits(place + 1, at + len(user))
        return any(fits(place + 1, rest) for rest in range(at, len(text) + 1))

    return fits(0, 0)


def places_after(pattern, places, char, fold):
    """The places of a pattern that one more character leads to. No `{USER}` here."""
    after = set()
    for place in places:
        if place < len(pattern):
            kind = pattern[place][0]
            if kind == "any":
                after.add(place)
            elif kind == "one" or folded(pattern[place][1], fold) == char:
                after.add(place + 1)
    return with_none_taken(pattern, after)


def with_none_taken(pattern, places):
    """`*` may also stand for no character."""
    more = {place + 1 for place in places if place < len(pattern) and pattern[place][0] == "any"} - places
    return with_none_taken(pattern, places | more) if more else frozenset(places)


def common_text(one, other, fold):
    """A shortest text that both patterns stand for, None where there is none: both are walked at once, by breadth."""
    letters = {folded(atom[1], fold) for atom in one + other if atom[0] == "char"}
    letters.add(next(c for c in map(chr, range(ord("a"), 0x3000)) if c not in letters))
    start = with_none_taken(one, {0}), with_none_taken(other, {0})
    seen, waiting = {start}, collections.deque([("", start)])
    while waiting:
        text, (left, right) = waiting.popleft()
        if len(one) in left and len(other) in right:
            return text
        for char in sorted(letters):
            both = places_after(one, left, char, fold), places_after(other, right, char, fold)
            if all(both) and both not in seen:
                seen.add(both)
                waiting.append((text + char, both))
    return None


# ---- service definitions

def named(things, name):
    return next((thing for thing in things if thing["name"] == name), None)


def names(things):
    return [thing["name"] for thing in things]


def ancestors(definition, name):
    above, level = [], named(definition["resources"], name)
    while level["parent"]:
        above.append(level["parent"])
        level = named(definition["resources"], level["parent"])
    return above


def paths(definition):
    levels = definition["resources"]
    leaves = [l for l in levels if not any(m["parent"] == l["name"] for m in levels)]
    return [[leaf["name"]] + ancestors(definition, leaf["name"]) for leaf in leaves]


def on_one_path(definition, levels):
    return any(all(name in path for name in levels) for path in paths(definition))


def is_name(text):
    return 1 <= len(text) <= 256


def distinct(things):
    return len(set(things)) == len(things)


def are_names(things):
    return all(map(is_name, names(things))) and distinct(names(things))


def are_written(things):
    """At most 64, with distinct names that aren't empty."""
    return len(things) <= 64 and all(names(things)) and distinct(names(things))


def has_parent(definition, level):
    above = named(definition["resources"], level["parent"])
    return not level["parent"] or (above is not None and above["level"] < level["level"])


def part_is_of(definition, part):
    return all(named(definition[kind], name) for kind in ("accessTypes", "resources") for name in names(part[kind]))


RULES_OF_A_DEFINITION = {
    "S1": lambda d: is_name(d["name"]),
    "S2": lambda d: 1 <= len(d["resources"]) <= 16 and are_names(d["resources"]),
    "S3": lambda d: all(has_parent(d, level) for level in d["resources"]),
    "S4": lambda d: 1 <= len(d["accessTypes"]) <= 1024 and are_names(d["accessTypes"]),
    "S5": lambda d: all(named(d["accessTypes"], grant) for kind in d["accessTypes"] for grant in kind["impliedGrants"]),
    "S6": lambda d: are_written(d["policyConditions"]),
    "S7": lambda d: (are_written(d["dataMaskDef"]["maskTypes"]) and part_is_of(d, d["dataMaskDef"])
                     and part_is_of(d, d["rowFilterDef"])),
    "S8": lambda d: d["name"] != "tag" or names(d["resources"]) == ["tag"],
}


def first_broken(rules, *things):
    return next((rule for rule, passes in rules.items() if not passes(*things)), None)


def grants(definition, given, asked):
    kind = named(definition["accessTypes"], given)
    return given == asked or (kind is not None and asked in kind["impliedGrants"])


# ---- resources

def is_hit(level, resource, value, user):
    wild, fold = level["matcherOptions"]["wildCard"], level["matcherOptions"]["ignoreCase"]
    return any(stands(pattern, value, user, fold) for pattern in forms(resource, wild)) != resource["isExcludes"]


def forms(resource, wild):
    """The written values, and their twins where the level is recursive."""
    written = [atoms(text, wild) for text in resource["values"]]
    return written + ([twin(pattern) for pattern in written] if resource["isRecursive"] else [])


def lies(definition, resources, elements, user, down=False):
    """At the very depth, or also below."""
    if not elements or not on_one_path(definition, list(resources) + list(elements)):
        return False
    for name, resource in resources.items():
        if name in elements:
            if not is_hit(named(definition["resources"], name), resource, elements[name], user):
                return False
        elif resource["isExcludes"] or "*" not in resource["values"]:
            return False
    return down or all(name in resources for name in elements)


def maps_of_policy(policy):
    return [policy["resources"]] + policy["additionalResources"]


# ---- conditions

def kind_of(condition):
    return next((text for text in (condition["evaluator"], condition["name"]) if text in KINDS), None)


def compiles(definition, condition):
    row = named(definition["policyConditions"], condition["type"])
    if row is None or kind_of(row) is None:
        return False
    if kind_of(row).startswith("context") and "attributeName" not in row["evaluatorOptions"]:
        return False
    if kind_of(row) == "accessed-after-expiry":
        return len(condition["values"]) == 1 and condition["values"][0] in ("yes", "true", "no", "false")
    return bool(condition["values"])


def has_expired(tag, moment):
    """False without a tag, and where the tag has no date that reads. A date alone is the beginning of its day."""
    text = tag["attributes"].get("expiry_date", "") if tag else ""
    ends = [instant(text), instant(text + " 00:00:00")]
    return any(end is not None and end < moment for end in ends)


def holds(definition, condition, request, tag):
    row, values = named(definition["policyConditions"], condition["type"]), condition["values"]
    kind = kind_of(row)
    if kind == "accessed-after-expiry":
        return has_expired(tag, request["accessTime"]) == (values[0] in ("yes", "true"))
    if kind == "ip-range":
        address = request["clientIPAddress"]
        return bool(address) and any(v == address or (v.endswith("*") and address.startswith(v[:-1])) for v in values)
    key = row["evaluatorOptions"]["attributeName"]
    return (key in request["context"] and request["context"][key] in values) == (kind == "context-value-in")


# ---- schedules

def fields(text):
    """The six numbers of a date with a time of day, None where the text is none."""
    if not re.fullmatch("[0-9]{4}/[0-9]{2}/[0-9]{2} [0-9]{2}:[0-9]{2}:[0-9]{2}", text):
        return None
    read = year, month, day, hour, minute, second = tuple(map(int, re.split("[/ :]", text)))
    is_date = 1 <= month <= 12 and 1 <= day <= days_of(year, month)
    return read if is_date and hour <= 23 and minute <= 59 and second <= 59 else None


def days_of(year, month):
    leap = year % 4 == 0 and (year % 100 != 0 or year % 400 == 0)
    return 29 if month == 2 and leap else (31, 28, 31, 30, 31, 30, 31, 31, 30, 31, 30, 31)[month - 1]


def instant(text):
    """Seconds since 1970 in UTC, None where the text is no date with a time of day."""
    read = fields(text)
    return None if read is None else in_zone(read, None)


def in_zone(read, zone):
    """The calendar repeats itself after 400 years, and Python's begins with the year 1."""
    year, *rest = read
    shift = 400 if year < 1 else 0
    return int((datetime(year + shift, *rest, tzinfo=zone or timezone.utc)
                - datetime(1970 + shift, 1, 1, tzinfo=timezone.utc)).total_seconds())


@functools.lru_cache(None)
def posix_zone(rule):
    """A time zone file that has the rule alone; None where Python doesn't read it."""
    head = lambda: b"TZif2" + bytes(15) + struct.pack(">6l", 0, 0, 0, 0, 1, 4)
    block = struct.pack(">lbb", 0, 0, 0) + b"UTC\0"
    try:
        return rule and zoneinfo.ZoneInfo.from_file(io.BytesIO(head() + block + head() + block + b"\n" + rule.encode() + b"\n")) or None
    except ValueError:
        return None


def moment_of(facts, schedule, text):
    """In the schedule's zone, a skipped or repeated local time by the offset before the change; None where it is none."""
    read, name = fields(text), schedule["timeZone"]
    if read is None or name in ("", "UTC", "GMT"):
        return None if read is None else in_zone(read, None)
    moment = in_zone(read, posix_zone(named(facts["timeZones"], name)["rule"]))
    return moment if moment <= LAST_INSTANT else None


def reads(facts, schedule):
    ends = [schedule["startTime"], schedule["endTime"]]
    if schedule["timeZone"] not in ["", "UTC", "GMT"] + names(facts["timeZones"]):
        return False
    if any(text and moment_of(facts, schedule, text) is None for text in ends):
        return False
    return not all(ends) or moment_of(facts, schedule, ends[0]) <= moment_of(facts, schedule, ends[1])


def contains(facts, schedule, moment):
    start, end = schedule["startTime"], schedule["endTime"]
    return ((not start or moment_of(facts, schedule, start) <= moment)
            and (not end or moment <= moment_of(facts, schedule, end)))


# ---- roles

def role_holds(rows, role, user, groups):
    """The least relation: roles are added as long as one more holds the user."""
    holding = set()
    while True:
        more = {row["name"] for row in rows
                if user in row["users"] or any(group in row["groups"] for group in groups) or "public" in row["groups"]
                or any(below in holding for below in row["roles"])} - holding
        if not more:
            return role in holding
        holding |= more


def roles_below(rows, row):
    """All roles that a chain leads to."""
    below = set(row["roles"])
    while True:
        more = {role for other in rows if other["name"] in below for role in other["roles"]} - below
        if not more:
            return below
        below |= more


def role_fault(rows):
    """The first fault of rows, and the place of the first row that has it."""
    tests = (("duplicate", lambda place, row: row["name"] in names(rows[:place])),
             ("unknown", lambda place, row: any(role not in names(rows) for role in row["roles"])),
             ("cycle", lambda place, row: row["name"] in roles_below(rows, row)))
    return next(((fault, place) for fault, has in tests for place, row in enumerate(rows) if has(place, row)), None)


# ---- zones

def zone_form(definition, levels):
    """A level of a zone never excludes, and is recursive where the definition supports it."""
    return {name: {"values": values, "isExcludes": False,
                   "isRecursive": named(definition["resources"], name)["recursiveSupported"]} for name, values in levels.items()}


def maps_of(zone, service):
    return zone["services"][service]["resources"] if service in zone["services"] else []


def zones_of(facts, elements):
    """All zones that the resource lies in, or below."""
    definition = facts["serviceDef"]
    return [zone for zone in facts["zones"]
            if any(lies(definition, zone_form(definition, levels), elements, "", down=True) for levels in maps_of(zone, facts["service"]))]


def zone_of(facts, elements):
    return next(iter(zones_of(facts, elements)), None)


def text_in_both(definition, name, forms_here, forms_there):
    """A text for a level that fits both maps; one that doesn't name the level takes any."""
    level = named(definition["resources"], name)
    anything = [[("any",)]]
    texts = (common_text(one, other, level["matcherOptions"]["ignoreCase"])
             for one in forms_here or anything for other in forms_there or anything)
    return next((text for text in texts if text is not None), None)


def resource_in_both(definition, one, other):
    """A resource that lies in both maps: a text for each level of every set of levels, and a look whether it lies there."""
    pair = zone_form(definition, one), zone_form(definition, other)
    texts = {}
    for level in definition["resources"]:
        ways = [forms(form[level["name"]], level["matcherOptions"]["wildCard"]) if level["name"] in form else None for form in pair]
        texts[level["name"]] = text_in_both(definition, level["name"], *ways)
    able = [name for name, text in texts.items() if text is not None]
    for count in range(1, len(able) + 1):
        for chosen in itertools.combinations(able, count):
            elements = {name: texts[name] for name in chosen}
            if all(lies(definition, form, elements, "", down=True) for form in pair):
                return elements
    return None


def overlapping(definition, zones, service):
    """The least pair of places of zones that some resource lies in both of."""
    return next(((low, high) for (low, one), (high, other) in itertools.combinations(enumerate(zones), 2)
                 for here in maps_of(one, service) for there in maps_of(other, service)
                 if resource_in_both(definition, here, there)), None)


# ---- tags

def tags_of(facts, elements):
    """All tags of all rows that the resource lies in, or below."""
    return [tag for row in facts["resources"] if lies(facts["serviceDef"], row["resourceElements"], elements, "", down=True)
            for tag in row["tags"]]


# ---- sound facts

def levels_fit(definition, resources):
    return bool(resources) and all(named(definition["resources"], name) for name in resources) and on_one_path(definition, resources)


def has_mandatory(definition, resources):
    above = {name for level in resources for name in ancestors(definition, level)}
    return all(level["name"] in resources for level in definition["resources"] if level["mandatory"] and level["name"] in above)


def values_fit(definition, resources):
    for name, resource in resources.items():
        level = named(definition["resources"], name)
        if not resource["values"] or not all(map(is_name, resource["values"])):
            return False
        if resource["isExcludes"] and not level["excludesSupported"] or resource["isRecursive"] and not level["recursiveSupported"]:
            return False
    return True


def items_of(policy):
    return [item for name in records.ITEM_LISTS for item in policy[name]]


def part_of(definition, policy):
    """What the definition says of policies of the type."""
    return {0: {"accessTypes": definition["accessTypes"], "resources": []},
            1: definition["dataMaskDef"], 2: definition["rowFilterDef"]}[policy["policyType"]]


def type_is_known(definition, policy):
    kind = policy["policyType"]
    return kind in (0, 1, 2) and (kind != 1 or bool(definition["dataMaskDef"]["maskTypes"])) and (
        kind != 2 or bool(definition["rowFilterDef"]["accessTypes"]))


def levels_are_listed(definition, policy):
    listed = names(part_of(definition, policy)["resources"])
    return not listed or all(name in listed for resources in maps_of_policy(policy) for name in resources)


def maps_fit(definition, policy):
    """At most 15 maps beside the first, each of levels of the definition that lie together."""
    return len(policy["additionalResources"]) <= 15 and all(
        levels_fit(definition, resources) and has_mandatory(definition, resources) for resources in maps_of_policy(policy))


def has_its_items_alone(policy):
    own = {0: records.ACCESS_LISTS, 1: ("dataMaskPolicyItems",), 2: ("rowFilterPolicyItems",)}[policy["policyType"]]
    return (not any(policy[name] for name in records.ITEM_LISTS if name not in own)
            and not (policy["policyType"] and policy["isDenyAllElse"]))


def entries_fit(definition, policy, item):
    return bool(item["accesses"]) and all(named(part_of(definition, policy)["accessTypes"], a["type"]) for a in item["accesses"])


def subjects_fit(facts, item):
    return bool(item["users"] or item["groups"] or item["roles"]) and all(named(facts["roles"], role) for role in item["roles"])


def mask_fits(definition, item):
    mask = item["dataMaskInfo"]
    return (mask is not None and named(definition["dataMaskDef"]["maskTypes"], mask["dataMaskType"]) is not None
            and (mask["dataMaskType"] != "CUSTOM" or bool(mask["valueExpr"])))


def counts_as_tag_service(facts):
    return facts["serviceDef"]["name"] == "tag"


def zone_lists(facts, zone):
    return facts["service"] in (zone["tagServices"] if counts_as_tag_service(facts) else zone["services"])


def zone_is_known(facts, policy, is_tag):
    """For a tag policy any zone of the list will do."""
    return not policy["zoneName"] or any(zone["name"] == policy["zoneName"] and (is_tag or zone_lists(facts, zone))
                                         for zone in facts["zones"])


RULES_OF_A_POLICY = {
    "V3": lambda f, d, p, is_tag: type_is_known(d, p),
    "V4": lambda f, d, p, is_tag: p["policyPriority"] in (0, 1),
    "V5": lambda f, d, p, is_tag: maps_fit(d, p) and levels_are_listed(d, p),
    "V6": lambda f, d, p, is_tag: all(values_fit(d, resources) for resources in maps_of_policy(p)),
    "V7": lambda f, d, p, is_tag: has_its_items_alone(p),
    "V8": lambda f, d, p, is_tag: all(entries_fit(d, p, item) for item in items_of(p)),
    "V9": lambda f, d, p, is_tag: all(compiles(d, c) for holder in [p] + items_of(p) for c in holder["conditions"]),
    "V10": lambda f, d, p, is_tag: all(subjects_fit(f, item) for item in items_of(p)),
    "V11": lambda f, d, p, is_tag: (all(mask_fits(d, item) for item in p["dataMaskPolicyItems"])
                                    and all(item["rowFilterInfo"]["filterExpr"] for item in p["rowFilterPolicyItems"])),
    "V12": lambda f, d, p, is_tag: all(not s["recurrences"] and reads(f, s) for s in p["validitySchedules"]),
    "V14": lambda f, d, p, is_tag: zone_is_known(f, p, is_tag),
}


def own_maps(facts):
    return [levels for zone in facts["zones"] for levels in maps_of(zone, facts["service"])]


def services_fit(facts, zone):
    """The facts' own service alone is asked about."""
    if counts_as_tag_service(facts):
        return facts["service"] not in zone["services"] and zone["tagServices"].count(facts["service"]) <= 1
    return facts["service"] not in zone["tagServices"]


def is_plain(texts):
    return all("{USER}" not in text for text in texts)


RULES_OF_ZONES = {
    "Z2": lambda f: all(services_fit(f, zone) for zone in f["zones"]),
    "Z3": lambda f: (all(maps_of(zone, f["service"]) for zone in f["zones"] if f["service"] in zone["services"])
                     and all(levels_fit(f["serviceDef"], levels) for levels in own_maps(f))),
    "Z4": lambda f: all(values and all(map(is_name, values)) and is_plain(values) for levels in own_maps(f) for values in levels.values()),
    "Z5": lambda f: all(named(f["roles"], role) for zone in f["zones"] for role in zone["adminRoles"] + zone["auditRoles"]),
    "Z6": lambda f: overlapping(f["serviceDef"], f["zones"], f["service"]) is None,
}

RULES_OF_A_TAG_ROW = {
    "G2": lambda d, row: (levels_fit(d, row["resourceElements"]) and values_fit(d, row["resourceElements"])
                          and all(is_plain(one["values"]) for one in row["resourceElements"].values())),
    "G3": lambda d, row: len(row["tags"]) <= 64 and all(is_name(tag["type"]) for tag in row["tags"]),
}


def faults(facts):
    """What makes the facts unsound, in an order in which each question can be asked."""
    definition, tag_definition = facts["serviceDef"], facts["tagServiceDef"]
    if max(facts["policyVersion"], facts["tagVersion"], facts["roleVersion"]) > 2 ** 62:
        yield "versions"
    yield first_broken(RULES_OF_A_DEFINITION, definition)
    if tag_definition:
        if tag_definition["name"] != "tag":
            yield "tag definition's name"
        yield prefixed("tag ", first_broken(RULES_OF_A_DEFINITION, tag_definition))
    elif facts["tagPolicies"]:
        yield "tag policies without a tag definition"
    if not all(posix_zone(row["rule"]) for row in facts["timeZones"]):
        yield "time zones"
    yield prefixed("role ", (role_fault(facts["roles"]) or (None, 0))[0])
    yield first_broken(RULES_OF_ZONES, facts)
    ids = [p["id"] for p in facts["policies"] + facts["tagPolicies"]]
    if min(ids, default=1) < 1:
        yield "policy id below 1"
    if not distinct(ids):
        yield "policy ids"
    for policy in facts["policies"]:
        yield first_broken(RULES_OF_A_POLICY, facts, definition, policy, False)
    for policy in facts["tagPolicies"]:
        yield prefixed("tag ", first_broken(RULES_OF_A_POLICY, facts, tag_definition, policy, True))
    for row in facts["resources"]:
        yield first_broken(RULES_OF_A_TAG_ROW, definition, row)
    if not distinct([row["id"] for row in facts["resources"]]):
        yield "tag row ids"


def prefixed(word, rule):
    return rule and word + rule


def first_fault(facts):
    """None where the facts are sound."""
    return next((fault for fault in faults(facts) if fault), None)


# ---- the flow

# A policy that is asked: the definition, access and tag that it is asked under.
Asked = collections.namedtuple("Asked", "side policy definition access tag")


def asked_policies(facts, request):
    """Those that the zone chooses; a tag policy once for each tag."""
    elements, component = request["resource"]["elements"], facts["serviceDef"]["name"]
    zone, tags = zone_of(facts, elements), tags_of(facts, elements)
    name = zone["name"] if zone else ""
    tag_name = lambda policy: name if zone and policy["service"] in zone["tagServices"] else ""
    return ([Asked("tag", policy, facts["tagServiceDef"], component + ":" + request["accessType"], tag)
             for policy in facts["tagPolicies"] if policy["zoneName"] == tag_name(policy) for tag in tags]
            + [Asked("resource", policy, facts["serviceDef"], request["accessType"], None)
               for policy in facts["policies"] if policy["zoneName"] == name])


def fits_resource(asked, request):
    """One of the policy's maps does."""
    user, maps = request["user"], maps_of_policy(asked.policy)
    if asked.side == "tag":
        return any(is_hit(named(asked.definition["resources"], "tag"), resources["tag"], asked.tag["type"], user) for resources in maps)
    return any(lies(asked.definition, resources, request["resource"]["elements"], user) for resources in maps)


def in_play(facts, asked, request):
    policy, schedules = asked.policy, asked.policy["validitySchedules"]
    return (policy["isEnabled"] and (not schedules or any(contains(facts, s, request["accessTime"]) for s in schedules))
            and all(holds(asked.definition, c, request, asked.tag) for c in policy["conditions"])
            and fits_resource(asked, request))


def names_asker(facts, item, request):
    owner, user, groups = request["resource"]["ownerUser"], request["user"], request["userGroups"]
    return (user in item["users"] or "{USER}" in item["users"]
            or ("{OWNER}" in item["users"] and bool(owner) and owner == user)
            or any(group in item["groups"] for group in groups) or "public" in item["groups"]
            or any(role_holds(facts["roles"], role, user, groups) for role in item["roles"]))


def item_matches(facts, asked, item, request):
    return (any(a["isAllowed"] and grants(asked.definition, a["type"], asked.access) for a in item["accesses"])
            and names_asker(facts, item, request) and all(holds(asked.definition, c, request, asked.tag) for c in item["conditions"]))


def effect(facts, asked, request):
    deny, except_deny, allow, except_allow = (
        any(item_matches(facts, asked, item, request) for item in asked.policy[name])
        for name in ("denyPolicyItems", "denyExceptions", "policyItems", "allowExceptions"))
    if deny and not except_deny:
        return "DENIED"
    if allow and not except_allow:
        return "ALLOWED"
    return "DENIED" if asked.policy["isDenyAllElse"] else None


CELLS = [(priority, access, side) for priority in (1, 0) for access in ("DENIED", "ALLOWED") for side in ("tag", "resource")]
Verdict = collections.namedtuple("Verdict", "cell access policy audited mask row_filter")


def decide(facts, request):
    """The cell is counted from 1, and 0 where no policy decides."""
    playing = [asked for asked in asked_policies(facts, request) if in_play(facts, asked, request)]
    effects = [(asked, effect(facts, asked, request)) for asked in playing if asked.policy["policyType"] == 0]
    for number, cell in enumerate(CELLS, 1):
        policies = [asked.policy for asked, access in effects if (asked.policy["policyPriority"], access, asked.side) == cell]
        if policies:
            named_policy = min(policies, key=lambda p: p["id"])
            beside = (mask_of(facts, playing, request), filter_of(facts, playing, request)) if cell[1] == "ALLOWED" else (None, None)
            return Verdict(number, cell[1], named_policy["id"], named_policy["isAuditEnabled"], *beside)
    return Verdict(0, "UNDETERMINED" if facts["fallback"] else "DENIED", -1, True, None, None)


# ---- row filter and mask

def deciding_item(facts, playing, request, kind, items):
    """Priority 1 first, tag before resource, the least policy id, the least place."""
    matching = [(-asked.policy["policyPriority"], asked.side != "tag", asked.policy["id"], place, asked, item)
                for asked in playing if asked.policy["policyType"] == kind
                for place, item in enumerate(asked.policy[items]) if item_matches(facts, asked, item, request)]
    return min(matching, key=lambda one: one[:4])[4:] if matching else (None, None)


def filter_of(facts, playing, request):
    _, item = deciding_item(facts, playing, request, 2, "rowFilterPolicyItems")
    return item and item["rowFilterInfo"]["filterExpr"]


def mask_of(facts, playing, request):
    asked, item = deciding_item(facts, playing, request, 1, "dataMaskPolicyItems")
    if item is None or item["dataMaskInfo"]["dataMaskType"] == "MASK_NONE":
        return None
    kind = item["dataMaskInfo"]["dataMaskType"]
    text = (item["dataMaskInfo"]["valueExpr"] if kind == "CUSTOM"
            else named(asked.definition["dataMaskDef"]["maskTypes"], kind)["transformer"])
    return {"expr": text.replace("{col}", deepest_value(facts["serviceDef"], request["resource"]["elements"])), "type": kind}


def deepest_value(definition, elements):
    return elements[max(elements, key=lambda name: len(ancestors(definition, name)))]


# ---- scripts

def printed(facts, verdict, serial=1):
    return json.dumps({"access": verdict.access, "audited": verdict.audited, "mask": verdict.mask, "policyId": verdict.policy,
                       "policyVersion": facts["policyVersion"], "rowFilter": verdict.row_filter, "serial": serial,
                       "tagVersion": facts["tagVersion"]}, separators=(",", ":"), ensure_ascii=False)


def main():
    facts = None
    for number, line in enumerate(sys.stdin.read().split("\n"), 1):
        word, _, text = line.partition(" ")
        if word == "facts":
            facts = records.facts(json.loads(text))
            if first_fault(facts):
                sys.exit("bad line %d (%s)" % (number, first_fault(facts)))
        elif word == "decide":
            print(printed(facts, decide(facts, records.request(json.loads(text)))))


if __name__ == "__main__":
    main()
