"""The rules of administration once more, in Python, written from the rules and not from the program.

A state is a dictionary: admins, users, timeZones, serviceDefs, services, policies, zones, roles, tagRows, plugin, nextId, count,
roleVersion, and logs, one for each service. Its records are those of records.py. A command is one with `command` and its fields.
Each command has its rules in the order in which they are tried; a rule is a name and a test of state, actor and command.
"""

import model

FIRST_PAST_ALL = 2 ** 62


# ---- look-ups

def definition_of(state, service):
    """None where the service isn't there."""
    row = model.named(state["services"], service)
    return row and model.named(state["serviceDefs"], row["type"])


def is_of_tags(state, service):
    row = model.named(state["services"], service)
    return row is not None and row["type"] == "tag"


def numbered(rows, number):
    return next((row for row in rows if row["id"] == number), None)


def in_place(rows, row, key="name"):
    """The row in the place of the one that has its name or id, or at the end."""
    replaced = [row if one[key] == row[key] else one for one in rows]
    return replaced if any(one[key] == row[key] for one in rows) else rows + [row]


def under(state, service, definition=None):
    """What the rules of the model look at: the state as facts of one service."""
    return {"service": service, "serviceDef": definition or definition_of(state, service), "roles": state["roles"],
            "timeZones": state["timeZones"], "zones": state["zones"]}


# ---- definitions and services

def is_kept(state, definition):
    """None where all that stands under the definition of this name passes under the new one, else the rule that it breaks."""
    services = [row["name"] for row in state["services"] if row["type"] == definition["name"]]
    for policy in state["policies"]:
        if policy["service"] in services:
            broken = first_of("V3 V5 V6 V7 V8 V9 V11", lambda rule: policy_passes(rule, under(state, policy["service"], definition), policy))
            if broken:
                return broken
    for service in services:
        broken = first_of("Z3 Z4 Z6", lambda rule: model.RULES_OF_ZONES[rule](under(state, service, definition)))
        if broken:
            return broken
    rows = [row for row in state["tagRows"] if row["serviceName"] in services]
    return None if all(model.RULES_OF_A_TAG_ROW["G2"](definition, row) for row in rows) else "G2"


def first_of(rules, passes):
    return next((rule for rule in rules.split() if not passes(rule)), None)


def tag_service_fits(state, row):
    return not row["tagService"] or (is_of_tags(state, row["tagService"]) and row["type"] != "tag")


def is_unused(state, name):
    return not (name == state["plugin"] or any(policy["service"] == name for policy in state["policies"])
                or any(row["serviceName"] == name for row in state["tagRows"])
                or any(name in zone["services"] or name in zone["tagServices"] for zone in state["zones"])
                or any(row["tagService"] == name for row in state["services"]))


# ---- policies

def policy_passes(rule, facts, policy):
    return model.RULES_OF_A_POLICY[rule](facts, facts["serviceDef"], policy, False)


def others(state, policy, updated):
    """The other policies of its service and zone."""
    return [one for one in state["policies"] if one["id"] != updated and (one["service"], one["zoneName"]) == (policy["service"], policy["zoneName"])]


def plain_map(resources):
    """Values count without order and repeats."""
    return {name: (frozenset(one["values"]), one["isExcludes"], one["isRecursive"]) for name, one in resources.items()}


def same_maps(policy, other):
    """Each map of the one is the same as some map of the other, both ways."""
    here, there = ([plain_map(resources) for resources in model.maps_of_policy(one)] for one in (policy, other))
    return all(one in there for one in here) and all(one in here for one in there)


def is_alone(state, policy, updated):
    alike = lambda other: all(policy[key] == other[key] for key in ("policyType", "policyPriority", "validitySchedules"))
    return not policy["isEnabled"] or not any(other["isEnabled"] and alike(other) and same_maps(policy, other)
                                              for other in others(state, policy, updated))


def stays(state, policy):
    """An update leaves the service and the zone as they were."""
    old = numbered(state["policies"], policy["id"])
    return all(policy[key] == old[key] for key in ("service", "zoneName"))


def own_number(command):
    """The id of the policy that is updated."""
    return command["policy"]["id"] if command["command"] == "updatePolicy" else None


def rules_of_a_policy():
    by_itself = lambda rule: lambda s, a, c: policy_passes(rule, under(s, c["policy"]["service"]), c["policy"])
    rules = {"V%d" % number: by_itself("V%d" % number) for number in range(1, 15) if number not in (1, 2, 13)}
    rules.update({
        "V1": lambda s, a, c: model.is_name(c["policy"]["name"]),
        "V2": lambda s, a, c: all(one["name"] != c["policy"]["name"] for one in others(s, c["policy"], own_number(c))),
        "V13": lambda s, a, c: is_alone(s, c["policy"], own_number(c)),
        "V14": lambda s, a, c: (policy_passes("V14", under(s, c["policy"]["service"]), c["policy"])
                                and (c["command"] == "createPolicy" or stays(s, c["policy"]))),
    })
    return {"V%d" % number: rules["V%d" % number] for number in range(1, 15)}


# ---- roles and zones

def names_role(holder, role):
    return role in holder["roles"]


def is_unnamed(state, role):
    return not (any(names_role(row, role) for row in state["roles"] if row["name"] != role)
                or any(names_role(item, role) for policy in state["policies"] for item in model.items_of(policy))
                or any(role in zone[kind] for zone in state["zones"] for kind in ("adminRoles", "auditRoles")))


def services_fit(state, zone):
    """No service of a map can be listed twice, since they are its keys."""
    plain = all(model.named(state["services"], name) and not is_of_tags(state, name) for name in zone["services"])
    return plain and all(is_of_tags(state, name) for name in zone["tagServices"]) and model.distinct(zone["tagServices"])


def maps_and_definitions(state, zone):
    return [(definition_of(state, service), levels) for service in zone["services"] for levels in model.maps_of(zone, service)]


def zone_values_fit(levels):
    return all(values and all(map(model.is_name, values)) and model.is_plain(values) for values in levels.values())


def none_overlap(state, zone):
    zones = in_place(state["zones"], zone)
    return all(model.overlapping(definition_of(state, row["name"]), zones, row["name"]) is None for row in state["services"])


def lists_service(state, zone, service):
    return service in (zone["tagServices"] if is_of_tags(state, service) else zone["services"])


def in_zone(state, name):
    return [policy for policy in state["policies"] if policy["zoneName"] == name]


# ---- tag rows

def row_fits(rule):
    return lambda s, a, c: model.RULES_OF_A_TAG_ROW[rule](definition_of(s, c["row"]["serviceName"]), c["row"])


def number_is_free(state, command):
    there = numbered(state["tagRows"], command["id"])
    return command["id"] >= 1 and (there is None or there["serviceName"] == command["row"]["serviceName"])


# ---- authority

def groups_of(state, actor):
    row = model.named(state["users"], actor)
    return row["groups"] if row else []


def is_among(state, actor, users, groups, roles):
    """By name, by a group, by `public` or by a role."""
    own = groups_of(state, actor)
    return (actor in users or "public" in groups or any(group in groups for group in own)
            or any(model.role_holds(state["roles"], role, actor, own) for role in roles))


def is_in_zone(state, actor, policy, kind):
    zone = model.named(state["zones"], policy["zoneName"]) if policy["zoneName"] else None
    return zone is not None and is_among(state, actor, zone[kind + "Users"], zone[kind + "UserGroups"], zone[kind + "Roles"])


def covers(covering, covered, fold):
    """By atoms, all ways in which `*` takes a run of them."""
    if not covering:
        return not covered
    kind, rest = covering[0][0], covering[1:]
    if kind == "any":
        return any(covers(rest, covered[place:], fold) for place in range(len(covered) + 1))
    if not covered:
        return False
    here = covered[0]
    if kind == "one":
        fits = here[0] in ("one", "char")
    else:
        fits = kind == here[0] and (kind == "user" or model.folded(covering[0][1], fold) == model.folded(here[1], fold))
    return fits and covers(rest, covered[1:], fold)


def level_covers(level, covering, covered):
    wild, fold = level["matcherOptions"]["wildCard"], level["matcherOptions"]["ignoreCase"]
    if covered is None:
        return lists_all(covering)
    if covering is None:
        return False
    if covering["isExcludes"] or covered["isExcludes"]:
        return lists_all(covering) or plain_map({"": covering}) == plain_map({"": covered})
    return all(any(covers(above, below, fold) for above in model.forms(covering, wild)) for below in model.forms(covered, wild))


def lists_all(resource):
    return not resource["isExcludes"] and "*" in resource["values"]


def map_covers(definition, covering, covered):
    """All levels of both lie on one path, and each that one of them names is covered."""
    both = list(dict.fromkeys(list(covering) + list(covered)))
    return model.on_one_path(definition, both) and all(
        level_covers(model.named(definition["resources"], name), covering.get(name), covered.get(name)) for name in both)


def policy_covers(definition, covering, covered):
    return all(any(map_covers(definition, above, below) for above in model.maps_of_policy(covering)) for below in model.maps_of_policy(covered))


def accesses_of(definition, policy):
    """Those that its items name, allowed or not, or all of the definition."""
    named = {entry["type"] for item in model.items_of(policy) for entry in item["accesses"]}
    return named if named and not policy["isDenyAllElse"] else set(model.names(definition["accessTypes"]))


def delegates(state, definition, policy, actor, access):
    """`{OWNER}` and `{USER}` name nobody here."""
    plain = lambda users: [user for user in users if user not in ("{OWNER}", "{USER}")]
    return any(item["delegateAdmin"] and is_among(state, actor, plain(item["users"]), item["groups"], item["roles"])
               and any(entry["isAllowed"] and model.grants(definition, entry["type"], access) for entry in item["accesses"])
               for item in policy["policyItems"])


def may(state, actor, policy):
    if actor in state["admins"] or is_in_zone(state, actor, policy, "admin"):
        return True
    definition = definition_of(state, policy["service"])
    covering = [one for one in others(state, policy, None)
                if one["isEnabled"] and one["policyType"] == 0 and policy_covers(definition, one, policy)]
    return all(any(delegates(state, definition, one, actor, access) for one in covering) for access in accesses_of(definition, policy))


def may_see(state, actor, policy):
    return may(state, actor, policy) or is_in_zone(state, actor, policy, "audit")


def seen(state, actor, service):
    """By id."""
    own = [policy for policy in state["policies"] if policy["service"] == service]
    return sorted((policy for policy in own if may_see(state, actor, policy)), key=lambda policy: policy["id"])


# ---- the commands

def rule(name, passes):
    return {name: passes}


def there(name, rows, key):
    """The row of that name is there."""
    return {name: lambda s, a, c: model.named(s[rows], key(c)) is not None}


def stored(state, command):
    return numbered(state["policies"], command["id"] if "id" in command else command["policy"]["id"])


L1 = rule("L1", lambda s, a, c: s["count"] < FIRST_PAST_ALL)
A1 = rule("A1", lambda s, a, c: a in s["admins"])
E2 = rule("E2", lambda s, a, c: stored(s, c) is not None)
E6 = rule("E6", lambda s, a, c: numbered(s["tagRows"], c["id"]) is not None)
S_RULES = {name: (lambda test: lambda s, a, c: test(c["def"]))(test) for name, test in model.RULES_OF_A_DEFINITION.items()}
C2 = rule("C2", lambda s, a, c: model.is_name(c["service"]["name"]) and model.named(s["services"], c["service"]["name"]) is None)
C3 = rule("C3", lambda s, a, c: tag_service_fits(s, c["service"]))
E3 = there("E3", "serviceDefs", lambda c: c["service"]["type"])
V_RULES = rules_of_a_policy()
E1_OF_A_POLICY = there("E1", "services", lambda c: c["policy"]["service"])
A3 = rule("A3", lambda s, a, c: may(s, a, stored(s, c)))

ROLE_RULES = {
    "O1": lambda s, a, c: model.is_name(c["role"]["name"]),
    "O2": lambda s, a, c: all(name == c["role"]["name"] or model.named(s["roles"], name) for name in c["role"]["roles"]),
    "O3": lambda s, a, c: (model.role_fault(in_place(s["roles"], c["role"])) or ("",))[0] != "cycle",
}
ZONE_RULES = {
    "Z1": lambda s, a, c: model.is_name(c["zone"]["name"]),
    "Z2": lambda s, a, c: services_fit(s, c["zone"]),
    "Z3": lambda s, a, c: (all(model.maps_of(c["zone"], service) for service in c["zone"]["services"])
                           and all(model.levels_fit(definition, levels) for definition, levels in maps_and_definitions(s, c["zone"]))),
    "Z4": lambda s, a, c: all(zone_values_fit(levels) for _, levels in maps_and_definitions(s, c["zone"])),
    "Z5": lambda s, a, c: all(model.named(s["roles"], role) for role in c["zone"]["adminRoles"] + c["zone"]["auditRoles"]),
    "Z6": lambda s, a, c: none_overlap(s, c["zone"]),
    "Z7": lambda s, a, c: all(lists_service(s, c["zone"], policy["service"]) for policy in in_zone(s, c["zone"]["name"])),
}
TAG_RULES = {
    "G1": lambda s, a, c: not is_of_tags(s, c["row"]["serviceName"]),
    "G2": row_fits("G2"),
    "G3": row_fits("G3"),
    "G4": lambda s, a, c: number_is_free(s, c),
}
USER_RULES = {"U1": lambda s, a, c: model.is_name(c["user"]["name"]) and all(map(model.is_name, c["user"]["groups"]))}

RULES = {
    "putDef": {**L1, **S_RULES, "C1": lambda s, a, c: is_kept(s, c["def"]) is None, **A1},
    "createService": {**L1, **E3, **C2, **C3, **A1},
    "updateService": {**L1, **there("E1", "services", lambda c: c["service"]["name"]), **E3, **C3,
                      "C4": lambda s, a, c: model.named(s["services"], c["service"]["name"])["type"] == c["service"]["type"], **A1},
    "deleteService": {**L1, **there("E1", "services", lambda c: c["name"]), "C5": lambda s, a, c: is_unused(s, c["name"]), **A1},
    "createPolicy": {**L1, **E1_OF_A_POLICY, **V_RULES, "A2": lambda s, a, c: may(s, a, c["policy"])},
    "updatePolicy": {**L1, **E2, **E1_OF_A_POLICY, **V_RULES, **A3, "A4": lambda s, a, c: may(s, a, c["policy"])},
    "deletePolicy": {**L1, **E2, **A3},
    "getPolicy": {**E2, "A5": lambda s, a, c: may_see(s, a, stored(s, c))},
    "listPolicies": there("E1", "services", lambda c: c["service"]),
    "putRole": {**L1, **ROLE_RULES, **A1},
    "deleteRole": {**L1, **there("E4", "roles", lambda c: c["name"]), "O4": lambda s, a, c: is_unnamed(s, c["name"]), **A1},
    "putZone": {**L1, **ZONE_RULES, **A1},
    "deleteZone": {**L1, **there("E5", "zones", lambda c: c["name"]), "Z8": lambda s, a, c: not in_zone(s, c["name"]), **A1},
    "putTags": {**L1, **there("E1", "services", lambda c: c["row"]["serviceName"]), **TAG_RULES, **A1},
    "deleteTags": {**L1, **E6, **A1},
    "putUser": {**L1, **USER_RULES, **A1},
    "deleteUser": {**L1, **there("E7", "users", lambda c: c["name"]), **A1},
    "download": there("E1", "services", lambda c: c["service"]),
}


def first_broken(state, actor, command):
    """None where the command passes all its rules."""
    return model.first_broken(RULES[command["command"]], state, actor, command)


# ---- the start

def start_rules(state, command):
    """Those of a configuration's rows: of the command that puts one, but for L1, C1 and A1."""
    return {name: test for name, test in RULES[command["command"]].items() if name not in ("L1", "C1", "A1")}


LAST_RULES = {
    "U2": lambda s: all(model.posix_zone(row["rule"]) for row in s["timeZones"]),
    "E1": lambda s: model.named(s["services"], s["plugin"]) is not None,
    "C6": lambda s: not is_of_tags(s, s["plugin"]),
}

assert set(RULES) == {"putDef", "createService", "updateService", "deleteService", "createPolicy", "updatePolicy", "deletePolicy", "getPolicy",
                      "listPolicies", "putRole", "deleteRole", "putZone", "deleteZone", "putTags", "deleteTags", "putUser", "deleteUser", "download"}
