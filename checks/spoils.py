"""Ways to spoil sound facts, at least one for each rule of soundness. The model says which rule is broken in the end.

A way that finds nothing to spoil raises an error, and the facts stay as they are.
"""

import copy

LONG = "x" * 257
ITEM_LISTS = ("policyItems", "denyPolicyItems", "allowExceptions", "denyExceptions", "dataMaskPolicyItems", "rowFilterPolicyItems")
NO_TIMES = ["2024/02/30 00:00:00", "2024/13/01 00:00:00", "2024/01/01 24:00:00", "2024-01-01 00:00:00", "2024/01/01 00:00:60"]


def a_definition(maker, facts):
    return maker.pick([facts[key] for key in ("serviceDef", "tagServiceDef") if facts.get(key)])


def all_policies(facts):
    return facts["policies"] + facts.get("tagPolicies", [])


def a_policy(maker, facts):
    return maker.pick(all_policies(facts))


def an_item(maker, facts):
    return maker.pick([item for policy in all_policies(facts) for name in ITEM_LISTS for item in policy.get(name, [])])


def a_level(maker, facts):
    return maker.pick([(name, level) for policy in all_policies(facts) for levels in maps_of(policy) for name, level in levels.items()])[1]


def maps_of(policy):
    return [policy["resources"]] + policy.get("additionalResources", [])


def of_type(maker, facts, kind):
    return maker.pick([policy for policy in all_policies(facts) if policy.get("policyType", 0) == kind])


def own_maps(facts):
    return [levels for zone in facts["zones"] for levels in zone["services"].get("s", {"resources": []})["resources"]]


# ---- definitions

def bad_definition_name(maker, facts):
    a_definition(maker, facts)["name"] = maker.pick(["", LONG])


def bad_levels(maker, facts):
    levels = a_definition(maker, facts)["resources"]
    way = maker.pick(["none", "many", "same", "no name"])
    if way == "many":
        levels.extend({"name": "l%d" % n} for n in range(17 - len(levels)))
    elif way == "same":
        levels.append(dict(maker.pick(levels)))
    elif way == "no name":
        levels.append({"name": maker.pick(["", LONG])})
    else:
        levels.clear()


def bad_parent(maker, facts):
    levels = a_definition(maker, facts)["resources"]
    maker.pick(levels)["parent"] = maker.pick(["nowhere", levels[-1]["name"]])


def bad_access_types(maker, facts):
    types = a_definition(maker, facts)["accessTypes"]
    types[:] = maker.pick([[], types + [{"name": ""}], types + [{"name": types[0]["name"]}], types + [{"name": LONG}],
                           types + [{"name": "t%d" % n} for n in range(1024)]])


def bad_grant(maker, facts):
    maker.pick(a_definition(maker, facts)["accessTypes"])["impliedGrants"] = ["fly"]


def bad_conditions(maker, facts):
    rows = a_definition(maker, facts)["policyConditions"]
    rows.extend(maker.pick([[{"name": ""}], [{"name": "odd"}], [{"name": "c%d" % n} for n in range(64)]]))


def bad_parts(maker, facts):
    definition = a_definition(maker, facts)
    kinds = definition["dataMaskDef"]["maskTypes"]
    part = definition[maker.pick(["dataMaskDef", "rowFilterDef"])]
    way = maker.pick(["level", "access", "no name", "same", "many"])
    if way in ("level", "access"):
        part["resources" if way == "level" else "accessTypes"].append({"name": "nowhere"})
    else:
        kinds.extend({"no name": [{"name": ""}], "same": [{"name": "MASK"}], "many": [{"name": "m%d" % n} for n in range(64)]}[way])


def service_of_tags(maker, facts):
    facts["serviceDef"]["name"] = "tag"


def tag_definition_of_levels(maker, facts):
    facts["tagServiceDef"]["resources"][0]["name"] = "label"


def tag_definition_of_another_name(maker, facts):
    facts["tagServiceDef"]["name"] = maker.pick(["tags", "Tag"])


def no_tag_definition(maker, facts):
    facts["tagServiceDef"] = None


# ---- roles, zones

def bad_time_zone(maker, facts):
    facts["timeZones"].append({"name": "Mars", "rule": maker.pick(["", "nonsense", "EST5EDT,M3.2.0"])})


def role_twice(maker, facts):
    facts["roles"].append({**maker.pick(facts["roles"]), "roles": []})


def unknown_role_in_a_role(maker, facts):
    maker.pick(facts["roles"])["roles"] = ["nobody"]


def circle_of_roles(maker, facts):
    row = maker.pick(facts["roles"])
    other = maker.pick([one for one in facts["roles"]])
    row["roles"], other["roles"] = [other["name"]], [row["name"]]


def zone_of_the_wrong_services(maker, facts):
    zone = maker.pick(facts["zones"])
    if facts["serviceDef"]["name"] == "tag":
        zone.update(maker.pick([{"services": {"s": {"resources": [{"tag": ["*"]}]}}}, {"tagServices": ["s", "s"]}]))
    else:
        zone["tagServices"].append("s")


def zone_without_maps(maker, facts):
    maker.pick(facts["zones"])["services"]["s"] = maker.pick([{}, {"resources": []}, {"resources": [{}]}])


def zone_of_bad_levels(maker, facts):
    maker.pick(own_maps(facts)).update(maker.pick([{"nowhere": ["*"]}, {"url": ["*"], "database": ["*"]}, {"udf": ["*"], "table": ["*"]}]))


def zone_of_bad_values(maker, facts):
    levels = maker.pick(own_maps(facts))
    levels[maker.pick(list(levels))] = maker.pick([[], [""], [LONG], ["{USER}"], ["sales", "x{USER}"]])


def zone_of_unknown_roles(maker, facts):
    maker.pick(facts["zones"])[maker.pick(["adminRoles", "auditRoles"])] = ["nobody"]


def zones_that_overlap(maker, facts):
    zone, levels = maker.pick(facts["zones"]), copy.deepcopy(maker.pick(own_maps(facts)))
    if maker.maybe(.5):
        level = maker.pick(list(levels))
        levels[level] = [maker.pick(["*", "s*", "*s", "?r", levels[level][0].upper()])]
    zone["services"].setdefault("s", {"resources": []})["resources"].append(levels)


def zones_that_meet_above(maker, facts):
    """Maps on different paths, of which all resources above lie in both."""
    for zone, levels in zip(maker.random.sample(facts["zones"], len(facts["zones"])), [{"table": ["*"]}, maker.pick([{"udf": ["*"]}, {"udf": ["x*"]}])]):
        zone["services"]["s"] = {"resources": [levels]}


# ---- policies

def bad_id(maker, facts):
    a_policy(maker, facts)["id"] = maker.pick([0, -1, a_policy(maker, facts)["id"]])


def shared_id(maker, facts):
    maker.pick(facts["tagPolicies"])["id"] = maker.pick(facts["policies"])["id"]


def unknown_type(maker, facts):
    a_policy(maker, facts)["policyType"] = maker.pick([3, -1])


def type_without_part(maker, facts):
    of_type(maker, facts, maker.pick([1, 2]))
    part = a_definition(maker, facts)
    part.update(maker.pick([{"dataMaskDef": {}}, {"rowFilterDef": {}}, {"dataMaskDef": {**part["dataMaskDef"], "maskTypes": []}}]))


def bad_priority(maker, facts):
    a_policy(maker, facts)["policyPriority"] = maker.pick([2, -1])


def bad_policy_levels(maker, facts):
    policy = a_policy(maker, facts)
    policy["resources"] = {name: {"values": ["*"]} for name in maker.pick([(), ("nowhere",), ("database", "url"), ("table", "udf"), ("tag", "database")])}


def bad_levels_of_an_additional_map(maker, facts):
    policy = maker.pick([policy for policy in all_policies(facts) if policy.get("additionalResources")])
    maker.pick(policy["additionalResources"]).update({"nowhere": {"values": ["*"]}})


def too_many_maps(maker, facts):
    policy = a_policy(maker, facts)
    policy["additionalResources"] = [copy.deepcopy(policy["resources"]) for _ in range(maker.pick([15, 16]))]


def without_mandatory(maker, facts):
    levels = maker.pick([levels for policy in facts["policies"] for levels in maps_of(policy) if "table" in levels])
    levels.pop("database", None)
    facts["serviceDef"]["resources"][0]["mandatory"] = True


def unlisted_level(maker, facts):
    policy = of_type(maker, facts, maker.pick([1, 2]))
    facts["serviceDef"]["dataMaskDef"]["resources"] = facts["serviceDef"]["rowFilterDef"]["resources"] = [{"name": "url"}]
    policy["isEnabled"] = False


def bad_values(maker, facts):
    level = a_level(maker, facts)
    level["values"] = maker.pick([[], [""], [LONG], level["values"] + [""]])


def unsupported_flag(maker, facts):
    flag, setting = maker.pick([("isExcludes", "excludesSupported"), ("isRecursive", "recursiveSupported")])
    for level in a_definition(maker, facts)["resources"]:
        level[setting] = False
    a_level(maker, facts)[flag] = True


def items_of_another_type(maker, facts):
    policy = a_policy(maker, facts)
    policy.setdefault(maker.pick(ITEM_LISTS), []).append(copy.deepcopy(an_item(maker, facts)))


def deny_all_else_of_a_mask(maker, facts):
    of_type(maker, facts, maker.pick([1, 2]))["isDenyAllElse"] = True


def bad_entries(maker, facts):
    an_item(maker, facts)["accesses"] = maker.pick([[], [{"type": "fly"}], [{"type": "super"}], [{"type": "d:drop"}], [{"type": ""}]])


def bad_condition(maker, facts):
    values = maker.pick([[], ["yes"], ["x"], ["yes", "no"]])
    maker.pick([a_policy, an_item])(maker, facts)["conditions"] = [
        maker.pick([{"type": name, "values": values} for name in ("bare", "odd", "nope", "exp")] + [{"type": "ip-range", "values": []}])]


def nobody(maker, facts):
    item = an_item(maker, facts)
    item.update(users=[], groups=[])
    item.pop("roles", None)


def unknown_role(maker, facts):
    an_item(maker, facts)["roles"] = ["nobody"]


def bad_mask(maker, facts):
    item = maker.pick([item for policy in all_policies(facts) for item in policy.get("dataMaskPolicyItems", [])])
    item["dataMaskInfo"] = maker.pick([None, {}, {"dataMaskType": "MASK_HASH"}, {"dataMaskType": "CUSTOM"}, {"dataMaskType": "CUSTOM", "valueExpr": ""}])


def bad_filter(maker, facts):
    item = maker.pick([item for policy in all_policies(facts) for item in policy.get("rowFilterPolicyItems", [])])
    item["rowFilterInfo"] = maker.pick([None, {}, {"filterExpr": ""}])


def bad_schedule(maker, facts):
    good = {"startTime": "2024/01/01 00:00:00", "endTime": ""}
    a_policy(maker, facts).setdefault("validitySchedules", []).append(maker.pick([
        {**good, "recurrences": [{}]}, {**good, "timeZone": "Nowhere"}, {"timeZone": "Nowhere"},
        {**good, "endTime": "2023/12/31 23:59:59"}, {**good, "startTime": maker.pick(NO_TIMES)}]))


def unknown_zone(maker, facts):
    a_policy(maker, facts)["zoneName"] = maker.pick(["nowhere"] + [zone["name"] for zone in facts["zones"]])


def zone_that_lists_others(maker, facts):
    facts["zones"].append({"name": "elsewhere", "services": {"other": {}}, "tagServices": ["t1"]})
    a_policy(maker, facts)["zoneName"] = "elsewhere"


# ---- tag rows, versions

def bad_tag_row_levels(maker, facts):
    maker.pick(facts["resources"])["resourceElements"] = {
        name: {"values": ["*"]} for name in maker.pick([(), ("nowhere",), ("database", "url"), ("table", "udf")])}


def bad_tag_row_values(maker, facts):
    level = maker.pick([level for row in facts["resources"] for level in row["resourceElements"].values()])
    level["values"] = maker.pick([[], [""], [LONG], ["{USER}"], ["sales", "*{USER}"]])


def unsupported_flag_of_a_tag_row(maker, facts):
    for level in facts["serviceDef"]["resources"]:
        level["excludesSupported"] = level["recursiveSupported"] = False
    maker.pick([level for row in facts["resources"] for level in row["resourceElements"].values()])[maker.pick(["isExcludes", "isRecursive"])] = True


def bad_tags(maker, facts):
    maker.pick(facts["resources"])["tags"] = maker.pick([[{"type": "PII"}] * 65, [{"type": ""}], [{"type": LONG}]])


def tag_row_twice(maker, facts):
    facts["resources"].append({**maker.pick(facts["resources"]), "tags": []})


def bad_versions(maker, facts):
    facts[maker.pick(["policyVersion", "tagVersion", "roleVersion"])] = maker.pick([2 ** 62 + 1, 2 ** 64 - 1])


ALWAYS = (bad_definition_name, bad_levels, bad_parent, bad_access_types, bad_grant, bad_conditions, bad_parts, service_of_tags,
          bad_time_zone, bad_id, bad_priority, bad_policy_levels, without_mandatory, bad_values, unsupported_flag, bad_entries,
          bad_condition, nobody, bad_schedule, bad_versions)
BY_PART = {
    "roles": (role_twice, unknown_role_in_a_role, circle_of_roles, unknown_role),
    "zones": (zone_of_the_wrong_services, zone_without_maps, zone_of_bad_levels, zone_of_bad_values, zone_of_unknown_roles,
              zones_that_overlap, zones_that_meet_above, zones_that_meet_above, zones_that_meet_above, unknown_zone, zone_that_lists_others),
    "tags": (tag_definition_of_levels, tag_definition_of_another_name, no_tag_definition, bad_tag_row_levels, bad_tag_row_values,
             unsupported_flag_of_a_tag_row, bad_tags, tag_row_twice, shared_id),
    "maps": (bad_levels_of_an_additional_map, too_many_maps),
    "masks": (unknown_type, type_without_part, unlisted_level, items_of_another_type, deny_all_else_of_a_mask, bad_mask, bad_mask, bad_filter),
}


def spoil(maker, facts):
    """The facts spoilt in one way, or as they are where the way finds nothing."""
    ways = ALWAYS + sum((BY_PART[part] for part in maker.parts), ())
    spoilt = copy.deepcopy(facts)
    try:
        maker.pick(ways)(maker, spoilt)
    except (LookupError, TypeError, AttributeError):
        return facts
    return spoilt
