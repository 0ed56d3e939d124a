"""Why a request is decided as it is, written from docs/FORMATS.md, section 11, over the rules of model.py.

usage: checks/explaining.py [--json] [--all] [N] < SCRIPT      prints what `rangerd-explain` is to print, and ends with its status

A request without a time is made at 0, as in admin_model.py.
"""

import argparse
import functools
import json

import admin_model
import model
import reading
import records

# the lists of items in an explanation's order, by their names there
LISTS = (("allow", "policyItems"), ("allowException", "allowExceptions"), ("deny", "denyPolicyItems"),
         ("denyException", "denyExceptions"), ("filter", "rowFilterPolicyItems"), ("mask", "dataMaskPolicyItems"))
EVERYBODY = "public"


# the same in words, by their names there and in the order in which they are told
WORDED_LISTS = (("deny", "deny item"), ("denyException", "deny exception"), ("allow", "allow item"), ("allowException", "allow exception"),
                ("mask", "mask item"), ("filter", "row filter item"))
WORDS_OF_SUBJECTS = {"{USER}": "{USER}", "{OWNER}": "{OWNER}", "user": "the user's name", "group": "group", "public": "public", "role": "role"}
WORDS_OF_MISSES = {"level": "; level %s doesn't match", "beyond": "; it has no level %s", "apart": "; its levels lie on another path"}
DENYING_CELLS = (1, 2, 5, 6)


def in_order(members):
    """A JSON object is read in byte order of its keys."""
    return sorted(members, key=lambda name: name.encode())


def compact(value):
    return json.dumps(value, separators=(",", ":"), ensure_ascii=False, sort_keys=True)


def elements_of(asked, request):
    """What a policy is asked about: the resource, or the tag."""
    return {"tag": asked.tag["type"]} if asked.side == "tag" else request["resource"]["elements"]


# ---- what keeps a policy out

def is_hit(asked, name, resource, elements, user):
    level = model.named(asked.definition["resources"], name)
    return name in elements and level is not None and model.is_hit(level, resource, elements[name], user)


def is_near(asked, request):
    """A level of the policy that is asked about matches."""
    elements, user = elements_of(asked, request), request["user"]
    return any(is_hit(asked, name, resource, elements, user)
               for resources in model.maps_of_policy(asked.policy) for name, resource in resources.items())


def meets(asked, name, resource, elements, user):
    if name in elements:
        return is_hit(asked, name, resource, elements, user)
    return not resource["isExcludes"] and "*" in resource["values"]


def miss(asked, resources, elements, user):
    """What keeps a resource map out that doesn't lie on what is asked about."""
    for name in in_order(resources):
        if not meets(asked, name, resources[name], elements, user):
            return {"is": "level", "level": name}
    beyond = next((name for name in in_order(elements) if name not in resources), None)
    return {"is": "apart" if beyond is None else "beyond", "level": beyond}


def lies(asked, request):
    elements = elements_of(asked, request)
    return any(model.lies(asked.definition, resources, elements, request["user"]) for resources in model.maps_of_policy(asked.policy))


def is_scheduled(facts, policy, moment):
    schedules = policy["validitySchedules"]
    return not schedules or any(model.contains(facts, schedule, moment) for schedule in schedules)


# ---- what matches

def member(facts, row, request):
    """The first of the users, groups and roles of an item or a role that is the asker."""
    user, groups = request["user"], request["userGroups"]
    if user in row["users"]:
        return {"is": "user", "name": None}
    for group in groups:
        if group in row["groups"]:
            return {"is": "group", "name": group}
    if EVERYBODY in row["groups"]:
        return {"is": "public", "name": None}
    for role in row["roles"]:
        if model.role_holds(facts["roles"], role, user, groups):
            return {"is": "role", "name": role}
    return None


def subject(facts, item, request):
    """The first subject of the item that is the asker."""
    owner = request["resource"]["ownerUser"]
    if "{USER}" in item["users"]:
        return {"is": "{USER}", "name": None}
    if "{OWNER}" in item["users"] and owner and owner == request["user"]:
        return {"is": "{OWNER}", "name": None}
    return member(facts, item, request)


def first_match(facts, asked, request, items):
    for place, item in enumerate(items):
        if model.item_matches(facts, asked, item, request):
            return {"by": subject(facts, item, request), "item": place}
    return None


# ---- a policy

def standing(facts, asked, request):
    """How it stands to the request, as four members of what is told of it."""
    policy, told = asked.policy, {"is": None, "items": None, "maps": None, "unmet": None}
    unmet = next((c["type"] for c in policy["conditions"] if not model.holds(asked.definition, c, request, asked.tag)), None)
    if not is_near(asked, request):
        told["is"] = "far off"
    elif not policy["isEnabled"]:
        told["is"] = "disabled"
    elif not is_scheduled(facts, policy, request["accessTime"]):
        told["is"] = "unscheduled"
    elif not lies(asked, request):
        elements = elements_of(asked, request)
        told["is"] = "elsewhere"
        told["maps"] = [miss(asked, resources, elements, request["user"]) for resources in model.maps_of_policy(policy)]
    elif unmet is not None:
        told["is"], told["unmet"] = "unmet", unmet
    else:
        told["is"] = "in play"
        told["items"] = {name: first_match(facts, asked, request, policy[items]) for name, items in LISTS}
    return told


def cell_of(facts, asked, request, told):
    """The cell in which an access policy stands, from 1 to 8."""
    if asked.policy["policyType"] != 0 or told["is"] != "in play":
        return None
    access = model.effect(facts, asked, request)
    return access and model.CELLS.index((asked.policy["policyPriority"], access, asked.side)) + 1


def told_of(facts, asked, request):
    told = standing(facts, asked, request)
    return {**told, "cell": cell_of(facts, asked, request, told), "id": asked.policy["id"], "name": asked.policy["name"],
            "tag": asked.tag and asked.tag["type"]}


# ---- where a request stands

def zone_told(facts, elements):
    """The zone, and the place of the first of its maps for the service that reaches down to the resource."""
    zone, definition = model.zone_of(facts, elements), facts["serviceDef"]
    if zone is None:
        return None
    maps = [model.zone_form(definition, levels) for levels in model.maps_of(zone, facts["service"])]
    place = next((place for place, resources in enumerate(maps) if model.lies(definition, resources, elements, "", down=True)), None)
    return {"map": place, "name": zone["name"]}


def roles_told(facts, request):
    """Those that hold the user, each with the first of what it names that is the user."""
    rows = facts["roles"]
    return [{"by": member(facts, row, request), "name": row["name"]} for row in rows
            if model.role_holds(rows, row["name"], request["user"], request["userGroups"])]


def path_of(definition, elements):
    """The values from the root, and in the order of their levels' names where these lie on no path."""
    named = in_order(elements)
    if model.on_one_path(definition, named):
        named.sort(key=lambda name: len(model.ancestors(definition, name)))
    return "/".join(elements[name] for name in named)


def request_told(request):
    """As it was read, every member there."""
    members = ("accessTime", "accessType", "clientIPAddress", "context", "user", "userGroups")
    resource = {name: request["resource"][name] for name in ("elements", "ownerUser")}
    return {"resource": resource, **{name: request[name] for name in members}}


# ---- a request

def in_order_told(facts, request):
    """Those of the tag service for each tag, then those of the service, both in the order of the facts."""
    asked = model.asked_policies(facts, request)
    by_tag = [one for tag in model.tags_of(facts, request["resource"]["elements"]) for one in asked if one.tag is tag]
    return by_tag + [one for one in asked if one.side == "resource"]


def place_of(facts, request, kind, items):
    playing = [asked for asked in model.asked_policies(facts, request) if model.in_play(facts, asked, request)]
    asked, item = model.deciding_item(facts, playing, request, kind, items)
    if asked is None or kind == 1 and item["dataMaskInfo"]["dataMaskType"] == "MASK_NONE":
        return None
    place = next(place for place, one in enumerate(asked.policy[items]) if one is item)
    return {"id": asked.policy["id"], "item": place, "tag": asked.side == "tag"}


def explanation(facts, request):
    """With every policy that the zone chooses."""
    elements, verdict = request["resource"]["elements"], model.decide(facts, request)
    is_allowed, policies = verdict.access == "ALLOWED", [told_of(facts, asked, request) for asked in in_order_told(facts, request)]
    return {
        "access": verdict.access,
        "cell": verdict.cell or None,
        "farOff": sum(told["is"] == "far off" for told in policies),
        "mask": place_of(facts, request, 1, "dataMaskPolicyItems") if is_allowed else None,
        "path": path_of(facts["serviceDef"], elements),
        "policies": policies,
        "policyId": verdict.policy,
        "request": request_told(request),
        "roles": roles_told(facts, request),
        "rowFilter": place_of(facts, request, 2, "rowFilterPolicyItems") if is_allowed else None,
        "rows": [{"id": row["id"], "tags": [tag["type"] for tag in row["tags"]]} for row in facts["resources"]
                 if model.lies(facts["serviceDef"], row["resourceElements"], elements, "", down=True)],
        "zone": zone_told(facts, elements),
    }


def listed(told, lists_all):
    """The explanation with all policies, or with those that aren't far off."""
    return {**told, "policies": [policy for policy in told["policies"] if lists_all or policy["is"] != "far off"]}


# ---- in words

def by_words(by):
    if by is None:
        return ""
    return " by " + WORDS_OF_SUBJECTS[by["is"]] + ("" if by["name"] is None else " " + compact(by["name"]))


def decision_words(told):
    if told["cell"] is None:
        yield told["access"] + ", since no policy decides."
    else:
        yield "%s by policy %d in cell %d." % (told["access"], told["policyId"], told["cell"])
    for part, what in (("rowFilter", "Rows are filtered"), ("mask", "Values are masked")):
        if told[part]:
            yield "%s by item %d of policy %d." % (what, told[part]["item"], told[part]["id"])


def request_words(told):
    request = told["request"]
    yield "User %s with the groups %s asks for %s on %s, %s, at %d." % (
        *map(compact, (request["user"], request["userGroups"], request["accessType"], told["path"], request["resource"]["elements"])),
        request["accessTime"])
    if request["resource"]["ownerUser"]:
        yield "The resource belongs to %s." % compact(request["resource"]["ownerUser"])


def place_words(told):
    zone = told["zone"]
    if zone is None:
        yield "The resource lies in no zone."
    else:
        place = "" if zone["map"] is None else " by its resource map %d" % zone["map"]
        yield "The resource lies in zone %s%s." % (compact(zone["name"]), place)
    yield from (["Role %s holds the user%s." % (compact(role["name"]), by_words(role["by"])) for role in told["roles"]]
                or ["No role holds the user."])
    yield from (["Tag row %d reaches down to the resource, with the tags %s." % (row["id"], compact(row["tags"])) for row in told["rows"]]
                or ["No tag row reaches down to the resource."])


def effect_words(policy):
    """What one in play gives. One that denies does so by a deny item, or else by isDenyAllElse."""
    cell, items = policy["cell"], policy["items"]
    if cell is None:
        return "gives no access"
    by_item = items["deny"] is not None and items["denyException"] is None
    return "%s in cell %d" % (("denies" if by_item else "denies all else") if cell in DENYING_CELLS else "allows", cell)


def miss_words(miss):
    told = WORDS_OF_MISSES[miss["is"]]
    return told if miss["level"] is None else told % compact(miss["level"])


def standing_words(policy):
    if policy["is"] == "in play":
        matches = ("; %s %d matches%s" % (word, policy["items"][name]["item"], by_words(policy["items"][name]["by"]))
                   for name, word in WORDED_LISTS if policy["items"][name])
        return "is in play and " + effect_words(policy) + "".join(matches)
    return {"far off": "is far off", "disabled": "is disabled", "unscheduled": "has no schedule that contains the moment",
            "elsewhere": "lies elsewhere" + "".join(map(miss_words, policy["maps"] or [])),
            "unmet": "has the condition %s, which doesn't hold" % compact(policy["unmet"])}[policy["is"]]


def policy_words(policy):
    asked = "" if policy["tag"] is None else ", asked for the tag %s," % compact(policy["tag"])
    return "Policy %d %s%s %s." % (policy["id"], compact(policy["name"]), asked, standing_words(policy))


def words(told, lists_all):
    """The lines, each with its LF."""
    lines = [*decision_words(told), *request_words(told), *place_words(told)]
    lines += map(policy_words, listed(told, lists_all)["policies"])
    if not lists_all:
        lines.append("Further policies, of which no level matches: %d." % told["farOff"])
    return "".join(line + "\n" for line in lines)


class ExplainedScript(admin_model.Script):
    """Of its lines those are printed that explain a decision, by what is published last: every one, or the one of the number alone."""

    def __init__(self, as_json=False, lists_all=False, number=None):
        super().__init__()
        self.as_json, self.lists_all, self.number, self.explained = as_json, lists_all, number, []

    def work(self, line, now=0):
        answer = super().work(line, now)
        return answer if line.startswith(b"decide ") else None

    def work_decide(self, text, now):
        request = admin_model.taken(reading.read(reading.REQUEST, text))
        if not self.serial:
            raise admin_model.Bad("out of place")
        told = explanation(self.facts, records.request(request, now))
        self.explained.append(told)
        if self.number not in (None, len(self.explained)):
            return None
        return compact(listed(told, self.lists_all)) if self.as_json else words(told, self.lists_all)


def main():
    parser = argparse.ArgumentParser()
    parser.add_argument("--json", action="store_true")
    parser.add_argument("--all", action="store_true")
    parser.add_argument("number", nargs="?", type=int)
    given = parser.parse_args()
    admin_model.main(kind=functools.partial(ExplainedScript, given.json, given.all, given.number))


if __name__ == "__main__":
    main()
