"""Makes facts and requests from a seed. Most facts are sound; some are spoilt by one rule (spoils.py).

Keys of a part that isn't asked for don't occur at all, so a program that lacks the part can be run too.
"""

import copy
import random

import model

PARTS = ("roles", "zones", "tags", "masks", "maps")

LEVELS = [("database", 10, ""), ("url", 10, ""), ("table", 20, "database"), ("udf", 20, "database"), ("column", 30, "table")]
LEVEL_SETS = [("database",), ("url",), ("database", "table"), ("database", "table", "column")]
ODD_SETS = [("table",), ("column",), ("database", "column"), ("database", "url"), ("database", "udf"), (), ("nowhere",)]
# levels that masks and filters may speak of
PARTS_LEVELS = {0: set(), 1: {"database", "table", "column", "tag"}, 2: {"database", "table", "tag"}}
PATTERNS = ["sales", "sal*", "s?les", "SALES", "hr", "{USER}", "/data/{USER}", "/", "a*b", "*a*", "*{USER}*", "ab"]
PLAIN_PATTERNS = [pattern for pattern in PATTERNS if "{USER}" not in pattern]
VALUES = ["sales"] * 5 + ["SALES", "hr", "hr", "ann", "/data/ann", "/data/ann/x", "/data/anna", "/", "/x",
                         "axb", "ab", "a", "", "Ann", "x{col}", "é\"\\\n"]
USERS = ["ann", "bob", "Ann", "zoe"]
GROUPS = ["staff", "x", "ann"]
ACCESSES = ["select", "drop", "all", "super"]
TAG_ACCESSES = ["d:select"] * 3 + ["d:drop", "d:all", "other:select"]
ROLES = ["r1", "r2", "r3", "r4", "r5"]
KINDS_OF_TAGS = ["PII", "PII", "PCI", "EXPIRES", "ann", "pii"]
TAG_PATTERNS = ["PII", "PII", "P*", "*", "?CI", "PCI", "EXPIRES", "{USER}", "EXP*S"]
MASKS = ["MASK", "MASK", "MASK_SHOW_LAST_4", "MASK_NONE", "CUSTOM"]
# areas of zones that don't overlap, and maps that may
AREAS = [{"database": ["fin*"]}, {"database": ["sales"], "table": ["hr", "s?les"]}, {"database": ["hr"]},
         {"database": ["a*b", "axb"]}, {"url": ["/data"]}, {"url": ["/x", "/y*"]}, {"database": ["ann"], "table": ["*"]},
         {"database": ["ANNA"], "column": ["s*"], "table": ["*"]}]
WIDE_AREAS = [{"table": ["*"]}, {"udf": ["*"]}, {"column": ["*"]}, {"url": ["*"]}, {"database": ["*"], "table": ["sal*", "hr"]},
              {"table": ["sales"]}, {"database": ["*"], "udf": ["*s"]}]
TIMES = ["2024/01/31 23:59:59", "2024/02/29 00:00:00", "2023/06/01 12:00:00", "2025/01/01 00:00:00", "2024/03/10 02:30:00",
         "2024/11/03 01:30:00", "2024/03/31 02:00:00", "2024/10/27 02:59:59"]
EXPIRIES = TIMES + ["2024/01/31", "2024/02/29", "2023/02/29", "soon", "", "2024/1/31", "2024/01/31 24:00:00"]
TIME_ZONES = [("New York", "EST5EDT,M3.2.0,M11.1.0"), ("Berlin", "CET-1CEST,M3.5.0,M10.5.0/3"), ("Kolkata", "IST-5:30"),
              ("UTC", "CET-1"), ("Berlin", "EST5")]


def maps_of(policy):
    return [policy["resources"]] + policy.get("additionalResources", [])


class Maker:
    def __init__(self, seed, parts=PARTS):
        self.random = random.Random(seed)
        self.pick = self.random.choice
        self.parts = parts

    def maybe(self, chance):
        return self.random.random() < chance

    def some(self, make, most, least=0):
        return [make() for _ in range(self.random.randint(least, most))]

    # ---- definitions

    def level(self, name, number, parent):
        return {"name": name, "level": number, "parent": parent, "mandatory": self.maybe(.1),
                "recursiveSupported": self.maybe(.6), "excludesSupported": self.maybe(.6),
                "matcherOptions": {"wildCard": self.maybe(.85), "ignoreCase": self.maybe(.6)}}

    def conditions_of_a_definition(self):
        return [{"name": name, "evaluator": evaluator, "evaluatorOptions": options} for name, evaluator, options in
                [("ip-range", "", {}), ("ctx", "context-value-in", {"attributeName": "k"}),
                 ("nctx", "context-value-not-in", {"attributeName": "k"}), ("bare", "context-value-in", {}),
                 ("odd", "x", {}), ("exp", "accessed-after-expiry", {})]]

    def mask_parts(self, accesses, mask_levels, filter_levels):
        listed = lambda texts: [{"name": text} for text in texts]
        transformers = [("MASK", "mask({col})"), ("MASK_SHOW_LAST_4", "last_n({col}, 4, '{col}')"), ("MASK_NONE", ""), ("CUSTOM", "")]
        return {"dataMaskDef": {"maskTypes": [{"name": name, "transformer": text} for name, text in transformers],
                                "accessTypes": listed(accesses), "resources": listed(mask_levels if self.maybe(.6) else [])},
                "rowFilterDef": {"accessTypes": listed(accesses[:1]), "resources": listed(filter_levels if self.maybe(.6) else [])}}

    def definition(self):
        """Now and then the service is itself one of tags."""
        is_of_tags = self.maybe(.04)
        types = [{"name": name, "impliedGrants": implied} for name, implied in
                 [("select", []), ("drop", []), ("all", ["select", "drop"]), ("super", ["all"])]]
        rows = [("tag", 10, "")] if is_of_tags else LEVELS
        parts = self.mask_parts(["select", "all"], *((["tag"],) * 2 if is_of_tags else (["database", "table", "column"], ["database", "table"])))
        return {"name": "tag" if is_of_tags else "d", "resources": [self.level(*row) for row in rows], "accessTypes": types,
                "policyConditions": self.conditions_of_a_definition(), **parts}

    def tag_definition(self):
        types = [{"name": name, "impliedGrants": implied} for name, implied in
                 [("d:select", []), ("d:drop", []), ("d:all", ["d:select", "d:drop"]), ("other:select", [])]]
        return {"name": "tag", "resources": [self.level("tag", 1, "")], "accessTypes": types,
                "policyConditions": self.conditions_of_a_definition(), **self.mask_parts(["d:select", "d:all"], ["tag"], ["tag"])}

    # ---- roles and zones

    def role(self, name, below):
        member = lambda text: text if self.maybe(.7) else {"name": text, "isAdmin": self.maybe(.5)}
        return {"name": name, "users": self.some(lambda: member(self.pick(USERS)), 1),
                "groups": self.some(lambda: member(self.pick(GROUPS + ["public"])), 1) if self.maybe(.5) else [],
                "roles": self.some(lambda: member(self.pick(below)), 2) if below else []}

    def roles(self):
        """Roles name those after them; the list has any order."""
        taken = sorted(self.random.sample(ROLES, self.random.randint(0, 5)))
        rows = [self.role(name, taken[place + 1:]) for place, name in enumerate(taken)]
        self.random.shuffle(rows)
        return rows

    def wide_area(self):
        if self.maybe(.5):
            return self.pick(WIDE_AREAS)
        return {name: self.some(lambda: self.pick(PLAIN_PATTERNS + ["*"]), 2, 1) for name in self.pick(LEVEL_SETS)}

    def zone(self, name, areas, facts):
        other = {"other": {"resources": self.pick([[], [{"nowhere": []}], [{"database": ["*"]}]])}} if self.maybe(.3) else {}
        own = {"s": {"resources": areas}} if areas and facts["serviceDef"]["name"] == "d" else {}
        roles = [row["name"] for row in facts.get("roles", [])]
        tag_services = [service for service in ("t1", "t2", "t2") if self.maybe(.4)]
        if facts["serviceDef"]["name"] == "tag" and self.maybe(.8):
            tag_services.append("s")
        return {"name": name, "services": {**other, **own}, "tagServices": tag_services, "adminUsers": self.some(lambda: "ann", 1),
                "adminRoles": self.some(lambda: self.pick(roles), 1) if roles else []}

    def zones(self, facts):
        zone_names = self.random.sample(["fin", "hr", "ops", "it"], self.random.randint(0, 4))
        if zone_names and self.maybe(.06):
            zone_names.append(self.pick(zone_names + [""]))
        areas = self.random.sample(AREAS, len(AREAS))
        take = lambda: [self.wide_area() if self.maybe(.04) else areas.pop() for _ in range(min(len(areas), self.pick([0, 1, 1, 2])))]
        return [self.zone(name, take(), facts) for name in zone_names]

    # ---- policies

    def pattern(self):
        if self.maybe(.003):
            return "x" * 256
        return "*" if self.maybe(.35) else "sales" if self.maybe(.3) else self.pick(PATTERNS)

    def condition(self, is_tag=False):
        name = self.pick(["ip-range", "ctx", "nctx", "exp"] + ["exp"] * 4 * is_tag)
        if name == "exp":
            return {"type": name, "values": [self.pick(["yes", "no", "true", "false"])]}
        return {"type": name, "values": self.some(lambda: self.pick(["10.0.*", "10.0.0.7", "*", "v", "w"]), 2, 1)}

    def item(self, facts, accesses):
        is_tag = accesses[0].startswith("d:")
        users = self.some(lambda: self.pick(USERS + ["{USER}", "{OWNER}"]), 2)
        groups = self.some(lambda: self.pick(GROUPS + ["public"]), 1)
        roles = self.some(lambda: self.pick(facts["roles"])["name"], 2) if facts.get("roles") and self.maybe(.5) else []
        if roles and self.maybe(.6):
            users, groups = [], []
        if not users and not groups and not roles:
            users = [self.pick(USERS)]
        made = {"users": users, "groups": groups, "accesses": self.some(lambda: self.entry(accesses), 2, 1),
                "conditions": self.some(lambda: self.condition(is_tag), 1) if self.maybe(.4) else []}
        return {**made, "roles": roles} if "roles" in facts else made

    def entry(self, accesses):
        return {"type": self.pick(accesses), "isAllowed": self.maybe(.9)}

    def schedule(self):
        time = lambda: "" if self.maybe(.25) else self.pick(TIMES)
        ends = [time(), time()]
        ends = sorted(ends) if all(ends) else ends
        return {"startTime": ends[0], "endTime": ends[1], "recurrences": [],
                "timeZone": self.pick(["", "UTC", "GMT"]) if self.maybe(.5) else self.pick(TIME_ZONES)[0]}

    def resource(self, level, pattern, most=2):
        return {"values": self.some(pattern, most, 1), "isExcludes": level["excludesSupported"] and self.maybe(.2),
                "isRecursive": level["recursiveSupported"] and self.maybe(.4)}

    def resources(self, definition, pattern, sets, whole=True):
        """With mandatory levels where the resources have to be whole."""
        taken = {level["name"]: level for level in definition["resources"]}
        levels = set(self.pick(sets) if "tag" not in taken else ("tag",))
        missing = {name for name in taken if whole and taken[name]["mandatory"]
                   and any(name in model.ancestors(definition, one) for one in levels)}
        return {name: self.resource(taken[name], pattern) for name in levels | missing}

    def policy(self, number, facts, is_tag, kind):
        definition = facts["tagServiceDef" if is_tag else "serviceDef"]
        pattern = (lambda: self.pick(TAG_PATTERNS + ["*"] * 6 * (kind > 0))) if is_tag else self.pattern
        sets = LEVEL_SETS if kind == 0 else [("database",), ("database", "table")] + LEVEL_SETS[3:] * (kind == 1)
        made = {"id": number, "policyPriority": int(self.maybe(.25)), "resources": self.resources(definition, pattern, sets),
                "conditions": self.some(lambda: self.condition(is_tag), 1) if self.maybe(.1) else [],
                "validitySchedules": self.some(self.schedule, 2) if self.maybe(.15) else [],
                "isEnabled": self.maybe(.93), "isAuditEnabled": self.maybe(.8)}
        if "maps" in self.parts and self.maybe(.4):
            made["additionalResources"] = self.some(lambda: self.resources(definition, pattern, sets), self.pick([1, 1, 2, 3]), 1)
        made.update(self.items(facts, definition, kind, TAG_ACCESSES if is_tag else ACCESSES))
        made.update(self.place(facts, is_tag))
        return made if is_tag else self.moved(made, facts, kind)

    def moved(self, policy, facts, kind):
        """Policies of a zone mostly speak of its resources. Masks and filters mostly meet what is allowed."""
        like = [one["resources"] for one in facts["policies"] if "policyType" not in one and one["resources"].keys() <= PARTS_LEVELS[kind]]
        if kind and like and self.maybe(.6):
            policy["resources"] = copy.deepcopy(self.pick(like))
        maps = [levels for zone in facts.get("zones", []) if zone["name"] == policy.get("zoneName")
                for levels in zone["services"].get("s", {}).get("resources", [])]
        for levels in maps_of(policy):
            if maps and self.maybe(.8):
                for name, values in self.pick(maps).items():
                    if name in levels:
                        levels[name].update(values=values, isExcludes=False)
            for resource in levels.values():
                if kind and self.maybe(.6):
                    resource.update(values=["*"], isExcludes=False)
        return policy

    def items(self, facts, definition, kind, accesses):
        if kind == 0:
            chances = (("policyItems", .85), ("denyPolicyItems", .3), ("allowExceptions", .2), ("denyExceptions", .15))
            return {"isDenyAllElse": self.maybe(.1),
                    **{name: self.some(lambda: self.item(facts, accesses), 2, 1) if self.maybe(chance) else [] for name, chance in chances}}
        part, name = [("dataMaskDef", "dataMaskPolicyItems"), ("rowFilterDef", "rowFilterPolicyItems")][kind - 1]
        listed = [entry["name"] for entry in definition[part]["accessTypes"]]
        with_text = self.with_mask if kind == 1 else self.with_filter
        return {"policyType": kind, name: self.some(lambda: with_text(self.item(facts, listed)), 2, int(self.maybe(.9)))}

    def with_mask(self, item):
        kind = self.pick(MASKS)
        text = self.pick(["left({col}, 2)", "'{col}{col}'", "null"]) if kind == "CUSTOM" else ""
        return {**item, "groups": self.pick([["public"], item["groups"]]),
                "dataMaskInfo": {"dataMaskType": kind, "valueExpr": text, "conditionExpr": "x"}}

    def with_filter(self, item):
        return {**item, "groups": self.pick([["public"], item["groups"]]), "rowFilterInfo": {"filterExpr": self.pick(["a = 1", "{col} > 0", "é = '\"'"])}}

    def place(self, facts, is_tag):
        """The service of a tag policy, and the zone."""
        made = {"service": self.pick(["t1", "t1", "t2"])} if is_tag else {"service": self.pick(["s", "t1"])} if self.maybe(.2) else {}
        own = "tagServices" if facts["serviceDef"]["name"] == "tag" else "services"
        able = [zone["name"] for zone in facts.get("zones", []) if is_tag or "s" in zone[own]]
        if able and self.maybe(.55):
            made["zoneName"] = self.pick(able)
        return made

    # ---- tags

    def tag(self):
        attributes = {"expiry_date": self.pick(EXPIRIES)} if self.maybe(.6) else {}
        return {"type": self.pick(KINDS_OF_TAGS), "attributes": {**attributes, **({"a": "b"} if self.maybe(.2) else {})}}

    def tag_row(self, number, definition):
        pattern = lambda: "*" if self.maybe(.4) else "sales" if self.maybe(.4) else self.pick(PLAIN_PATTERNS)
        row = {"id": number, "resourceElements": self.resources(definition, pattern, LEVEL_SETS + [("database",), ("table",), ("column",)], False),
               "tags": self.some(self.tag, 2)}
        return {**row, "serviceName": self.pick(["s", "other"])} if self.maybe(.3) else row

    # ---- facts

    def kind(self):
        return self.pick([0] * 6 + [1, 1, 1, 2, 2]) if "masks" in self.parts else 0

    def add_tags(self, facts, numbers):
        if self.maybe(.9):
            facts["tagServiceDef"] = self.tag_definition()
            facts["tagPolicies"] = [self.policy(number, facts, True, self.kind()) for number in numbers]
        rows = self.random.sample(range(-1, 9), self.random.randint(0, 4))
        facts["resources"] = [self.tag_row(number, facts["serviceDef"]) for number in rows]

    def facts(self):
        facts = {"service": "s", "fallback": self.maybe(.3), "serviceDef": self.definition(), "policyVersion": 3, "tagVersion": 4,
                 "timeZones": [{"name": name, "rule": rule} for name, rule in TIME_ZONES]}
        if "roles" in self.parts:
            facts["roles"] = self.roles()
        if "zones" in self.parts:
            facts["zones"] = self.zones(facts)
        numbers = self.random.sample(range(1, 60), self.random.randint(1, 14))
        tag_numbers = [numbers.pop() for _ in range(len(numbers) // 2)] if "tags" in self.parts else []
        facts["policies"] = []
        for number in numbers:
            facts["policies"].append(self.policy(number, facts, False, self.kind()))
        if "tags" in self.parts:
            self.add_tags(facts, tag_numbers)
        if self.maybe(.02):
            facts["tagVersion"] = 2 ** 62
        return facts

    # ---- requests

    def moment(self, facts):
        """At a border of schedules, or where a tag expires."""
        ends = [tag.get("attributes", {}).get("expiry_date", "") for row in facts.get("resources", []) for tag in row["tags"]]
        ends = [end for end in map(model.instant, ends + [end + " 00:00:00" for end in ends]) if end is not None]
        if ends and self.maybe(.5):
            return self.pick(ends) + self.pick([-1, 0, 1, 1])
        text, name = self.pick(TIMES + EXPIRIES[len(TIMES):len(TIMES) + 2]), self.pick(["UTC"] + [zone for zone, _ in TIME_ZONES])
        rows = [{"name": zone, "rule": rule} for zone, rule in TIME_ZONES]
        text = text if " " in text else text + " 00:00:00"
        return model.moment_of({"timeZones": rows}, {"timeZone": name}, text) + self.pick([-1, 0, 1])

    def value(self, level, user):
        """One that a written value may stand for."""
        text = self.pick(level["values"] or VALUES)
        if text == "*" or self.maybe(.05):
            return self.pick(VALUES)
        text = "".join(self.pick(["", "x", "les"]) if c == "*" else self.pick("ax") if c == "?" else c
                       for c in text.replace("{USER}", user))
        return text + (self.pick(["/x", "", "x"]) if level.get("isRecursive") or self.maybe(.05) else "")

    def places(self, facts):
        """The levels of tag rows and of zones."""
        maps = [levels for zone in facts.get("zones", []) for levels in zone["services"].get("s", {}).get("resources", [])]
        return ([row["resourceElements"] for row in facts.get("resources", [])]
                + [{name: {"values": values} for name, values in levels.items()} for levels in maps])

    def aimed_item(self, policy):
        lists = [name for name in policy if name.endswith("Items")] if self.maybe(.9) else [name for name in policy if name.endswith("Exceptions")]
        return self.pick([item for name in lists for item in policy[name]] or [{"users": [], "groups": [], "accesses": []}])

    def aim(self, facts):
        """What one policy speaks of: its levels, where it is a tag policy those of a tag row; an item's users, groups and access."""
        policies = facts["policies"] + facts.get("tagPolicies", [])
        policy = self.pick([one for one in policies if one.get("policyType", 0) == 0] or policies)
        item = self.aimed_item(policy)
        roles = [row for row in facts.get("roles", []) if row["name"] in item.get("roles", [])]
        subjects = {kind: [one for holder in [item] + roles for one in holder[kind] if isinstance(one, str)] for kind in ("users", "groups")}
        users = [user for user in subjects["users"] if user in USERS] or USERS
        groups = [group for group in subjects["groups"] if group != "public"] or GROUPS
        levels = self.pick(maps_of(policy))
        if levels.keys() == {"tag"} and facts["serviceDef"]["name"] == "d" or self.maybe(.1):
            levels = self.pick(self.places(facts) or [levels])
        access = self.pick([entry["type"].split(":")[-1] for entry in item["accesses"]] or ["select"])
        return levels, users, groups, access if self.maybe(.9) else "select"

    def request(self, facts):
        """Most of them aim at one policy."""
        levels, users, groups, access = {name: {"values": []} for name in self.pick(LEVEL_SETS + ODD_SETS)}, USERS, GROUPS, self.pick(ACCESSES + ["fly"])
        if facts["policies"] and self.maybe(.85):
            levels, users, groups, access = self.aim(facts)
        user = self.pick(users)
        elements = {name: self.value(level, user) for name, level in levels.items()}
        if "database" in elements and self.maybe(.08):
            elements["table"] = self.pick(VALUES)
        return {"user": user, "userGroups": self.some(lambda: self.pick(groups), 2, int(self.maybe(.6))),
                "resource": {"elements": elements, "ownerUser": self.pick(["", "ann", "zoe", "bob"])},
                "accessType": access, "accessTime": self.moment(facts),
                "clientIPAddress": self.pick(["", "10.0.0.7", "10.0.0.7", "10.1.0.7"]), "context": self.pick([{}, {"k": "v"}, {"k": "w"}, {"j": "v"}])}
