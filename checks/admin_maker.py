"""Makes scripts of administration from a seed: a configuration, then commands, downloads, refreshes and decisions.

It looks at the model's state to aim at what is there. Most commands are plausible; some are spoilt by one rule, some lines are bad.
"""

import copy
import json

import admin_rules
import maker
import model
import spoils

ACTORS = maker.USERS + ["zed", "eve", "é", "{USER}"]
NAMES_OF_POLICIES = ["p%d" % number for number in range(1, 25)]
NAMES_OF_ZONES = ["fin", "hr", "ops", "it"]
PLAIN_SERVICES, TAG_SERVICES = ["s", "s2", "s3"], ["t1", "t2"]
WEIGHTS = {
    "createPolicy": 22, "updatePolicy": 12, "deletePolicy": 4, "getPolicy": 3, "listPolicies": 2, "putRole": 6, "deleteRole": 3, "putZone": 8,
    "deleteZone": 2, "putTags": 7, "deleteTags": 2, "putUser": 3, "deleteUser": 2, "putDef": 6, "createService": 3, "updateService": 3,
    "deleteService": 3, "download": 8, "refresh": 7, "decide": 16,
}
WAYS_OF_POLICIES = (spoils.bad_priority, spoils.bad_policy_levels, spoils.bad_levels_of_an_additional_map, spoils.too_many_maps, spoils.bad_values,
                    spoils.items_of_another_type, spoils.items_of_another_type, spoils.deny_all_else_of_a_mask, spoils.bad_entries,
                    spoils.bad_condition, spoils.nobody, spoils.unknown_role, spoils.bad_mask, spoils.bad_filter, spoils.bad_schedule,
                    spoils.unknown_type)
WAYS_OF_DEFINITIONS = (spoils.bad_definition_name, spoils.bad_levels, spoils.bad_parent, spoils.bad_access_types, spoils.bad_grant,
                       spoils.bad_conditions, spoils.bad_parts, spoils.service_of_tags)
WAYS_OF_ROWS = (spoils.bad_tag_row_levels, spoils.bad_tag_row_values, spoils.bad_tags)


def line(word, *parts):
    return " ".join([word, *parts]).encode()


class AdminMaker(maker.Maker):
    def __init__(self, seed):
        super().__init__(seed)
        self.script, self.trusted = None, []

    # ---- what is there

    @property
    def state(self):
        return self.script.admin.state

    def services(self, of_tags):
        return [row["name"] for row in self.state["services"] if (row["type"] == "tag") == of_tags]

    def one_of(self, things, *others):
        """Mostly one of those that are there."""
        return self.pick(things) if things and self.maybe(.92) else self.pick(list(others))

    def role_names(self):
        return model.names(self.state["roles"])

    def facts_of(self, service):
        """The view of a service as the maker of facts knows it: the service is called s."""
        return self.as_known(self.script.admin.view(service))

    @staticmethod
    def as_known(facts):
        facts, service = copy.deepcopy(facts), facts["service"]
        for zone in facts["zones"]:
            zone["services"] = {"s": zone["services"][service]} if service in zone["services"] else {}
            zone["tagServices"] += ["s"] * (service in zone["tagServices"])
        return facts

    # ---- configurations

    def another_definition(self):
        """Of another name and of other settings."""
        return {**self.plain_definition(), "name": "e"}

    def plain_definition(self):
        while True:
            made = self.definition()
            if made["name"] == "d":
                return made

    def service_row(self, name, kinds=("d", "d", "e")):
        kind = "tag" if name in TAG_SERVICES else self.pick(kinds)
        return {"name": name, "type": kind, "tagService": "" if kind == "tag" else self.pick(TAG_SERVICES + ["", "t1"]), "fallback": self.maybe(.3)}

    def config(self):
        made = {"admins": ["root"], "plugin": "s", "serviceDefs": [self.plain_definition(), self.tag_definition(), self.another_definition()],
                "services": [self.service_row("s", ["d"]), self.service_row("t1"), self.service_row("t2")] + [self.service_row("s2")] * self.maybe(.7),
                "users": [self.user(name) for name in maker.USERS[:2]],
                "timeZones": [{"name": name, "rule": rule} for name, rule in maker.TIME_ZONES]}
        self.random.shuffle(made["services"])
        return self.bad_config(made) if self.maybe(.05) else made

    def bad_config(self, made):
        way = self.pick(["definition", "service", "user", "time zone", "plugin", "missing"])
        if way == "definition":
            self.spoilt(WAYS_OF_DEFINITIONS, {"serviceDef": made["serviceDefs"][0]})
        elif way == "service":
            made["services"].append(self.pick([{"name": "s4", "type": "nowhere"}, {"name": "s", "type": "d"}, {"name": "", "type": "d"},
                                               {"name": "s4", "type": "d", "tagService": "s"}]))
        elif way == "user":
            made["users"].append({"name": self.pick(["", spoils.LONG])})
        elif way == "time zone":
            made["timeZones"].append({"name": "Mars", "rule": "EST5EDT,M3.2.0"})
        else:
            made["plugin"] = self.pick(["nowhere", "t1"]) if way == "plugin" else None
        return made

    def user(self, name):
        return {"name": name, "groups": self.some(lambda: self.pick(maker.GROUPS), 2)}

    # ---- spoiling

    def spoilt(self, ways, facts):
        """As it is where the way finds nothing."""
        try:
            self.pick(ways)(self, facts)
        except LookupError:
            pass

    # ---- policies

    def tag_facts(self, service):
        """Facts of some service that has these tags, for the maker of tag policies."""
        using = [row["name"] for row in self.state["services"] if row["tagService"] == service]
        if using:
            return self.facts_of(self.pick(using))
        return {"tagServiceDef": admin_rules.definition_of(self.state, service), "roles": copy.deepcopy(self.state["roles"]), "zones": [],
                "policies": [], "serviceDef": {"name": "d"}}

    def resources(self, definition, pattern, sets, whole=True):
        """A definition may have lost some levels."""
        there = model.names(definition["resources"])
        able = [levels for levels in sets if all(name in there for name in levels)]
        return super().resources(definition, pattern, able or [tuple(there[:1])], whole)

    def new_policy(self, service, kind):
        is_tag = service in self.services(True)
        facts = self.tag_facts(service) if is_tag else self.facts_of(service)
        definition = admin_rules.definition_of(self.state, service)
        able = kind == 0 or definition[["dataMaskDef", "rowFilterDef"][kind - 1]]["accessTypes"]
        made = {**self.policy(0, facts, is_tag, kind if able else 0), "policyType": kind}
        made.update(service=service, name=self.pick(NAMES_OF_POLICIES), id=self.pick([0, 0, 7]))
        if is_tag:
            able = [zone["name"] for zone in self.state["zones"] if service in zone["tagServices"]]
            made["zoneName"] = self.pick(able) if able and self.maybe(.5) else ""
        for name in ("policyItems", "denyPolicyItems", "dataMaskPolicyItems"):
            for item in made.get(name, []):
                item["delegateAdmin"] = self.maybe(.3)
        if self.maybe(.25):
            self.move_under(made)
        return self.delegating(made) if kind == 0 and self.maybe(.2) else made

    def entry(self, accesses):
        return {"type": self.pick(accesses), "isAllowed": self.maybe(.8)}

    def move_under(self, made):
        """To the maps of a policy that delegates, as they are or changed a little, and for those whom it names."""
        there = [(policy, item) for policy in self.state["policies"] for item in policy["policyItems"]
                 if policy["service"] == made["service"] and item["delegateAdmin"]]
        if not there:
            return
        policy, item = self.pick(there)
        maps = [copy.deepcopy(resources) for resources in maker.maps_of(policy)]
        for resources in maps:
            for level in resources.values():
                level["values"] = [value.replace("*", self.pick(["*", "a", "?"])) if self.maybe(.5) else value for value in level["values"]]
                self.turn(level)
        self.random.shuffle(maps)
        made.update(resources=maps[0], additionalResources=maps[1:], zoneName=policy["zoneName"])
        accesses = [entry["type"] for entry in item["accesses"]]
        for entry in [entry for name in model.records.ITEM_LISTS for one in made.get(name, []) for entry in one["accesses"]]:
            entry["type"] = self.pick(accesses) if self.maybe(.7) and made["policyType"] == 0 else entry["type"]
        self.trusted = item["users"] + [row["name"] for row in self.state["users"] if any(group in item["groups"] for group in row["groups"])]

    def turn(self, level):
        flag = self.pick(["isRecursive", "isExcludes"] + [""] * 6)
        if flag:
            level[flag] = not level[flag]

    def delegating(self, made):
        """All accesses of wide resources."""
        names = maker.TAG_ACCESSES[2:] if made["service"] in TAG_SERVICES else maker.ACCESSES
        accesses = [{"type": name, "isAllowed": self.maybe(.95)} for name in (names if self.maybe(.6) else names[:2])]
        for resources in maker.maps_of(made):
            for resource in resources.values():
                resource.update(values=self.pick([["*"], ["*"], ["s*", "hr"], resource["values"]]), isExcludes=False)
        item = {"users": self.some(lambda: self.pick(ACTORS), 3), "groups": self.pick([[], ["staff"], ["public"]]),
                "roles": self.some(lambda: self.pick(self.role_names()), 1) if self.state["roles"] else [], "accesses": accesses, "delegateAdmin": True}
        if item["users"] or item["groups"] or item["roles"]:
            made["policyItems"] = made.get("policyItems", []) + [item]
        return made

    def spoilt_policy(self, made):
        way = self.pick(["way"] * 10 + ["name", "same name", "same maps", "zone", "zone", "flag", "levels", "part"])
        there = self.state["policies"]
        if way == "way":
            self.spoilt(WAYS_OF_POLICIES, {"policies": [made], "serviceDef": {"resources": []}})
        elif way == "name":
            made["name"] = self.pick(["", spoils.LONG])
        elif way in ("same name", "same maps") and there:
            other = self.pick(there)
            keys = ["service", "zoneName"] + (["name"] if way == "same name" else
                                              ["policyType", "policyPriority", "validitySchedules", *model.records.ITEM_LISTS])
            made.update({key: copy.deepcopy(other[key]) for key in keys})
            if way == "same maps":
                made["isEnabled"] = other["isEnabled"] or self.maybe(.5)
                self.take_maps(made, other)
        elif way == "zone":
            made["zoneName"] = self.pick(["nowhere"] + model.names(self.state["zones"]))
        elif way == "flag":
            self.pick([level for resources in maker.maps_of(made) for level in resources.values()])[self.pick(["isExcludes", "isRecursive"])] = True
        elif way == "levels":
            made["resources"] = {name: {"values": ["*"]} for name in self.pick([("table",), ("column",), ("udf",), ("table", "column")])}
        elif way == "part":
            made.update(policyType=self.pick([1, 2]), policyItems=[])
        return made

    def take_maps(self, made, other):
        """The same maps, in another order and with repeats."""
        maps = [copy.deepcopy(resources) for resources in maker.maps_of(other)]
        for resources in maps:
            for level in resources.values():
                level["values"] = self.random.sample(level["values"], len(level["values"])) + level["values"][:1]
        self.random.shuffle(maps)
        made.update(resources=maps[0], additionalResources=maps[1:] + maps[:1] * self.maybe(.3), policyItems=copy.deepcopy(other["policyItems"]))

    def policy_command(self):
        service = self.one_of(self.services(False) + self.services(True)[:1], "nowhere")
        there = self.services(False) + self.services(True)
        made = self.new_policy(service if service in there else self.pick(there), self.kind())
        made = self.spoilt_policy(made) if self.maybe(.3) else made
        return {**made, "service": service} if service not in there else made

    def createPolicy(self):
        return {"policy": self.policy_command()}

    def updatePolicy(self):
        """Mostly of the same service and zone, often of the same items or maps."""
        there = self.state["policies"]
        if not there or self.maybe(.06):
            return {"policy": {**self.policy_command(), "id": self.pick([0, 99, -1])}}
        old = copy.deepcopy(self.pick(there))
        made = self.new_policy(old["service"], old["policyType"])
        keep = self.pick([[], ["resources", "additionalResources"], list(old)])
        made = {**made, **{key: old[key] for key in ["name", "zoneName"] + keep}, "service": old["service"], "id": old["id"]}
        if self.maybe(.35):
            made = {**self.spoilt_policy(made), "id": old["id"]}
        return {"policy": {**made, "service": "nowhere"} if self.maybe(.04) else made}

    def number_of_a_policy(self):
        return self.one_of([policy["id"] for policy in self.state["policies"]], 0, 99, -1)

    def deletePolicy(self):
        return {"id": self.number_of_a_policy()}

    def getPolicy(self):
        return {"id": self.number_of_a_policy()}

    def listPolicies(self):
        return {"service": self.one_of(model.names(self.state["services"]), "nowhere")}

    # ---- definitions and services

    def putDef(self):
        """A new one, or one that is there with a setting changed, taken away or added."""
        if self.maybe(.15):
            made = self.pick([{**self.another_definition(), "name": self.pick(["e", "x"])}, self.tag_definition()])
        else:
            made = copy.deepcopy(self.pick(self.state["serviceDefs"]))
            self.change_definition(made)
        if self.maybe(.4):
            self.spoilt(WAYS_OF_DEFINITIONS + (spoils.tag_definition_of_levels,), {"serviceDef": made, "tagServiceDef": made})
        return {"def": made}

    def change_definition(self, made):
        levels, masks = made["resources"], made["dataMaskDef"]
        way = self.pick(["setting", "setting", "setting", "level", "level", "access", "condition", "mask", "parts", "more", "nothing", "fold"])
        if way == "setting":
            level = self.pick(levels)
            key = self.pick(["mandatory", "recursiveSupported", "excludesSupported"])
            level[key] = not level[key]
        elif way == "fold":
            for level in levels:
                level["matcherOptions"] = {"wildCard": self.maybe(.8), "ignoreCase": True}
        elif way == "level" and len(levels) > 1:
            leaves = [level for level in levels if all(other["parent"] != level["name"] for other in levels)]
            levels.remove(self.pick([level for level in leaves if level["name"] in self.levels_of_zones(made)] or leaves))
            self.drop_levels(made)
        elif way == "access" and len(made["accessTypes"]) > 2:
            made["accessTypes"] = [kind for kind in made["accessTypes"] if "super" not in kind["name"] and "other" not in kind["name"]]
        elif way == "condition" and made["policyConditions"]:
            made["policyConditions"].pop(self.random.randrange(len(made["policyConditions"])))
        elif way == "mask" and masks["maskTypes"]:
            masks["maskTypes"].pop(self.random.randrange(len(masks["maskTypes"])))
        elif way == "parts":
            made.update(self.pick([{"dataMaskDef": {}}, {"rowFilterDef": {}}, {"dataMaskDef": {**masks, "maskTypes": []}}]))
        elif way == "more":
            made["accessTypes"].append({"name": "extra%d" % self.random.randint(1, 3)})

    def levels_of_zones(self, definition):
        """The levels that zones name under the definition, and no policy and no tag row."""
        own = [row["name"] for row in self.state["services"] if row["type"] == definition["name"]]
        used = {name for policy in self.state["policies"] if policy["service"] in own for resources in maker.maps_of(policy) for name in resources}
        used |= {name for row in self.state["tagRows"] if row["serviceName"] in own for name in row["resourceElements"]}
        return {name for zone in self.state["zones"] for service in own for levels in model.maps_of(zone, service) for name in levels} - used

    @staticmethod
    def drop_levels(made):
        for part in ("dataMaskDef", "rowFilterDef"):
            made[part]["resources"] = [one for one in made[part]["resources"] if one["name"] in model.names(made["resources"])]

    def createService(self):
        free = [name for name in PLAIN_SERVICES + TAG_SERVICES if name not in model.names(self.state["services"])]
        made = self.service_row(self.pick(free) if free and self.maybe(.8) else self.pick(["", spoils.LONG, "s", "s2"]))
        return {"service": self.spoilt_service(made) if self.maybe(.3) else made}

    def spoilt_service(self, made):
        return {**made, **self.pick([{"type": "nowhere"}, {"tagService": "nowhere"}, {"tagService": self.pick(PLAIN_SERVICES)},
                                     {"type": "tag", "tagService": "t1"}])}

    def updateService(self):
        there = self.state["services"]
        made = {**self.pick(there), "fallback": self.maybe(.5)}
        if made["type"] != "tag":
            made["tagService"] = self.pick(TAG_SERVICES + [""])
        made = self.spoilt_service(made) if self.maybe(.25) else made
        way = self.pick(["name", "type"] + [""] * 8)
        return {"service": {**made, **({"name": "nowhere"} if way == "name" else {"type": self.pick(["d", "e", "tag"])} if way == "type" else {})}}

    def deleteService(self):
        return {"name": self.one_of(model.names(self.state["services"]), "nowhere")}

    # ---- roles, zones, tags, users

    def putRole(self):
        name = self.pick(maker.ROLES)
        later = [role for role in self.role_names() if role > name]
        made = self.role(name, later)
        way = self.pick(["name", "unknown", "circle", "self"] + [""] * 9)
        if way == "name":
            made["name"] = self.pick(["", spoils.LONG])
        elif way:
            made["roles"] = [{"unknown": "nobody", "circle": self.one_of(self.role_names(), name), "self": made["name"]}[way]]
        return {"role": made}

    def deleteRole(self):
        return {"name": self.one_of(self.role_names(), "nobody")}

    def subjects(self, kind):
        roles = self.role_names()
        return {kind + "Users": self.some(lambda: self.pick(ACTORS), 1), kind + "UserGroups": self.some(lambda: self.pick(maker.GROUPS + ["public"]), 1),
                kind + "Roles": self.some(lambda: self.pick(roles), 1) if roles else []}

    def zone_row(self, name):
        """Each name has areas of its own, that overlap none of another."""
        place = NAMES_OF_ZONES.index(name) * 2
        maps = lambda: [copy.deepcopy(area) for area in self.random.sample(maker.AREAS[place:place + 2], self.pick([1, 1, 2]))]
        plain = [service for service in self.services(False) if service == "s" or self.maybe(.5)]
        return {"name": name, "services": {service: {"resources": maps()} for service in plain},
                "tagServices": [service for service in self.services(True) if self.maybe(.6)], **self.subjects("admin"), **self.subjects("audit")}

    def spoilt_zone(self, made):
        way = self.pick(["name", "service", "tag service", "twice", "no maps", "levels", "values", "role", "wide", "wide", "left", "left"])
        maps = [levels for one in made["services"].values() for levels in one["resources"]]
        if way == "name":
            made["name"] = self.pick(["", spoils.LONG])
        elif way == "service":
            made["services"][self.pick(["nowhere", "t1"])] = {"resources": [{"database": ["x"]}]}
        elif way == "tag service":
            made["tagServices"].append(self.pick(["nowhere", "s"]))
        elif way == "twice":
            made["tagServices"] = ["t1", "t1"]
        elif way == "no maps":
            made["services"]["s"] = self.pick([{}, {"resources": []}, {"resources": [{}]}])
        elif way == "levels" and maps:
            self.pick(maps).update(self.pick([{"nowhere": ["*"]}, {"url": ["*"], "database": ["*"]}, {"udf": ["*"], "table": ["*"]}]))
        elif way == "values" and maps:
            levels = self.pick(maps)
            levels[self.pick(list(levels))] = self.pick([[], [""], [spoils.LONG], ["{USER}"], ["sales", "x{USER}"]])
        elif way == "role":
            made[self.pick(["adminRoles", "auditRoles"])] = ["nobody"]
        elif way == "wide":
            made["services"]["s"] = {"resources": [copy.deepcopy(self.wide_area())]}
        elif way == "left":
            self.pick([made["services"].clear, made["tagServices"].clear])()
        return made

    def putZone(self):
        made = self.zone_row(self.pick(NAMES_OF_ZONES))
        return {"zone": self.spoilt_zone(made) if self.maybe(.4) else made}

    def deleteZone(self):
        return {"name": self.one_of(model.names(self.state["zones"]), "nowhere")}

    def putTags(self):
        there = model.names(self.state["services"])
        service = self.one_of(self.services(False), "nowhere", self.pick(self.services(True) or ["nowhere"]))
        definition = admin_rules.definition_of(self.state, service if service in there else "s")
        row = self.tag_row(self.random.randint(-1, 9), definition)
        row["serviceName"] = service
        if self.maybe(.25):
            self.spoilt(WAYS_OF_ROWS, {"resources": [row]})
        if self.maybe(.05) and row["resourceElements"]:
            self.pick(list(row["resourceElements"].values()))[self.pick(["isExcludes", "isRecursive"])] = True
        return {"id": self.random.randint(1, 6) if self.maybe(.92) else self.pick([0, -1]), "row": row}

    def deleteTags(self):
        return {"id": self.one_of([row["id"] for row in self.state["tagRows"]], 0, 99)}

    def putUser(self):
        made = self.user(self.pick(ACTORS))
        return {"user": {**made, **self.pick([{"name": ""}, {"name": spoils.LONG}, {"groups": ["staff", ""]}])} if self.maybe(.15) else made}

    def deleteUser(self):
        return {"name": self.one_of(model.names(self.state["users"]), "nobody")}

    # ---- downloads

    def version(self, present):
        return self.pick([present] * 3 + [present - 1, present - 1, present - 2, present - 3, 1, 1, present + 1, 0, 2 ** 64 - 1, None])

    def download(self):
        service = self.one_of(model.names(self.state["services"]), "nowhere")
        if service == "nowhere":
            return {"service": service, "policiesFrom": self.version(2)}
        logs = self.script.admin
        presents = {"policiesFrom": logs.policy_logs[service].version, "tagsFrom": logs.tag_logs[service].version, "rolesFrom": self.state["roleVersion"]}
        return {"service": service, **{key: max(0, version) if version is not None else None
                                       for key, version in ((key, self.version(present)) for key, present in presents.items())}}

    # ---- lines

    def actor(self, command, fields):
        """Of a policy that is there, at times somebody who may administer it."""
        able = command in ("createPolicy", "updatePolicy", "deletePolicy", "getPolicy", "listPolicies", "download")
        trusted, self.trusted = self.trusted, []
        if command in ("createPolicy", "updatePolicy") and trusted and self.maybe(.6):
            return self.pick(trusted)
        if self.maybe(.65 if able else .85):
            return "root"
        there = admin_rules.numbered(self.state["policies"], fields.get("id", fields.get("policy", {}).get("id")))
        trusted = [actor for actor in ACTORS if there and admin_rules.may(self.state, actor, there)]
        return self.pick(trusted if trusted and self.maybe(.5) else ACTORS)

    def facts_to_ask(self):
        """Mostly those of the last publication, and at times those that a refresh would publish."""
        return self.facts_of(self.state["plugin"]) if self.maybe(.3) else self.as_known(self.script.facts)

    def noise(self, given):
        """Keys in another order, unknown ones, nulls."""
        keys = list(given)
        self.random.shuffle(keys)
        more = {"comment": self.pick([None, [1.5, {"x": "y"}], "é"])} if self.maybe(.1) else {}
        return {**{key: given[key] for key in keys}, **more}

    def command(self):
        word = self.random.choices(list(WEIGHTS), list(WEIGHTS.values()))[0]
        if word == "refresh":
            return line("refresh")
        if word == "decide":
            return line("decide", json.dumps(self.request(self.facts_to_ask()), ensure_ascii=self.maybe(.5)))
        fields = getattr(self, word)()
        return self.ask(self.actor(word, fields), word, fields)

    def ask(self, actor, word, fields):
        return line("admin", actor, json.dumps(self.noise({"command": word, **fields}), ensure_ascii=self.maybe(.5)))

    def bad_line(self):
        good = json.dumps({"command": "getPolicy", "id": 1})
        words = [line("admin", "root"), line("admin", "", "root", good), line("admin", "x" * 257, good), line("admin", "root", good + "}"),
                 line(" refresh"), line("refresh", ""), line("decide", "{}"), line("config", json.dumps(self.config())), line("facts", "{}"),
                 line("hello"), line("admin", "root", '{"command":"fly"}'), line("admin", "root", '{"id":1}'), b"admin \xff " + good.encode(),
                 line("admin", "root", '{"command":"getPolicy","id":1.0}'), line("admin", "root", '{"command":"getPolicy"}'),
                 line("admin", "root", '{"command":"deletePolicy","id":9223372036854775808}'), line("admin", "root", "[" * 128 + "]" * 128),
                 line("admin", "root", '{"command":"download","service":"s","tagsFrom":-1}'), line("admin", "root", '{"command":"putRole","role":{"name":"r1","users":[null]}}'),
                 line("admin", "root", '{"command":"putUser","user":{"name":"\\ud800"}}'), line("admin\troot", good)]
        return self.pick(words)

    def first_policies(self):
        """Something to administer and to decide by, mostly of the plugin's service and its tags, and then a refresh."""
        tags = [row["tagService"] for row in self.state["services"] if row["name"] == "s" and row["tagService"]]
        for _ in range(self.pick([4, 8, 12])):
            yield self.ask("root", "createPolicy", {"policy": self.new_policy(self.pick(["s", "s", *tags]), self.kind())})
        yield self.ask("root", "putTags", self.putTags())
        yield line("refresh")

    def next_line(self):
        return self.pick([b"", b"#", b"# refresh", "# é".encode()]) if self.maybe(.03) else self.bad_line() if self.maybe(.002) else self.command()


class NowMaker(AdminMaker):
    """Of scripts without refreshes, whose decisions count in every line before them."""

    def facts_to_ask(self):
        """What the plugin sees now."""
        return self.facts_of(self.state["plugin"])

    def command(self):
        while True:
            made = super().command()
            if made != b"refresh":
                return made

    def first_policies(self):
        return (made for made in super().first_policies() if made != b"refresh")
