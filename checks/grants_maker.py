"""Makes scripts of grants from a seed: a configuration, then commands, grants, revokes and decisions.

A row mostly has a map of a policy that is there, written in another way, and subjects and access types of its items.
"""

import copy
import json

import admin_maker
import maker
import model
import spoils


class GrantsMaker(admin_maker.NowMaker):
    def map_of(self, policy):
        """Values in another order and with repeats."""
        resources = copy.deepcopy(self.pick(maker.maps_of(policy)))
        for level in resources.values():
            level["values"] = self.random.sample(level["values"], len(level["values"])) + level["values"][:1] * self.maybe(.3)
        return resources

    def subjects_of(self, policy):
        """Those of an item and others."""
        items = [item for name in ("policyItems", "denyPolicyItems", "allowExceptions") for item in policy[name]]
        item = self.pick(items) if items and self.maybe(.7) else {"users": [], "groups": [], "roles": [], "accesses": []}
        accesses = [entry["type"] for entry in item["accesses"]]
        return {"users": [name for name in item["users"] if self.maybe(.7)] + self.some(lambda: self.pick(admin_maker.ACTORS), 2),
                "groups": [name for name in item["groups"] if self.maybe(.7)] + self.some(lambda: self.pick(maker.GROUPS), 1),
                "roles": [name for name in item["roles"] if self.maybe(.7)] + (self.some(lambda: self.pick(self.role_names()), 1) if self.state["roles"] else []),
                "accessTypes": [name for name in accesses if self.maybe(.7)] + self.some(lambda: self.pick(maker.ACCESSES), 1)}

    def row(self):
        plain = [policy for policy in self.state["policies"] if policy["policyType"] == 0 and policy["policyPriority"] == 0 and not policy["validitySchedules"]]
        there = plain if plain and self.maybe(.85) else self.state["policies"]
        if not there:
            return {"service": "s", "resources": {"database": {"values": ["sales"]}}, "users": ["ann"], "accessTypes": maker.ACCESSES[:1]}
        policy = self.pick(there)
        made = {"service": policy["service"], "zoneName": policy["zoneName"], "resources": self.map_of(policy), **self.subjects_of(policy),
                "delegateAdmin": self.maybe(.3)}
        return self.spoilt_row(made) if self.maybe(.3) else made

    def spoilt_row(self, made):
        levels = made["resources"]
        way = self.pick(["service", "zone", "no map", "level", "no value", "value", "value", "flag", "no access", "access", "nobody", "role"])
        if way == "service":
            made["service"] = self.pick(["nowhere", "s", "s2", "t1"])
        elif way == "zone":
            made["zoneName"] = self.pick(["nowhere", ""] + model.names(self.state["zones"]))
        elif way == "no map":
            made["resources"] = {}
        elif way == "level":
            levels[self.pick(["nowhere", "url", "column"])] = {"values": ["*"]}
        elif way in ("no value", "value", "flag") and levels:
            level = self.pick(list(levels.values()))
            if way == "flag":
                self.turn(level)
            else:
                level["values"] = [] if way == "no value" else self.pick([["sales"], ["new%d" % self.random.randint(1, 4)], [""], [spoils.LONG]])
        elif way in ("no access", "access"):
            made["accessTypes"] = [] if way == "no access" else ["fly"]
        elif way == "nobody":
            made.update(users=[], groups=[], roles=[])
        elif way == "role":
            made["roles"] = ["nobody"]
        return made

    def row_line(self):
        word = self.pick(["grant", "grant", "revoke"])
        made = self.row()
        actor = "root" if self.maybe(.7) else self.pick(admin_maker.ACTORS)
        return admin_maker.line(word, actor, json.dumps(self.noise(made), ensure_ascii=self.maybe(.5)))

    def command(self):
        return self.row_line() if self.maybe(.35) else super().command()

    def bad_line(self):
        good = json.dumps({"service": "s"})
        words = [b"refresh", b"grant", admin_maker.line("grant", "root"), admin_maker.line("revoke", "", "root", good), admin_maker.line("grant", "root", "{}"),
                 admin_maker.line("grant", "x" * 257, good), admin_maker.line("revoke", "root", good + "}"), admin_maker.line("grant\troot", good),
                 admin_maker.line("grant", "root", '{"service":"s","users":"ann"}'), admin_maker.line("revoke", "root", '{"service":"s","delegateAdmin":1}'),
                 b"grant \xff " + good.encode(), admin_maker.line("facts", "{}")]
        return self.pick(words) if self.maybe(.5) else super().bad_line()
