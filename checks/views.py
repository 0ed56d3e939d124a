#!/usr/bin/env python3
"""Prints what the program check_models is to print under `# views`: its made-up asks once more, over the administration of
admin_model.py.

usage: checks/views.py
"""
import json
import pathlib
import re

import admin_model

ASKS, FACTOR, WORD = 2000, 0x9E3779B97F4A7C15, 2 ** 64
SOURCE = pathlib.Path(__file__).resolve().parent.parent / "crates" / "check_models" / "src" / "views" / "asks.rt"


def drawn(ask, place, count):
    mixed = (ask * 16 + place) * FACTOR % WORD
    return ((mixed ^ mixed >> 32) * FACTOR % WORD >> 40) % count if count else 0


def item(kind, name, access):
    return {kind: [name], "accesses": [{"type": access}]}


def tag_policy(d):
    values = {"tag": {"values": ["T%d" % d(1, 6)]}}
    return {"command": "createPolicy", "policy": {"service": "tags1", "name": "t%d" % d(1, 6), "resources": values,
                                                  "policyItems": [item("users", "u%d" % d(2, 50), "hive:select")]}}


def zone_policy(d):
    table = d(2, 4)
    return {"command": "createPolicy", "policy": {"service": "hive1", "zoneName": "z%d" % d(1, 5), "name": "z%d" % table,
                                                  "resources": {"table": {"values": ["t%d" % table]}}, "policyItems": [item("roles", "r%d" % table, "all")]}}


def role(d):
    return {"command": "putRole", "role": {"name": "r%d" % d(1, 6), "users": ["u%d" % d(2, 12)], "roles": ["r%d" % d(2, 12)]}}


def bare_role(d):
    return {"command": "putRole", "role": {"name": "r%d" % d(1, 6), "users": ["u%d" % d(2, 50)]}}


def zone(d):
    return {"command": "putZone", "zone": {"name": "z%d" % d(1, 5), "services": {"hive1": {"resources": [{"database": ["%d*" % d(2, 6)]}]}},
                                           "tagServices": ["tags1"], "auditUsers": ["u%d" % d(3, 50)]}}


def tags(d):
    return {"command": "putTags", "id": d(1, 12), "row": {"serviceName": "hive%d" % d(2, 3), "tags": [{"type": "T%d" % d(1, 12)}],
                                                          "resourceElements": {"database": {"values": ["db%d" % d(3, 50)]}}}}


def service(d):
    return {"command": "updateService", "service": {"name": "hive1", "type": "hive", "tagService": "tags1", "fallback": d(1, 2) == 0}}


def definition(d):
    return {"command": "putDef", "def": {"name": "tag", "resources": [{"name": "tag"}],
                                         "accessTypes": [{"name": "hive:select"}, {"name": "hive:%d" % d(1, 9)}]}}


def policy(command, id):
    def made(d):
        name = d(2, 48)
        return {"command": command, "policy": {"id": id, "service": "hive1", "name": "p%d" % name,
                                               "resources": {"database": {"values": ["db%d" % d(3, 50)]}, "table": {"values": ["t%d" % name]}},
                                               "policyItems" if d(5, 8) else "denyPolicyItems": [item("users", "u%d" % d(4, 100), "all")]}}
    return made


def command(admin, ask):
    """The command as it is once its JSON is read."""
    d = lambda place, count: drawn(ask, place, count)
    rows = admin.state["policies"]
    some = rows[d(1, len(rows))]["id"] if rows else 1
    creates, updates, deletes = policy("createPolicy", 0), policy("updatePolicy", some), lambda d: {"command": "deletePolicy", "id": some}
    kinds = [tag_policy, zone_policy, role, bare_role, lambda d: {"command": "deleteRole", "name": "r%d" % d(1, 6)}, zone,
             lambda d: {"command": "deleteZone", "name": "z%d" % d(1, 5)}, tags, tags, lambda d: {"command": "deleteTags", "id": d(1, 12)},
             (service, definition, bare_role, bare_role)[d(5, 4)], creates, creates, creates, updates, updates, deletes, deletes, deletes, bare_role]
    return admin_model.taken(admin_model.reading.read_command(json.dumps(kinds[d(0, 20)](d)).encode()))


class Followed:
    """A view, moved by downloads."""

    def __init__(self, admin, service):
        self.admin, self.service, self.facts = admin, service, admin.view(service)

    def follow(self, counts):
        last = admin_model.facts_printed(self.facts)
        download = self.admin.step("", {"command": "download", "service": self.service, "policiesFrom": last["policyVersion"],
                                        "tagsFrom": last["tagVersion"], "rolesFrom": last["roleVersion"]})
        self.facts = self.admin.view(self.service)
        if any(part != "unchanged" and "whole" in part for part in (download["policies"], download["tags"])):
            counts["whole"] += 1
            return
        counts["moved"] += 1
        counts["agreed"] += admin_model.compact(admin_model.led(last, download)) == admin_model.compact(admin_model.facts_printed(self.facts))


def main():
    text = re.search(r'r#"(\{"admins".*?)"#', SOURCE.read_text()).group(1)
    admin = admin_model.Admin(admin_model.taken(admin_model.reading.read(admin_model.reading.CONFIG, text.encode())))
    often, seldom, tags_view = Followed(admin, "hive1"), Followed(admin, "hive1"), Followed(admin, "tags1")
    accepted, counts = 0, {"moved": 0, "whole": 0, "agreed": 0}
    for ask in range(ASKS):
        accepted += "refused" not in admin.step("root", command(admin, ask))
        often.follow(counts)
        for view, step in ((seldom, 50), (tags_view, 7)):
            if ask % step == 0:
                view.follow(counts)
    print("asks=%d accepted=%d moved=%d whole=%d agreed=%d" % (ASKS, accepted, counts["moved"], counts["whole"], counts["agreed"]))


if __name__ == "__main__":
    main()
