#!/usr/bin/env python3
"""Turns what an Apache Ranger server gives into a script of rangerd: facts, or an administration.

usage: tools/from_ranger.py (--facts | --administration) POLICIES [--tags FILE] [--roles FILE] [--zones FILE] [--users FILE]
                            [--definition FILE] [--tag-definition FILE] [--service NAME] [--tag-service NAME]
                            [--time-zone NAME] [--admin NAME] [--ids FILE]
       tools/from_ranger.py --keys        prints what becomes of each key

POLICIES is a plugin's download of policies, or the same from its cache, or an export of the user interface, which is a list of policies and
needs --definition. The other files are downloads too, of tags, roles and users; --zones is the list of security zones with their
administrators; --time-zone is the one of the plugins, for schedules that name none. docs/RANGER.md says where each is had.

What can't be said here is left out, and named on standard error: a line that begins with `left out` is about what decides less than there;
one that begins with `UNSAFE`, about what denied, masked or filtered there and doesn't here. A `note` changes no decision of a request
that is alike.

status: 0 all is said, 2 an input can't be taken, 3 something is left out, 4 something is UNSAFE
"""

import argparse
import collections
import json
import os
import sys

sys.path.insert(0, os.path.dirname(os.path.abspath(__file__)))

from conversion import keys  # noqa: E402
from conversion.definitions import Definition  # noqa: E402
from conversion.ground import Ground, Tags, users_of  # noqa: E402
from conversion.policies import Policies, is_harming, label  # noqa: E402
from conversion.told import Bad, Told, say  # noqa: E402

LONGEST_LINE = 1_048_576
FULL = 2 ** 62
READ_ALL = "ask for the whole, with lastKnownVersion=-1"


def compact(value):
    return json.dumps(value, separators=(",", ":"), ensure_ascii=False)


# ---- files

def refuse_constant(text):
    raise ValueError("%s is no number" % text)


def read_file(path):
    """The JSON of a file. Raises Bad."""
    try:
        with open(path, encoding="utf-8-sig") as file:
            value = json.load(file, parse_constant=refuse_constant)
        json.dumps(value, ensure_ascii=False).encode()
        return value
    except OSError as error:
        raise Bad("%s: %s" % (path, error.strerror))
    except RecursionError:
        raise Bad("%s: nested too deep" % path)
    except UnicodeError:
        raise Bad("%s: not UTF-8" % path)
    except ValueError as error:
        raise Bad("%s: not JSON: %s" % (path, error))


def read_record(path, kind, told):
    return keys.Reader(path, told).read(keys.record(kind), read_file(path)) if path else {}


def read_rows(path, kind, row, key, told):
    """A list of records, which may stand under a key of a map."""
    if not path:
        return []
    value, reader = read_file(path), keys.Reader(path, told)
    return reader.read(keys.each(keys.record(row)), value) if isinstance(value, list) else reader.read(keys.record(kind), value).get(key, [])


# ---- one conversion

class Conversion:
    """What is taken of all files."""

    def __init__(self, args):
        self.args, self.told = args, Told()
        self.ground, self.versions = Ground(self.told, args.time_zone), {}
        self.service = self.tag_service = self.definition = self.tag_definition = None
        raw = read_file(args.policies)
        if isinstance(raw, dict) and ("serviceDef" in raw or "securityZones" in raw or "serviceName" in raw):
            own, tagged, zones = self.read_download(raw)
        else:
            own, tagged, zones = self.read_export(raw)
        self.take(own, tagged, zones)
        self.told.tell_unknown_keys()

    # ---- the file of policies

    def whole(self, row, place=""):
        deltas = row.pop("policyDeltas", None)
        if deltas or (deltas is not None and "policies" not in row):
            raise Bad("%s: %s: a download as deltas (policyDeltas): %s" % (self.args.policies, place or "/", READ_ALL))
        self.judge_settings(row.pop("serviceConfig", {}), row.pop("auditMode", "audit-default"))
        return row

    def judge_settings(self, settings, audit):
        file = self.args.policies
        for key, value in settings.items():
            if "super.users" in key or "super.groups" in key:
                if value:
                    self.told.left_out("%s: %s: %s may do everything there; the policies count for them here" % (file, key, value))
            elif "service.admin" in key:
                self.told.left_out("%s: %s: who administers the service; the administrator of --admin does here" % (file, key))
            elif "audit" in key:
                self.told.note("%s: %s sets what is audited there; isAuditEnabled of the policy does here" % (file, key))
            elif not key.endswith(".download.auth.users"):
                self.told.unknown_key(file, "service's configuration", key, "/serviceConfig")
        if audit != "audit-default":
            self.told.note("%s: auditMode %s sets what is audited there; isAuditEnabled of the policy does here" % (file, audit))

    def read_download(self, raw):
        row = self.whole(keys.Reader(self.args.policies, self.told).read(keys.record("policy download"), raw))
        tagging = self.whole(row.get("tagPolicies", {}), "/tagPolicies")
        self.service, self.tag_service = row.get("serviceName", ""), tagging.get("serviceName")
        self.define(row.get("serviceDef"), tagging.get("serviceDef"))
        self.versions = {"policyVersion": row.get("policyVersion", 1)}
        own, zones = list(row.get("policies", [])), []
        for name, info in row.get("securityZones", {}).items():
            self.whole(info, "/securityZones/" + name)
            own += [{**policy, "zoneName": policy.get("zoneName") or name} for policy in info.get("policies", [])]
            services = {self.service: {"resources": info["resources"]}} if info.get("resources") else {}
            zones.append({"name": name, "services": services, "tagServices": [self.tag_service] if info.get("containsAssociatedTagService") else []})
        return own, tagging.get("policies", []), zones

    def read_export(self, raw):
        reader = keys.Reader(self.args.policies, self.told)
        row = {"policies": reader.read(keys.each(keys.record("policy")), raw)} if isinstance(raw, list) else reader.read(keys.record("policy export"), raw)
        if "policies" not in row:
            raise Bad("%s: neither a download of policies nor a list of them" % self.args.policies)
        if not self.args.definition:
            raise Bad("%s: a list of policies: give the service definition by --definition" % self.args.policies)
        policies = row["policies"]
        if row.get("totalCount", 0) > len(policies):
            self.told.left_out("%s: %d of %d policies: the others aren't in the file" % (self.args.policies, len(policies), row["totalCount"]), harms=True)
        self.ground.zones_are_given = bool(self.args.zones)
        is_tag = lambda policy: policy.get("serviceType") == "tag"
        self.service = self.one_service([policy for policy in policies if not is_tag(policy)], self.args.service, "--service")
        self.tag_service = self.one_service([policy for policy in policies if is_tag(policy)], self.args.tag_service, "--tag-service")
        self.define(None, None)
        own, tagged, others = [], [], collections.Counter()
        for policy in policies:
            if is_tag(policy) and not self.tag_definition:
                self.told.left_out("%s: %s: there is no tag definition" % (self.args.policies, label(policy)), is_harming(policy))
            elif policy.get("service", "") in (self.service, self.tag_service):
                (tagged if is_tag(policy) else own).append(policy)
            else:
                others[policy.get("service", "")] += 1
        for service, count in sorted(others.items()):
            self.told.left_out("%s: %d policies of the service %s" % (self.args.policies, count, service))
        return own, tagged, []

    def one_service(self, policies, chosen, option):
        names = sorted({policy.get("service", "") for policy in policies})
        if chosen:
            return chosen
        if len(names) > 1:
            raise Bad("%s: policies of several services: choose one of %s by %s" % (self.args.policies, ", ".join(names), option))
        return names[0] if names else None

    def define(self, row, tag_row):
        """The definitions, of the file or of their own files."""
        file, tag_file = self.args.policies, self.args.policies
        if self.args.definition:
            row, file = read_record(self.args.definition, "service definition", self.told), self.args.definition
        if self.args.tag_definition:
            tag_row, tag_file = read_record(self.args.tag_definition, "service definition", self.told), self.args.tag_definition
        if row is None:
            raise Bad("%s: no service definition: give it by --definition" % file)
        if not self.service or not 1 <= len(self.service) <= 256:
            raise Bad("%s: the name of the service has 1 to 256 characters" % self.args.policies)
        self.definition = Definition(row, file, self.told)
        if tag_row is None:
            self.tag_service = None
        else:
            self.tag_definition = Definition(tag_row, tag_file, self.told, is_tag=True)
            self.tag_service = self.tag_service or "tags"
            if not 1 <= len(self.tag_service) <= 256 or self.tag_service == self.service:
                raise Bad("%s: the name of the tag service" % self.args.policies)

    # ---- all parts

    def take(self, own, tagged, zones):
        args, ground = self.args, self.ground
        ground.take_roles(self.read_roles(), own + tagged, args.roles)
        given = read_rows(args.zones, "zone list", "zone", "securityZones", self.told)
        names = {zone.get("name") for zone in given}
        ground.take_zones([zone for zone in zones if zone["name"] not in names], self.definition, self.service, self.tag_service, args.policies)
        ground.take_zones(self.with_resources(given, zones), self.definition, self.service, self.tag_service, args.zones)
        self.policies = Policies(ground, self.definition, self.service, args.policies, self.told).take(own)
        self.tag_policies = self.take_tag_policies(tagged)
        self.rows = self.take_tags()
        self.users = users_of(read_record(args.users, "user store", self.told), args.users, self.told)

    def read_roles(self):
        if not self.args.roles:
            return []
        value, reader = read_file(self.args.roles), keys.Reader(self.args.roles, self.told)
        if isinstance(value, list):
            return reader.read(keys.each(keys.record("role")), value)
        row = reader.read(keys.record("role download"), value)
        self.versions["roleVersion"] = row.get("roleVersion", 0)
        return row.get("rangerRoles", row.get("roles", []))

    def with_resources(self, given, zones):
        """Of a zone that the download has too, what the download says of this service counts, and the list says who administers it."""
        there = {zone["name"]: zone for zone in zones}
        return [self.merged(zone, there[zone["name"]]) if zone.get("name") in there else zone for zone in given]

    def merged(self, zone, there):
        services = {name: row for name, row in zone.get("services", {}).items() if name != self.service}
        tag_services = [name for name in zone.get("tagServices", []) if name != self.tag_service]
        return {**zone, "services": {**services, **there["services"]}, "tagServices": tag_services + there["tagServices"]}

    def take_tag_policies(self, tagged):
        if self.tag_definition is None:
            for policy in tagged:
                self.told.left_out("%s: %s: there is no tag definition" % (self.args.policies, label(policy)), is_harming(policy))
            return []
        return Policies(self.ground, self.tag_definition, self.tag_service, self.args.policies, self.told).take(tagged)

    def take_tags(self):
        given = read_record(self.args.tags, "tag download", self.told)
        if self.tag_policies and not self.args.tags:
            self.told.left_out("%s: no tags are given, so the tag policies count for nothing" % self.args.policies, any(map(is_harming, self.tag_policies)))
        if given.get("isDelta"):
            raise Bad("%s: /isDelta: a download as deltas: %s" % (self.args.tags, READ_ALL))
        if given.get("op", "add_or_update") not in ("add_or_update", "replace"):
            raise Bad("%s: /op: %s isn't a whole download" % (self.args.tags, given["op"]))
        if given.get("serviceName", self.service) != self.service:
            raise Bad("%s: /serviceName: tags of %s, and the policies are of %s" % (self.args.tags, given["serviceName"], self.service))
        self.versions["tagVersion"] = given.get("tagVersion", 1)
        return Tags(self.definition, self.tag_policies, self.service, self.args.tags, self.told).take(given)

    # ---- outputs

    def facts(self):
        made = {"service": self.service, "serviceDef": self.definition.written(), "policies": self.policies,
                "zones": list(self.ground.zones.values()), "roles": list(self.ground.roles.values()), "resources": self.rows,
                "timeZones": self.ground.clocks.rows()}
        if self.tag_definition:
            made.update(tagServiceDef=self.tag_definition.written(), tagPolicies=self.tag_policies)
        for key, least in (("policyVersion", 1), ("tagVersion", 1), ("roleVersion", 0)):
            made[key] = min(max(self.versions.get(key, least), least), FULL)
        line = "facts " + compact(made)
        if len(line.encode()) > LONGEST_LINE:
            self.told.lines.append("warning: the facts line has %d bytes, and a line has at most %d: take --administration"
                                   % (len(line.encode()), LONGEST_LINE))
        return [line], {}

    def administration(self):
        """The lines, and the new id of each policy. Policies go by their old ids, so the least of several stays the least."""
        services = [{"name": self.service, "type": self.definition.name}]
        definitions = [self.definition.written()]
        if self.tag_definition:
            services = [{"name": self.tag_service, "type": "tag"}, {**services[0], "tagService": self.tag_service}]
            definitions.append(self.tag_definition.written())
        lines = ["config " + compact({"admins": [self.args.admin], "plugin": self.service, "timeZones": self.ground.clocks.rows(),
                                      "serviceDefs": definitions, "services": services})]
        ids = {}
        for command in self.commands():
            line = "admin %s %s" % (self.args.admin, compact(command))
            if len(line.encode()) > LONGEST_LINE:
                self.told.left_out("a command of %d bytes: %s..." % (len(line.encode()), line[:80]), harms=True)
                continue
            if "policy" in command:
                ids[command["policy"]["id"]] = len(ids) + 1
            lines.append(line)
        return lines, ids

    def commands(self):
        ground = self.ground
        yield from ({"command": "putUser", "user": row} for row in self.users)
        yield from ({"command": "putRole", "role": row} for row in ground.roles.values())
        yield from ({"command": "putZone", "zone": row} for row in ground.zones.values())
        for policy in sorted(self.policies + self.tag_policies, key=lambda policy: policy["id"]):
            yield {"command": "createPolicy", "policy": policy}
        yield from ({"command": "putTags", "id": row["id"], "row": row} for row in self.rows)

    def counts(self):
        ground = self.ground
        parts = [("policies", self.policies), ("tag policies", self.tag_policies), ("zones", ground.zones), ("roles", ground.roles),
                 ("tagged resources", self.rows), ("time zones", ground.clocks.rules)]
        parts += [("users", self.users)] if self.args.administration else []
        return "written: %s; left out: %d, UNSAFE: %d" % (", ".join("%d %s" % (len(rows), name) for name, rows in parts), self.told.left, self.told.unsafe)


# ---- the command

def arguments(words):
    parser = argparse.ArgumentParser(usage=__doc__.split("usage: ")[1].split("\n\n")[0], add_help=True)
    output = parser.add_mutually_exclusive_group(required=True)
    for name in ("--facts", "--administration", "--keys"):
        output.add_argument(name, action="store_true")
    parser.add_argument("policies", nargs="?")
    for name in ("--tags", "--roles", "--zones", "--users", "--definition", "--tag-definition", "--service", "--tag-service", "--time-zone", "--ids"):
        parser.add_argument(name)
    parser.add_argument("--admin", default="root")
    args = parser.parse_args(words)
    if not args.keys and not args.policies:
        parser.error("POLICIES is missing")
    if args.ids and not args.administration:
        parser.error("--ids goes with --administration")
    if not 1 <= len(args.admin) <= 256 or any(c in " \n\r" for c in args.admin):
        parser.error("--admin: 1 to 256 characters without a space")
    return args


def write_ids(path, ids):
    try:
        with open(path, "w", encoding="utf-8") as file:
            file.write(json.dumps({str(old): new for old, new in sorted(ids.items())}, indent=1) + "\n")
    except OSError as error:
        raise Bad("%s: %s" % (path, error.strerror))


def main(words):
    args = arguments(words)
    if args.keys:
        print(keys.printed())
        return 0
    try:
        made = Conversion(args)
        lines, ids = made.administration() if args.administration else made.facts()
        if args.ids:
            write_ids(args.ids, ids)
    except Bad as what:
        say(str(what))
        return 2
    try:
        sys.stdout.buffer.write("".join(line + "\n" for line in lines).encode())
        sys.stdout.flush()
    except OSError as error:
        os.dup2(os.open(os.devnull, os.O_WRONLY), sys.stdout.fileno())
        say("standard output: %s" % error.strerror)
        return 2
    made.told.print()
    print(made.counts(), file=sys.stderr)
    return made.told.status()


if __name__ == "__main__":
    sys.exit(main(sys.argv[1:]))
