"""What policies stand on: roles, security zones, tagged resources, users; and the policies taken so far."""

import fnmatch

from conversion.clocks import Clocks, expiry_date
from conversion.definitions import is_name
from conversion.policies import is_harming, lean, maps_of

MOST_TAGS = 64
HARMING_BY_ROLE = ("denyPolicyItems", "allowExceptions", "dataMaskPolicyItems", "rowFilterPolicyItems")
ZONE_ROLES, ZONE_NAMES = ("adminRoles", "auditRoles"), ("adminUsers", "adminUserGroups", "auditUsers", "auditUserGroups")


def plain_map(resources):
    """Values count without order and repeats."""
    return frozenset((name, frozenset(one.get("values", [])), one.get("isExcludes", False), one.get("isRecursive", False))
                     for name, one in resources.items())


class Ground:
    """The parts that are kept, and what policies ask of them."""

    def __init__(self, told, own_zone=None):
        self.told, self.clocks = told, Clocks(own_zone)
        self.roles, self.zones, self.zones_are_given = {}, {}, True
        self.ids, self.names, self.forms = set(), set(), set()

    # ---- what policies ask

    def id_is_free(self, policy):
        return policy.get("id", 0) >= 1 and policy["id"] not in self.ids

    @staticmethod
    def name_of(policy):
        return policy["service"], policy.get("zoneName", ""), policy["name"]

    def name_is_free(self, policy):
        return self.name_of(policy) not in self.names

    @staticmethod
    def form_of(policy):
        """What no two enabled policies share."""
        schedules = tuple(tuple(one.get(key, "") for key in ("startTime", "endTime", "timeZone")) for one in policy.get("validitySchedules", []))
        return (policy["service"], policy.get("zoneName", ""), policy["policyType"], policy.get("policyPriority", 0), schedules,
                frozenset(map(plain_map, maps_of(policy))))

    def is_alone(self, policy):
        return not policy.get("isEnabled", True) or self.form_of(policy) not in self.forms

    def remember(self, policy):
        self.ids.add(policy["id"])
        self.names.add(self.name_of(policy))
        if policy.get("isEnabled", True):
            self.forms.add(self.form_of(policy))

    def zone_lists(self, name, service):
        zone = self.zones.get(name)
        return not name or (zone is not None and (service in zone["services"] or service in zone["tagServices"]))

    def zone_is_missing(self, policy):
        """Where zones aren't given at all, what lies in them is judged by the policies without a zone here."""
        return bool(policy.get("zoneName")) and not self.zones_are_given

    # ---- roles

    def take_roles(self, rows, policies, file):
        """Those that others name first. What a denial, an exception from what is allowed, a mask or a filter stands on harms where it loses
        a member."""
        rows = self.distinct_roles(rows, file)
        harming = closed({role for policy in policies for name in HARMING_BY_ROLE for item in policy.get(name, []) for role in item.get("roles", [])}, rows)
        for name in rows:
            self.take_role(name, rows, harming, file)

    def take_role(self, first, rows, harming, file):
        chain = [] if first in self.roles else [begun(rows[first])]
        while chain:
            role, members = chain[-1]
            member = next(members, None)
            if member is None:
                self.roles[role["name"]] = role
                chain.pop()
            elif self.can_name(role, member, rows, chain, harming, file):
                role["roles"].append(member)
                chain += [begun(rows[member])] if member not in self.roles else []

    def can_name(self, role, member, rows, chain, harming, file):
        fault = "O2: it isn't there" if member not in rows else "O3: a circle" if any(member == one["name"] for one, _ in chain) else None
        if fault:
            self.told.left_out("%s: role %s: its role %s (%s)" % (file, role["name"], member, fault), role["name"] in harming)
        return fault is None

    def distinct_roles(self, rows, file):
        kept = {}
        for row in rows:
            name = row.get("name", "")
            if not is_name(name) or name in kept:
                self.told.left_out("%s: role %s: %s" % (file, name[:40], "there are two of that name" if name in kept else "O1 (its name)"), harms=True)
            else:
                kept[name] = row
        return kept

    # ---- zones

    def take_zones(self, rows, definition, service, tag_service, file):
        for row in rows:
            zone = self.zone_of_service(row, service, tag_service, file)
            fault = self.zone_fault(zone, definition, service)
            if not zone["services"] and not zone["tagServices"]:
                fault = fault or "it has nothing of the service %s" % service
            if fault:
                self.told.left_out("%s: zone %s: %s" % (file, zone["name"][:40], fault), harms=service in zone["services"])
                continue
            for levels in self.maps_in(zone, service):
                for value, _ in definition.folds_more({name: {"values": values} for name, values in levels.items()}):
                    self.told.left_out("%s: zone %s: the case of letters past ASCII counts here (%s)" % (file, zone["name"], value), harms=True)
            self.zones[zone["name"]] = zone

    def zone_of_service(self, row, service, tag_service, file):
        """The zone without other services and without roles that aren't there."""
        name = row.get("name", "")
        others = [one for one in list(row.get("services", {})) + row.get("tagServices", []) if one not in (service, tag_service)]
        if others:
            self.told.left_out("%s: zone %s: its services %s, which aren't converted (Z2)" % (file, name[:40], ", ".join(others)))
        zone = {"name": name, "services": {one: {"resources": it.get("resources", [])} for one, it in row.get("services", {}).items() if one == service},
                "tagServices": [tag_service] if tag_service and tag_service in row.get("tagServices", []) else []}
        zone.update({key: row[key] for key in ZONE_NAMES if row.get(key)})
        for key in ZONE_ROLES:
            zone[key] = [role for role in row.get(key, []) if role in self.roles]
            for role in row.get(key, []):
                if role not in self.roles:
                    self.told.left_out("%s: zone %s: there is no role %s (Z5)" % (file, name[:40], role))
        return {key: value for key, value in zone.items() if value or key in ("name", "services", "tagServices")}

    @staticmethod
    def maps_in(zone, service):
        return zone["services"].get(service, {"resources": []})["resources"]

    def zone_fault(self, zone, definition, service):
        if not is_name(zone["name"]):
            return "Z1 (its name)"
        if zone["name"] in self.zones:
            return "there are two of that name"
        if service in zone["services"] and not self.maps_in(zone, service):
            return "Z3 (no resources)"
        for levels in self.maps_in(zone, service):
            wide = {name: {"values": values, "isRecursive": name in definition.levels and definition.levels[name].recursive}
                    for name, values in levels.items()}
            fault = definition.map_fault(wide, mandatory=False, plain=True)
            if fault:
                return "%s (%s)" % ("Z3" if fault.startswith("V5") else "Z4", fault)
        for other in self.zones.values():
            if any(definition.overlap(one, two) for one in self.maps_in(zone, service) for two in self.maps_in(other, service)):
                return "Z6 (it overlaps the zone %s)" % other["name"]
        return None


def begun(row):
    """A role that names no role yet, and those that it is to name."""
    return {"name": row["name"], "users": names_of(row, "users"), "groups": names_of(row, "groups"), "roles": []}, iter(names_of(row, "roles"))


def names_of(row, key):
    return [member.get("name", "") for member in row.get(key, [])]


def closed(names, rows):
    """With all roles that a chain leads to."""
    found, waiting = set(), list(names)
    while waiting:
        name = waiting.pop()
        if name in rows and name not in found:
            found.add(name)
            waiting += names_of(rows[name], "roles")
    return found


class Tags:
    """Takes tagged resources. What a tag that is missing may change goes by the tag policies that may speak of it."""

    def __init__(self, definition, policies, service, file, told):
        self.definition, self.policies, self.service, self.file, self.told = definition, policies, service, file, told
        self.shown = set()

    def effects(self, kind):
        """Whether a tag policy may allow by this tag, and whether one may deny, mask or filter by it."""
        spoken = [policy for policy in self.policies if policy.get("isEnabled", True) and may_speak(policy, kind)]
        return any(policy.get("policyItems") for policy in spoken), any(map(is_harming, spoken))

    def harms(self, kinds):
        return any(self.effects(kind)[1] for kind in kinds)

    def take(self, given):
        kept, ids = [], set()
        for row in given.get("serviceResources", []):
            taken = self.taken(row, given, ids)
            if taken:
                kept.append(taken)
                ids.add(taken["id"])
        self.tell_strays(given)
        return kept

    def tell_strays(self, given):
        there = {str(row.get("id")) for row in given.get("serviceResources", [])}
        for resource in given.get("resourceToTagIds", {}):
            if resource not in there:
                self.told.left_out("%s: resource %s has tags, and isn't there" % (self.file, resource))

    def taken(self, row, given, ids):
        """The row with the tags that can be said, None where there are none or it can't stay."""
        number, tags = row.get("id", 0), []
        for tag in given.get("resourceToTagIds", {}).get(str(number), []):
            if str(tag) not in given.get("tags", {}):
                self.told.left_out("%s: resource %s: there is no tag %s" % (self.file, number, tag))
            else:
                tags.append((tag, given["tags"][str(tag)]))
        kinds = [tag.get("type", "") for _, tag in tags]
        fault = self.fault(row, kinds, ids)
        if fault:
            self.told.left_out("%s: resource %s: %s" % (self.file, number, fault), self.harms(kinds))
            return None
        for value, _ in self.definition.folds_more(row.get("resourceElements", {})):
            self.told.left_out("%s: resource %s: the case of letters past ASCII counts here (%s)" % (self.file, number, value), self.harms(kinds))
        kept = [taken for taken in (self.tag(mark, tag) for mark, tag in tags) if taken]
        return kept and {"id": number, "serviceName": self.service, "resourceElements": lean(row.get("resourceElements", {})), "tags": kept}

    def fault(self, row, kinds, ids):
        if row.get("serviceName", self.service) != self.service:
            return "it is of the service %s" % row["serviceName"]
        if row.get("id", 0) < 1 or row["id"] in ids:
            return "G4 (its id isn't positive, or another one has it)"
        fault = self.definition.map_fault(row.get("resourceElements", {}), mandatory=False, plain=True)
        if fault:
            return "G2 (%s)" % fault
        return None if len(kinds) <= MOST_TAGS and all(map(is_name, kinds)) else "G3 (more than 64 tags, or a tag's type)"

    def tag(self, mark, tag):
        """A tag whose time is bounded stays where it can but deny, and else goes."""
        kind, attributes = tag.get("type", ""), dict(tag.get("attributes", {}))
        if tag.get("validityPeriods"):
            allows, denies = self.effects(kind)
            self.tell_once(mark, "tag %s (%s): its validityPeriods%s" % (mark, kind, ", so it counts always" if denies and not allows else ", and the tag with them"),
                           denies and allows)
            if allows or not denies:
                return None
        self.write_dates(mark, kind, attributes)
        return {"type": kind, "attributes": attributes} if attributes else {"type": kind}

    def write_dates(self, mark, kind, attributes):
        date = attributes.get("expiry_date")
        if date is None:
            return
        written = expiry_date(date)
        if written is None:
            self.tell_once(mark, "tag %s (%s): its expiry_date %s doesn't read, so it doesn't expire" % (mark, kind, date), self.effects(kind)[1])
        else:
            attributes["expiry_date"] = written

    def tell_once(self, mark, text, harms):
        if mark not in self.shown:
            self.shown.add(mark)
            self.told.left_out("%s: %s" % (self.file, text), harms)


def may_speak(policy, kind):
    """Whether the tag policy may match this tag: by its patterns with any user, and by each level that excludes."""
    for resources in maps_of(policy):
        level = resources.get("tag", {})
        if level.get("isExcludes") or any(fnmatch.fnmatchcase(kind.lower(), loose(value)) for value in level.get("values", [])):
            return True
    return False


def loose(value):
    """The pattern of fnmatch that stands for no less."""
    return value.lower().replace("[", "[[]").replace("{user}", "*")


def users_of(store, file, told):
    """Names with their groups."""
    kept = []
    for name, groups in sorted(store.get("userGroupMapping", {}).items()):
        long = [group for group in groups if not is_name(group)]
        if not is_name(name) or long:
            told.left_out("%s: user %s: %s (U1)" % (file, name[:40], "its name" if not is_name(name) else "a group of it"))
        if is_name(name):
            kept.append({"name": name, "groups": [group for group in groups if is_name(group)]})
    return kept
