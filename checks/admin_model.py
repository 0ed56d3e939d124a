"""The administration once more, in Python, written from the rules and not from the program: its commands, versions, logs and
downloads, and the scripts that work it. The rules stand in admin_rules.py, the flow of decision in model.py.

usage: checks/admin_model.py [--faults] < SCRIPT      prints what `rangerd replay` is to print, and ends with its status

With --faults the cause of a bad line follows on standard error.
"""

import json
import re
import sys

import admin_rules
import model
import reading
import records

MOST_KEPT = 1024
LAST_COUNT = 2 ** 62
LONGEST_LINE, LONGEST_SCRIPT = 1_048_576, 268_435_456


# ---- records that are printed

def compact(value):
    return json.dumps(value, sort_keys=True, separators=(",", ":"), ensure_ascii=False)


def schedule_kept(given):
    """Whether it recurs is all that is kept of its recurrences."""
    return {**given, "recurrences": [{}] if given["recurrences"] else []}


def policy_kept(given):
    whole = records.policy(given)
    return {**whole, "validitySchedules": [schedule_kept(one) for one in whole["validitySchedules"]]}


def item_printed(item):
    """No filter is null at the first of the two names."""
    return {**item, "rowFilterInfo": None if item["rowFilterInfo"]["filterExpr"] is None else item["rowFilterInfo"]}


def policy_printed(policy):
    return {**policy, **{name: [item_printed(item) for item in policy[name]] for name in records.ITEM_LISTS}}


# ---- logs

class Log:
    """A version, and the changes that led to it, the last 1,024 at most. None stands for a change of zones."""

    def __init__(self):
        self.version, self.changes = 1, []

    def note(self, change):
        self.version, self.changes = self.version + 1, (self.changes + [change])[-MOST_KEPT:]

    def restart(self):
        self.version, self.changes = self.version + 1, []

    def since(self, version):
        """`unchanged`, the changes after that version, or `whole`."""
        if version == self.version:
            return "unchanged"
        behind = None if version is None else self.version - version
        return self.changes[len(self.changes) - behind:] if behind is not None and 0 < behind <= len(self.changes) else "whole"


CREATED, UPDATED, DELETED = 0, 1, 2


# ---- the administration

class Refused(Exception):
    pass


class Admin:
    def __init__(self, config):
        """Raises Refused with the first rule that the configuration breaks."""
        self.state = {"admins": config.get("admins", []), "users": [], "timeZones": config.get("timeZones", []), "serviceDefs": [], "services": [],
                      "policies": [], "zones": [], "roles": [], "tagRows": [], "plugin": config["plugin"], "nextId": 1, "count": 0, "roleVersion": 1}
        self.policy_logs, self.tag_logs = {}, {}
        services = sorted(config.get("services", []), key=lambda row: row["type"] != "tag")
        for command in ([{"command": "putDef", "def": one} for one in config.get("serviceDefs", [])]
                        + [{"command": "createService", "service": one} for one in services]
                        + [{"command": "putUser", "user": one} for one in config.get("users", [])]):
            command = filled(command)
            self.refuse(model.first_broken(admin_rules.start_rules(self.state, command), self.state, "", command))
            getattr(self, command["command"])(command)
        self.refuse(model.first_broken(admin_rules.LAST_RULES, self.state))
        self.policy_logs, self.tag_logs = ({row["name"]: Log() for row in self.state["services"]} for _ in range(2))

    @staticmethod
    def refuse(rule):
        if rule:
            raise Refused(rule)

    def step(self, actor, command):
        """What is printed of the reply. Each command is one entry more, a refused one too."""
        command = filled(command)
        rule = admin_rules.first_broken(self.state, actor, command)
        reply = {"refused": rule} if rule else getattr(self, command["command"])(command, actor)
        self.state["count"] = min(self.state["count"] + 1, LAST_COUNT)
        return {"done": True} if reply is None else reply

    # ---- what is touched

    def touch(self, services, change, log="policy_logs"):
        for name in services:
            getattr(self, log)[name].note(change(name))

    def restart(self, services):
        for name in services:
            if name in self.policy_logs:
                self.policy_logs[name].restart()

    def users_of(self, service):
        """Itself, and each service that has it as tag service."""
        return [row["name"] for row in self.state["services"] if service in (row["name"], row["tagService"])]

    def touch_policy(self, kind, policy):
        self.touch(self.users_of(policy["service"]),
                   lambda name: {"changeType": kind, "tag": name != policy["service"], "policy": policy})

    def touch_zones(self):
        self.touch(model.names(self.state["services"]), lambda name: None)

    def touch_row(self, kind, row):
        self.touch([row["serviceName"]], lambda name: {"changeType": kind, "row": row}, "tag_logs")

    # ---- the commands

    def put(self, rows, row, key="name"):
        self.state[rows] = admin_rules.in_place(self.state[rows], row, key)

    def without(self, rows, value, key="name"):
        self.state[rows] = [row for row in self.state[rows] if row[key] != value]

    def putDef(self, command, actor=None):
        definition = command["def"]
        self.put("serviceDefs", definition)
        own = [row["name"] for row in self.state["services"] if row["type"] == definition["name"]]
        self.restart([row["name"] for row in self.state["services"] if row["name"] in own or row["tagService"] in own])

    def createService(self, command, actor=None):
        row = command["service"]
        self.state["services"] = self.state["services"] + [row]
        self.policy_logs[row["name"]], self.tag_logs[row["name"]] = Log(), Log()

    def updateService(self, command, actor):
        self.put("services", command["service"])
        self.restart(self.users_of(command["service"]["name"]))

    def deleteService(self, command, actor):
        self.without("services", command["name"])
        del self.policy_logs[command["name"]], self.tag_logs[command["name"]]

    def createPolicy(self, command, actor):
        policy = {**command["policy"], "id": self.state["nextId"], "version": 1}
        self.state["nextId"] += 1
        self.state["policies"] = self.state["policies"] + [policy]
        self.touch_policy(CREATED, policy)
        return {"id": policy["id"], "version": 1}

    def updatePolicy(self, command, actor):
        old = admin_rules.stored(self.state, command)
        policy = {**command["policy"], "version": old["version"] + 1}
        self.put("policies", policy, "id")
        self.touch_policy(UPDATED, policy)
        return {"id": policy["id"], "version": policy["version"]}

    def deletePolicy(self, command, actor):
        """The change carries the old form."""
        old = admin_rules.stored(self.state, command)
        self.without("policies", command["id"], "id")
        self.touch_policy(DELETED, old)

    def getPolicy(self, command, actor):
        return {"policy": policy_printed(admin_rules.stored(self.state, command))}

    def listPolicies(self, command, actor):
        return {"policies": [policy_printed(policy) for policy in admin_rules.seen(self.state, actor, command["service"])]}

    def putRole(self, command, actor):
        self.put("roles", command["role"])
        self.state["roleVersion"] += 1

    def deleteRole(self, command, actor):
        self.without("roles", command["name"])
        self.state["roleVersion"] += 1

    def putZone(self, command, actor):
        self.put("zones", command["zone"])
        self.touch_zones()

    def deleteZone(self, command, actor):
        self.without("zones", command["name"])
        self.touch_zones()

    def putTags(self, command, actor):
        row = {**command["row"], "id": command["id"]}
        kind = UPDATED if admin_rules.numbered(self.state["tagRows"], row["id"]) else CREATED
        self.put("tagRows", row, "id")
        self.touch_row(kind, row)

    def deleteTags(self, command, actor):
        old = admin_rules.numbered(self.state["tagRows"], command["id"])
        self.without("tagRows", command["id"], "id")
        self.touch_row(DELETED, old)

    def putUser(self, command, actor=None):
        self.put("users", command["user"])

    def deleteUser(self, command, actor):
        self.without("users", command["name"])

    # ---- views and downloads

    def view(self, service):
        """The facts of a service; lists in order of creation."""
        state, row = self.state, model.named(self.state["services"], service)
        own = lambda name: [policy for policy in state["policies"] if policy["service"] == name]
        tag_service = row["tagService"]
        return {"service": service, "fallback": row["fallback"], "serviceDef": admin_rules.definition_of(state, service),
                "tagServiceDef": admin_rules.definition_of(state, tag_service) if tag_service else None,
                "policies": own(service), "tagPolicies": own(tag_service) if tag_service else [], "zones": state["zones"], "roles": state["roles"],
                "resources": [one for one in state["tagRows"] if one["serviceName"] == service], "timeZones": state["timeZones"],
                "policyVersion": self.policy_logs[service].version, "tagVersion": self.tag_logs[service].version, "roleVersion": state["roleVersion"]}

    def download(self, command, actor):
        view = self.view(command["service"])
        return {"policies": self.policy_part(view, command.get("policiesFrom")), "roles": self.role_part(view, command.get("rolesFrom")),
                "seq": self.state["count"], "tags": self.tag_part(view, command.get("tagsFrom"))}

    def policy_part(self, view, version):
        since = self.policy_logs[view["service"]].since(version)
        if since == "unchanged":
            return since
        if since == "whole":
            return {"whole": {"def": view["serviceDef"], "fallback": view["fallback"], "policies": list(map(policy_printed, view["policies"])),
                              "tagDef": view["tagServiceDef"], "tagPolicies": list(map(policy_printed, view["tagPolicies"])),
                              "timeZones": view["timeZones"], "version": view["policyVersion"], "zones": view["zones"]}}
        changes = [{**change, "policy": policy_printed(change["policy"])} for change in since if change is not None]
        return {"delta": {"changes": changes, "from": version, "to": view["policyVersion"], "zones": view["zones"] if None in since else None}}

    def tag_part(self, view, version):
        since = self.tag_logs[view["service"]].since(version)
        if since == "unchanged":
            return since
        if since == "whole":
            return {"whole": {"rows": view["resources"], "version": view["tagVersion"]}}
        return {"delta": {"changes": since, "from": version, "to": view["tagVersion"]}}

    def role_part(self, view, version):
        return "unchanged" if version == view["roleVersion"] else {"whole": {"roles": view["roles"], "version": view["roleVersion"]}}


FILLED = {"def": records.definition, "policy": policy_kept, "role": records.role, "zone": records.zone, "row": records.tag_row}


def filled(command):
    """Its records with all their fields."""
    made = {key: FILLED[key](value) if key in FILLED else value for key, value in command.items()}
    if command["command"] in ("createService", "updateService"):
        made["service"] = records.filled(command["service"], tagService="", fallback=False)
    if command["command"] == "putUser":
        made["user"] = records.filled(command["user"], groups=[])
    return made


# ---- deltas

def led(facts, download):
    """Where the printed parts of a download lead."""
    policies, tags, roles = download["policies"], download["tags"], download["roles"]
    facts = dict(facts)
    if policies != "unchanged":
        part = policies.get("whole") or policies["delta"]
        if "whole" in policies:
            facts.update(fallback=part["fallback"], serviceDef=part["def"], tagServiceDef=part["tagDef"], policies=part["policies"],
                         tagPolicies=part["tagPolicies"], zones=part["zones"], timeZones=part["timeZones"], policyVersion=part["version"])
        else:
            for change in part["changes"]:
                key = "tagPolicies" if change["tag"] else "policies"
                facts[key] = changed(facts[key], change["changeType"], change["policy"])
            facts.update(policyVersion=part["to"], zones=facts["zones"] if part["zones"] is None else part["zones"])
    if tags != "unchanged":
        part = tags.get("whole") or tags["delta"]
        rows = part["rows"] if "whole" in tags else facts["resources"]
        for change in part.get("changes", []):
            rows = changed(rows, change["changeType"], change["row"])
        facts.update(resources=rows, tagVersion=part["version"] if "whole" in tags else part["to"])
    if roles != "unchanged":
        facts.update(roles=roles["whole"]["roles"], roleVersion=roles["whole"]["version"])
    return facts


def changed(rows, kind, row):
    if kind == DELETED:
        return [one for one in rows if one["id"] != row["id"]]
    return admin_rules.in_place(rows, row, "id") if kind == UPDATED else rows + [row]


def facts_printed(facts):
    return {**facts, "policies": list(map(policy_printed, facts["policies"])), "tagPolicies": list(map(policy_printed, facts["tagPolicies"]))}


# ---- scripts

class Bad(Exception):
    """The cause of a bad line."""


class Script:
    """One publication for facts; for a configuration its administration and the publications of its plugin."""

    def __init__(self):
        self.admin, self.facts, self.serial = None, None, 0
        self.words = {b"facts": self.work_facts, b"config": self.work_config, b"admin": self.work_admin, b"decide": self.work_decide}

    def publish(self, facts):
        self.facts, self.serial = facts, self.serial + 1

    def work(self, line, now=0):
        """What is printed of a line without its end, None where that is nothing. Raises Bad."""
        if not line or line.startswith(b"#"):
            return None
        word, space, rest = line.partition(b" ")
        if word == b"refresh" and not space:
            return self.work_refresh()
        if not space or word not in self.words:
            raise Bad("no line of a script")
        return self.words[word](rest, now)

    def as_the_first(self):
        if self.serial:
            raise Bad("out of place")

    def after_the_configuration(self):
        if self.admin is None:
            raise Bad("out of place")

    def work_facts(self, text, now):
        facts = records.facts(taken(reading.read(reading.FACTS, text)))
        self.as_the_first()
        fault = model.first_fault(facts)
        if fault:
            raise Bad("facts that aren't sound: " + fault)
        self.publish(facts)

    def work_config(self, text, now):
        config = taken(reading.read(reading.CONFIG, text))
        self.as_the_first()
        try:
            self.admin = Admin(config)
        except Refused as rule:
            raise Bad("a configuration that breaks %s" % rule)
        self.publish(self.admin.view(self.admin.state["plugin"]))

    def work_admin(self, rest, now):
        actor, text = actor_and_rest(rest)
        command = taken(reading.read_command(text))
        self.after_the_configuration()
        return compact(self.admin.step(actor, command))

    def work_refresh(self):
        """The download has to lead to what the plugin is to see, and that has to be sound."""
        self.after_the_configuration()
        before, plugin = self.facts, self.admin.state["plugin"]
        download = self.admin.step("", {"command": "download", "service": plugin, "policiesFrom": before["policyVersion"],
                                        "tagsFrom": before["tagVersion"], "rolesFrom": before["roleVersion"]})
        after = self.admin.view(plugin)
        assert compact(led(facts_printed(before), download)) == compact(facts_printed(after)), "the download leads elsewhere"
        if all(download[part] == "unchanged" for part in ("policies", "tags", "roles")):
            return compact({"unchanged": True})
        assert model.first_fault(after) is None, "a view that isn't sound: %s" % model.first_fault(after)
        self.publish(after)
        return compact({"published": self.serial})

    def work_decide(self, text, now):
        request = taken(reading.read(reading.REQUEST, text))
        if not self.serial:
            raise Bad("out of place")
        request = records.request(request, now)
        return model.printed(self.facts, model.decide(self.facts, request), self.serial)


def actor_and_rest(text):
    actor, space, rest = text.partition(b" ")
    try:
        actor = actor.decode("utf-8")
    except UnicodeDecodeError:
        raise Bad("an actor that isn't UTF-8")
    if not space or not model.is_name(actor):
        raise Bad("no actor")
    return actor, rest


def taken(read):
    value, fault = read
    if fault:
        raise Bad("%s at %s" % (fault[1], fault[0] or "the top"))
    return value


def lines_of(script):
    """One CR before an LF is dropped with it; a final LF opens no further line."""
    lines = re.sub(b"\r\n", b"\n", script).split(b"\n")
    return lines[:-1] if lines[-1] == b"" else lines


def is_too_long(script):
    return len(script) > LONGEST_SCRIPT or any(len(line) > LONGEST_LINE for line in script.split(b"\n"))


def worked(script, now=0, kind=Script):
    """The printed text, the status and the cause of a bad line."""
    if is_too_long(script):
        return "too long\n", 6, None
    printed, work = [], kind()
    for number, line in enumerate(lines_of(script), 1):
        try:
            answer = work.work(line, now)
        except Bad as cause:
            return "".join(printed) + "bad line %d\n" % number, 2, str(cause)
        printed += [answer + "\n"] if answer is not None else []
    return "".join(printed), 0, None


def main(kind=Script):
    text, status, cause = worked(sys.stdin.buffer.read(), kind=kind)
    sys.stdout.buffer.write(text.encode())
    sys.stdout.flush()
    if cause and "--faults" in sys.argv[1:]:
        print(cause, file=sys.stderr)
    sys.exit(status)


if __name__ == "__main__":
    main()
