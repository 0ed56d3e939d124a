"""Grants and revokes once more, in Python, written from the rules and not from the program. The administration that they ask stands in
admin_model.py.

usage: checks/grants_model.py [--faults] < SCRIPT      prints what `rangerd grants` is to print, and ends with its status
"""

import admin_model
import admin_rules
import model
import reading
import records

SUBJECTS = ("users", "groups", "roles")
ROW = reading.record(*reading.must("text", "service"), *reading.may("text", "zoneName"), *reading.may(reading.RESOURCES, "resources"),
                     *reading.may(reading.TEXTS, *SUBJECTS, "accessTypes"), *reading.may("truth", "delegateAdmin"))


def row_filled(given):
    row = records.filled(given, zoneName="", resources={}, users=[], groups=[], roles=[], accessTypes=[], delegateAdmin=False)
    return {**row, "resources": records.resources(row["resources"])}


def bare_policy(row):
    """Of the row's service, zone and map, and as usual in all else."""
    return records.policy({"service": row["service"], "zoneName": row["zoneName"], "resources": row["resources"]})


def policy_of(state, row):
    """The enabled policy of type 0 and priority 0, without schedules, whose maps are the same as the row's one map."""
    wanted = bare_policy(row)
    alike = lambda policy: all(policy[key] == wanted[key] for key in
                               ("isEnabled", "policyType", "policyPriority", "validitySchedules", "service", "zoneName"))
    found = [policy for policy in state["policies"] if alike(policy) and admin_rules.same_maps(policy, wanted)]
    assert len(found) <= 1, "two policies of one row"
    return found[0] if found else None


def granting_item(row):
    return records.item({**{kind: row[kind] for kind in SUBJECTS}, "accesses": [{"type": name} for name in row["accessTypes"]],
                         "delegateAdmin": row["delegateAdmin"]})


def says_something(item):
    return bool(item["accesses"]) and any(item[kind] for kind in SUBJECTS)


def taken_from(item, row):
    """The subjects that the row doesn't name with all entries, and then those that it names with the entries that it doesn't name."""
    others = {**item, **{kind: [name for name in item[kind] if name not in row[kind]] for kind in SUBJECTS}}
    named = {**item, **{kind: [name for name in item[kind] if name in row[kind]] for kind in SUBJECTS},
             "accesses": [entry for entry in item["accesses"] if entry["type"] not in row["accessTypes"]]}
    return [part for part in (others, named) if says_something(part)]


def left(items, row):
    return [part for item in items for part in taken_from(item, row)]


def planned_grant(state, row):
    policy = policy_of(state, row)
    if policy is None:
        created = {**bare_policy(row), "name": "grant-%d" % state["nextId"], "policyItems": [granting_item(row)]}
        return {"command": "createPolicy", "policy": created}
    changed = {**policy, "policyItems": policy["policyItems"] + [granting_item(row)],
               "denyPolicyItems": left(policy["denyPolicyItems"], row), "allowExceptions": left(policy["allowExceptions"], row)}
    return {"command": "updatePolicy", "policy": changed}


def planned_revoke(state, row):
    """No policy has the id 0."""
    policy = policy_of(state, row)
    changed = bare_policy(row) if policy is None else {**policy, "policyItems": left(policy["policyItems"], row)}
    return {"command": "updatePolicy", "policy": changed}


class GrantScript(admin_model.Script):
    """An administration, and what its plugin decides over what it sees as it is; nothing is published."""

    def __init__(self):
        super().__init__()
        del self.words[b"facts"]
        self.words.update({b"grant": self.work_row(planned_grant), b"revoke": self.work_row(planned_revoke)})

    def work_row(self, planned):
        def work(rest, now):
            actor, text = admin_model.actor_and_rest(rest)
            row = row_filled(admin_model.taken(reading.read(ROW, text)))
            self.after_the_configuration()
            return admin_model.compact(self.admin.step(actor, planned(self.admin.state, row)))
        return work

    def work_refresh(self):
        raise admin_model.Bad("no line of a script of grants")

    def work_decide(self, text, now):
        request = records.request(admin_model.taken(reading.read(reading.REQUEST, text)), now)
        self.after_the_configuration()
        facts = self.admin.view(self.admin.state["plugin"])
        assert model.first_fault(facts) is None, "a view that isn't sound"
        return model.printed(facts, model.decide(facts, request), 0)


if __name__ == "__main__":
    admin_model.main(GrantScript)
