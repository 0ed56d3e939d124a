"""Worked examples whose answers are written in the rules, and the stored runs, tried on the model. usage: checks/model_rows.py"""

import pathlib

import admin_model
import grants_model
import keeping
import kept_model
import model
import records
import report_model

TOP = pathlib.Path(__file__).resolve().parent.parent

SELECT = [{"type": "select"}]
TAG_SELECT = [{"type": "hive:select"}]
LEVELS = [("database", 10, "", False), ("url", 10, "", True), ("table", 20, "database", False), ("udf", 20, "database", False),
          ("column", 30, "table", False)]
FIVE = ["select", "update", "create", "drop", "alter"]
LAST_FOUR = "mask_show_last_n({col}, 4, 'x', 'x', 'x', -1, '1')"
HIVE = {
    "name": "hive",
    "resources": [{"name": name, "level": number, "parent": parent, "recursiveSupported": is_url, "excludesSupported": not is_url,
                   "matcherOptions": {"ignoreCase": not is_url}} for name, number, parent, is_url in LEVELS],
    "accessTypes": [{"name": name} for name in FIVE] + [{"name": "all", "impliedGrants": FIVE}],
    "policyConditions": [{"name": "resources-accessed-together", "evaluator": "RangerHiveResourcesAccessedTogetherCondition"},
                         {"name": "ip-range", "evaluator": "ip-range"}],
    "dataMaskDef": {"maskTypes": [{"name": "MASK", "transformer": "mask({col})"}, {"name": "MASK_SHOW_LAST_4", "transformer": LAST_FOUR},
                                  {"name": "MASK_NONE"}, {"name": "CUSTOM"}],
                    "accessTypes": [{"name": "select"}], "resources": [{"name": name} for name in ("database", "table", "column")]},
    "rowFilterDef": {"accessTypes": [{"name": "select"}], "resources": [{"name": "database"}, {"name": "table"}]},
}
TAG = {"name": "tag", "resources": [{"name": "tag"}], "accessTypes": [{"name": "hive:select"}, {"name": "hive:update"}],
       "policyConditions": [{"name": "accessed-after-expiry"}]}


def at(**levels):
    return {name: {"values": values if isinstance(values, list) else [values]} for name, values in levels.items()}


def allows(number, resources, user="ann", **more):
    return {"id": number, "resources": resources, "policyItems": [{"users": [user], "accesses": SELECT}], **more}


def on_tag(number, tag, **more):
    return {"id": number, "service": "tags1", "resources": at(tag=tag), **more}


def denies_public(number, tag, **item):
    return on_tag(number, tag, denyPolicyItems=[{"groups": ["public"], "accesses": TAG_SELECT, **item}])


def tagged(kind, resources, **attributes):
    return [{"id": 1, "resourceElements": resources, "tags": [{"type": kind, "attributes": attributes}]}]


def facts(*policies, **more):
    return records.facts({"service": "hive1", "serviceDef": HIVE, "policies": list(policies), **more})


def with_tags(*policies, tags, rows, **more):
    return facts(*policies, tagServiceDef=TAG, tagPolicies=tags, resources=rows, **more)


def verdict(given, elements, user="ann", groups=(), moment=0, **more):
    assert model.first_fault(given) is None, model.first_fault(given)
    return model.decide(given, records.request({"user": user, "userGroups": list(groups), "resource": {"elements": elements},
                                                "accessType": "select", "accessTime": moment, **more}))


def answer(*asked, **more):
    given = verdict(*asked, **more)
    return "%s %d" % (given.access, given.policy)


def resource_policies():
    sales = at(database="sales")
    exception = [{"users": ["ann"], "accesses": SELECT}]
    denies = lambda number: {"id": number, "resources": sales, "denyPolicyItems": exception}
    asked = {"database": "sales"}
    first = facts(allows(1, sales))
    assert model.printed(first, verdict(first, asked)) == (
        '{"access":"ALLOWED","audited":true,"mask":null,"policyId":1,"policyVersion":1,"rowFilter":null,"serial":1,"tagVersion":1}')
    assert answer(first, asked, user="bob") == "DENIED -1"
    assert answer(facts(allows(1, sales, allowExceptions=exception)), asked) == "DENIED -1"
    assert answer(facts(allows(1, sales, allowExceptions=exception, isDenyAllElse=True)), asked) == "DENIED 1"
    assert answer(facts(denies(9), denies(4)), asked) == "DENIED 4"
    assert answer(facts(fallback=True), asked) == "UNDETERMINED -1"


def resources():
    home = facts(allows(1, {"url": {"values": ["/data/{USER}"], "isRecursive": True}}))
    assert [answer(home, {"url": url}) for url in ("/data/ann", "/data/ann/x", "/data/anna")] == ["ALLOWED 1", "ALLOWED 1", "DENIED -1"]
    root = facts(allows(1, {"url": {"values": ["/"], "isRecursive": True}}))
    assert [answer(root, {"url": url}) for url in ("/", "/x")] == ["ALLOWED 1", "ALLOWED 1"]
    orders, column = {"database": "sales", "table": "orders"}, {"database": "sales", "table": "orders", "column": "id"}
    assert answer(facts(allows(1, at(database="sales", table="orders", column="*"))), orders) == "ALLOWED 1"
    assert answer(facts(allows(1, at(database="sales", table="orders"))), column) == "DENIED -1"
    but_sales = facts(allows(1, {"database": {"values": ["sales"], "isExcludes": True}}))
    assert [answer(but_sales, {"database": name}) for name in ("hr", "sales", "SALES")] == ["ALLOWED 1", "DENIED -1", "DENIED -1"]


def additional_maps():
    everything = {"database": "hr", "table": "emp", "column": "*"}
    policy = {**allows(1, at(database="sales")), "additionalResources": [at(**everything)]}
    both = facts(policy)
    assert [answer(both, asked) for asked in ({"database": "sales"}, {**everything, "column": "ssn"}, {"database": "hr"})] == [
        "ALLOWED 1", "ALLOWED 1", "DENIED -1"]
    many = lambda count: model.first_fault(facts({**policy, "additionalResources": [at(database="hr")] * count}))
    assert (many(15), many(16)) == (None, "V5")


def schedules_and_conditions():
    asked = {"database": "sales"}
    in_time = lambda **one: facts(allows(1, at(database="sales"), validitySchedules=[one]),
                                  timeZones=[{"name": "New York", "rule": "EST5EDT,M3.2.0,M11.1.0"}])
    until = in_time(endTime="2024/01/31 23:59:59", timeZone="UTC")
    assert [answer(until, asked, moment=at) for at in (1706745599, 1706745600)] == ["ALLOWED 1", "DENIED -1"]
    since = in_time(startTime="2024/03/10 02:30:00", timeZone="New York")
    assert [answer(since, asked, moment=at) for at in (1710055799, 1710055800)] == ["DENIED -1", "ALLOWED 1"]
    assert model.first_fault(in_time(endTime="2024/02/30 00:00:00")) == "V12"
    from_range = lambda values: facts({"id": 1, "resources": at(database="sales"), "policyItems": [
        {"users": ["ann"], "accesses": SELECT, "conditions": [{"type": "ip-range", "values": values}]}]})
    assert [answer(from_range(["10.0.*"]), asked, clientIPAddress=address) for address in ("10.0.0.7", "10.1.0.7", "")] == [
        "ALLOWED 1", "DENIED -1", "DENIED -1"]
    assert model.first_fault(from_range([])) == "V9"


def roles():
    rows = records.facts({"serviceDef": HIVE, "roles": [{"name": "a", "groups": ["eng"]}, {"name": "b", "roles": ["a"]},
                                                        {"name": "c", "roles": ["b"]}]})["roles"]
    assert model.role_holds(rows, "c", "ann", ["eng"]) and not model.role_holds(rows, "c", "ann", [])
    assert model.role_fault([{**rows[0], "roles": ["a"]}]) == ("cycle", 0)
    assert model.role_fault(rows) is None
    by_role = facts({"id": 1, "resources": at(database="sales"), "policyItems": [{"roles": ["c"], "accesses": SELECT}]}, roles=rows)
    assert answer(by_role, {"database": "sales"}, groups=["eng"]) == "ALLOWED 1"
    assert answer(by_role, {"database": "sales"}) == "DENIED -1"


def zone(name, database, **more):
    return {"name": name, "services": {"hive1": {"resources": [{"database": [database]}]}}, **more}


def zones():
    atoms = lambda text: model.atoms(text, True)
    assert model.stands(model.atoms("fin*", True), model.common_text(atoms("fin*"), atoms("*nce"), True), "", True)
    assert model.common_text(atoms("fin?"), atoms("finance"), True) is None
    two = facts(zones=[zone("a", "fin*"), zone("b", "*nce")])
    assert model.overlapping(two["serviceDef"], two["zones"], "hive1") == (0, 1) and model.first_fault(two) == "Z6"
    everywhere, in_fin = allows(1, at(database="*")), allows(2, at(database="finance"), zoneName="fin")
    fin = [zone("fin", "finance")]
    parts = records.facts({"service": "hive1", "serviceDef": HIVE, "zones": [
        {"name": name, "services": {"hive1": {"resources": [levels]}}} for name, levels in (("a", {"table": ["*"]}), ("b", {"udf": ["*"]}))]})
    assert model.first_fault(parts) == "Z6"
    assert answer(facts(everywhere, zones=fin), {"database": "finance"}) == "DENIED -1"
    both = facts(everywhere, in_fin, zones=fin)
    assert [answer(both, {"database": name}) for name in ("finance", "sales")] == ["ALLOWED 2", "ALLOWED 1"]


def tags():
    sales, asked = at(database="sales"), {"database": "sales"}
    pii = lambda *policies, tags: with_tags(*policies, tags=tags, rows=tagged("PII", sales))
    assert answer(pii(allows(1, sales, policyPriority=1), tags=[denies_public(2, "PII")]), asked) == "ALLOWED 1"
    assert answer(pii(allows(1, sales), tags=[denies_public(2, "PII")]), asked) == "DENIED 2"
    denies_ann = {"id": 1, "resources": sales, "denyPolicyItems": [{"users": ["ann"], "accesses": SELECT}]}
    allows_public = on_tag(2, "PII", policyItems=[{"groups": ["public"], "accesses": TAG_SELECT}])
    assert answer(pii(denies_ann, tags=[allows_public]), asked) == "DENIED 1"
    emp = {"database": "hr", "table": "emp"}
    late = denies_public(3, "EXPIRES_ON", conditions=[{"type": "accessed-after-expiry", "values": ["yes"]}])
    expiring = with_tags(allows(1, at(**emp, column="*")), tags=[late], rows=tagged("EXPIRES_ON", at(**emp), expiry_date="2024/01/31"))
    assert [answer(expiring, emp, moment=at) for at in (1706659200, 1706659201)] == ["ALLOWED 1", "DENIED 3"]


def eight_cells():
    """The examples of docs/RULES.md, each with a policy of the next cell beside."""
    sales, staff, public = at(database="sales"), {"groups": ["staff"]}, {"groups": ["public"]}
    one = lambda number, effect, who, priority: {"id": number, "resources": sales, "policyPriority": priority,
                                                 effect: [{**who, "accesses": SELECT}]}
    tag = lambda number, effect, who, priority: on_tag(number, "PII", policyPriority=priority, **{effect: [{**who, "accesses": TAG_SELECT}]})
    allow, deny, ann = "policyItems", "denyPolicyItems", {"users": ["ann"]}
    cases = [([one(7, deny, staff, 1)], [tag(11, deny, staff, 1)], "DENIED 11"),
             ([one(7, deny, staff, 1)], [tag(12, allow, ann, 1)], "DENIED 7"),
             ([one(8, allow, ann, 1)], [tag(12, allow, ann, 1)], "ALLOWED 12"),
             ([one(8, allow, ann, 1)], [tag(2, deny, public, 0)], "ALLOWED 8"),
             ([one(1, allow, ann, 0)], [tag(2, deny, public, 0)], "DENIED 2"),
             ([one(9, deny, ann, 0), one(4, deny, ann, 0)], [tag(2, allow, ann, 0)], "DENIED 4"),
             ([one(1, allow, ann, 0)], [tag(13, allow, ann, 0)], "ALLOWED 13"),
             ([one(5, allow, ann, 0), one(1, allow, ann, 0)], [], "ALLOWED 1")]
    for number, (policies, tag_policies, wanted) in enumerate(cases, 1):
        given = with_tags(*policies, tags=tag_policies, rows=tagged("PII", sales))
        assert answer(given, {"database": "sales"}, groups=["staff"]) == wanted, number
        assert verdict(given, {"database": "sales"}, groups=["staff"]).cell == number


def two_tags():
    """One policy that denies by one tag and allows by another stands in both cells."""
    expiry = lambda value: [{"type": "accessed-after-expiry", "values": [value]}]
    both = on_tag(2, "*", denyPolicyItems=[{"groups": ["public"], "accesses": TAG_SELECT, "conditions": expiry("yes")}],
                  policyItems=[{"users": ["ann"], "accesses": TAG_SELECT, "conditions": expiry("no")}])
    rows = [{"resourceElements": at(database="hr", table="emp"),
             "tags": [{"type": "PII"}, {"type": "EXPIRES_ON", "attributes": {"expiry_date": "2024/01/31"}}]}]
    given = with_tags(tags=[both], rows=rows)
    below = {"database": "hr", "table": "emp", "column": "ssn"}
    assert [answer(given, below, moment=at) for at in (1706659200, 1706659201)] == ["ALLOWED 2", "DENIED 2"]
    assert answer(given, {"database": "hr"}) == "DENIED -1"


def tags_in_zones():
    finance = at(database="finance")
    given = lambda *services: with_tags(allows(1, finance, zoneName="fin"), tags=[denies_public(2, "PII")],
                                        rows=tagged("PII", finance), zones=[zone("fin", "finance", tagServices=list(services))])
    assert answer(given(), {"database": "finance"}) == "DENIED 2"
    assert answer(given("tags1"), {"database": "finance"}) == "ALLOWED 1"


def masks_and_filters():
    analysts = {"groups": ["analysts"], "accesses": SELECT}
    emp = {"database": "hr", "table": "emp"}
    mask = lambda **info: {"id": 10, "policyType": 1, "resources": at(**emp, column="ssn"),
                           "dataMaskPolicyItems": [{**analysts, "dataMaskInfo": info}]}
    elsewhere = [allows(number, at(database="db%d" % number)) for number in range(20, 57)]
    rows = {"id": 11, "policyType": 2, "resources": at(**emp),
            "rowFilterPolicyItems": [{**analysts, "rowFilterInfo": {"filterExpr": "dept = 'sales'"}}]}
    select = {"id": 12, "resources": at(**emp, column="*"), "policyItems": [analysts]}
    given = lambda **info: facts(mask(**info), rows, select, *elsewhere)
    asked = lambda elements, **info: verdict(given(**info), elements, groups=["analysts"])
    masked = asked({**emp, "column": "ssn"}, dataMaskType="MASK_SHOW_LAST_4")
    assert (masked.access, masked.policy, masked.row_filter) == ("ALLOWED", 12, None)
    assert masked.mask == {"expr": "mask_show_last_n(ssn, 4, 'x', 'x', 'x', -1, '1')", "type": "MASK_SHOW_LAST_4"}
    filtered = asked(emp, dataMaskType="MASK_SHOW_LAST_4")
    assert (filtered.access, filtered.policy, filtered.mask, filtered.row_filter) == ("ALLOWED", 12, None, "dept = 'sales'")
    custom = asked({**emp, "column": "ssn"}, dataMaskType="CUSTOM", valueExpr="left({col}, 2)")
    assert custom.mask == {"expr": "left(ssn, 2)", "type": "CUSTOM"}
    nothing = asked({**emp, "column": "name"}, dataMaskType="MASK_SHOW_LAST_4")
    assert (nothing.policy, nothing.mask, nothing.row_filter) == (12, None, None)
    assert answer(facts(mask(dataMaskType="MASK"), rows), emp, groups=["analysts"]) == "DENIED -1"
    unsupported = [{"type": "resources-accessed-together", "values": ["x"]}]
    assert model.first_fault(facts({**select, "conditions": unsupported})) == "V9"


WORKED = {
    "replay": admin_model.worked,
    "grants": lambda script: admin_model.worked(script, kind=grants_model.GrantScript),
    "report": lambda script: (report_model.printed(script.decode()), 0, None),
    "keep": lambda script: (*kept_model.worked(script, keeping.Keeper()), None),
}


def read_where_it_is(path):
    return path.read_bytes() if path.exists() else b""


def table():
    """The rows of crates/test_scripts that read a script and in which no call fails: name, command, script, output and status."""
    folder = TOP / "crates" / "test_scripts"
    for line in (folder / "stdin").read_text().splitlines():
        if not line or line.startswith("#"):
            continue
        name, status, *words = line.split(" ")
        settings = dict(word.split("=") for word in words if "=" in word)
        command = " ".join(word for word in words if "=" not in word)
        if command in WORKED and not settings.keys() & {"read", "write"}:
            stored = read_where_it_is(folder / "data" / (settings.get("script", name) + ".script"))
            script = b"#" * int(settings["hashes"]) if "hashes" in settings else stored
            yield name, command, script, read_where_it_is(folder / "data" / (name + ".output")), int(status)


def stored_runs():
    """Every script that the gate runs, and the examples that have their output beside them."""
    rangerd = TOP / "crates" / "rangerd"
    cases = [*table(), ("rangerd", "replay", (rangerd / "stdin").read_bytes(), (rangerd / "stdout").read_bytes(), 0)]
    cases += [(out.name, out.stem if out.stem in WORKED else "replay", out.with_suffix(".script").read_bytes(), out.read_bytes(), 0)
              for out in sorted((TOP / "examples").glob("*.out"))]
    assert {command for _, command, *_ in cases} == WORKED.keys()
    for name, command, script, wanted, status in cases:
        text, number, cause = WORKED[command](script)
        assert (text.encode(), number) == (wanted, status), (name, cause)


EXAMPLES = (resource_policies, resources, additional_maps, schedules_and_conditions, roles, zones, tags, eight_cells, two_tags, tags_in_zones,
            masks_and_filters, stored_runs)
for example in EXAMPLES:
    example()
print("%d groups of examples agree" % len(EXAMPLES))
