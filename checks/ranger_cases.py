"""Cases of tools/from_ranger.py: an edit of the samples, the status that is wanted, what has to be told, and what mustn't be written (or, behind
a !, must be). An edit may answer the names of files that aren't given, and words that are.
"""

CASES = []


def case(name, status, told=(), absent=()):
    def keep(edit):
        CASES.append((name, edit, status, [told] if isinstance(told, str) else list(told), [absent] if isinstance(absent, str) else list(absent)))
        return edit
    return keep


def policy(files, number):
    rows = files["policies"]["policies"] + files["policies"]["tagPolicies"]["policies"]
    rows += [row for zone in files["policies"]["securityZones"].values() for row in zone["policies"]]
    return next(row for row in rows if row["id"] == number)


def level(files, name):
    return next(row for row in files["policies"]["serviceDef"]["resources"] if row["name"] == name)


def setting(number, **changes):
    def edit(files):
        policy(files, number).update(changes)
    return edit


def in_item(number, name, **changes):
    """Changes the first item of a list, which is made from the policy's first one where there is none."""
    def edit(files):
        row = policy(files, number)
        if not row[name]:
            row[name] = [{**row["policyItems"][0], "users": ["ian"]}]
        row[name][0].update(changes)
    return edit


def in_tag(number, **changes):
    def edit(files):
        files["tags"]["tags"][str(number)].update(changes)
    return edit


def value(number, name, text, **changes):
    def edit(files):
        policy(files, number)["resources"][name].update(values=[text], **changes)
    return edit


def denying(number):
    """The allow items of the policy become deny items."""
    def edit(files):
        row = policy(files, number)
        row["denyPolicyItems"], row["policyItems"] = row["policyItems"], []
    return edit


def both(*edits):
    def edit(files):
        for one in edits:
            one(files)
    return edit


def cases(*rows):
    for name, edit, *rest in rows:
        case(name, *rest)(edit)


def options(files, name, **changes):
    level(files, name)["matcherOptions"].update(changes)


def no_url_zone(files):
    files["policies"]["securityZones"]["labs"]["resources"].pop()
    return None


SCRIPT = [{"type": "expression", "values": ["ctx.getUser() == 'ann'"]}]
TOGETHER = [{"type": "resources-accessed-together", "values": ["db.t.c"]}]
BOUND = [{"startTime": "2024/01/01 00:00:00", "endTime": "2024/02/01 00:00:00", "timeZone": ""}]
LONG = "x" * 257


# ---- what can't be said

cases(
    ("a tag's time, denied by", in_tag(2, validityPeriods=BOUND), 3, "left out: tags.json: tag 2 (PII): its validityPeriods, so it counts always",
     '!"type":"PII"'),
    ("a tag's time, allowed by", in_tag(3, validityPeriods=BOUND), 3,
     "left out: tags.json: tag 3 (OPEN_DATA): its validityPeriods, and the tag with them", '"type":"OPEN_DATA"'),
    ("a tag's time, both",
     both(in_tag(2, validityPeriods=BOUND), setting(22, policyItems=[{"users": ["ann"], "accesses": [{"type": "hive:select"}]}])), 4,
     "UNSAFE: tags.json: tag 2 (PII): its validityPeriods, and the tag with them", '"type":"PII"'),
    ("a delta of tags", lambda files: files["tags"].update(isDelta=True), 2, "tags.json: /isDelta: a download as deltas"),
    ("a removal of tags", lambda files: files["tags"].update(op="delete"), 2, "tags.json: /op: delete isn't a whole download"),
    ("a delta of policies", lambda files: files["policies"].update(policyDeltas=[{"changeType": 0}]), 2, "policies.json: /: a download as deltas (policyDeltas)"),
    ("a delta of tag policies", lambda files: files["policies"]["tagPolicies"].update(policyDeltas=[], policies=None), 2,
     "policies.json: /tagPolicies: a download as deltas"),
    ("whole, and no deltas", lambda files: files["policies"].update(policyDeltas=[]), 0),
    ("a delta of a zone", lambda files: files["policies"]["securityZones"]["labs"].update(policyDeltas=[{"changeType": 0}]), 2,
     "policies.json: /securityZones/labs: a download as deltas"),
    ("another separator, allowed", lambda files: (options(files, "url", pathSeparatorChar="."), no_url_zone(files), files["zones"].clear())[1], 3,
     ['note: policies.json: level url separates by "."', 'left out: policies.json: policy 18 "landing": level url separates by "."'], "landing"),
    ("another separator, denied",
     lambda files: (options(files, "url", pathSeparatorChar="."), denying(18)(files), no_url_zone(files), files["zones"].clear())[2], 4,
     'UNSAFE: policies.json: policy 18 "landing": level url separates by "."', "landing"),
    ("another separator, of a zone", lambda files: options(files, "url", pathSeparatorChar="."), 4,
     ['UNSAFE: zones.json: zone labs: Z4 (level url separates by "."', 'policy 41 "trials": V14'], '"trials"'),
    ("another separator, not recursive", lambda files: options(files, "table", pathSeparatorChar="."), 0,
     'note: policies.json: level table separates by "."'),
    ("another matcher", lambda files: level(files, "url").update(matcher="com.example.OwnMatcher"), 4,
     "the matcher OwnMatcher of level url isn't there", "landing"),
    ("a matcher without recursion",
     lambda files: level(files, "url").update(matcher="org.apache.ranger.plugin.resourcematcher.RangerDefaultResourceMatcher"), 4,
     "the matcher RangerDefaultResourceMatcher of level url knows no recursion", "landing"),
    ("quotes", both(lambda files: options(files, "database", quotedCaseSensitive="true"), value(11, "database", "'Sales'")), 3,
     'left out: policies.json: policy 11 "sales for analysts": level database compares quoted values with case', "'Sales'"),
    ("tokens off", lambda files: options(files, "database", replaceTokens="false"), 3,
     'policy 15 "homes": the value home_{USER} is taken to the letter there', "homes"),
    ("other tokens", lambda files: options(files, "database", tokenDelimiterStart="<", tokenDelimiterEnd=">"), 3,
     'policy 15 "homes": the value home_{USER} is taken to the letter', "homes"),
    ("an escaped token", value(15, "database", "\\{USER}"), 3, "is taken to the letter there", "homes"),
    ("super users", lambda files: files["policies"]["serviceConfig"].update({"ranger.plugin.super.users": "hive,admin"}), 3,
     "left out: policies.json: ranger.plugin.super.users: hive,admin may do everything there"),
    ("super groups", lambda files: files["policies"]["serviceConfig"].update({"ranger.plugin.super.groups": "ops"}), 3,
     "ranger.plugin.super.groups: ops may do everything"),
    ("super users of nobody", lambda files: files["policies"]["serviceConfig"].update({"ranger.plugin.super.users": ""}), 0),
    ("service's administrators", lambda files: files["policies"]["serviceConfig"].update({"ranger.plugin.service.admins": "sam"}), 3,
     "ranger.plugin.service.admins: who administers"),
    ("filters of audits", lambda files: files["policies"]["serviceConfig"].update({"ranger.plugin.audit.filters": "[]"}), 0,
     "note: policies.json: ranger.plugin.audit.filters sets what is audited"),
    ("another setting", lambda files: files["policies"]["serviceConfig"].update({"ranger.plugin.other": "1"}), 3,
     "the key \"ranger.plugin.other\" of a service's configuration isn't known"),
    ("all is audited", lambda files: files["policies"].update(auditMode="audit-all"), 0, "note: policies.json: auditMode audit-all"),
    ("denials turned off", lambda files: files["policies"]["serviceDef"]["options"].update(enableDenyAndExceptionsInPolicies="false"), 4,
     ['UNSAFE: policies.json: policy 14 "salaries": denyPolicyItems, which the service turns off',
      'left out: policies.json: policy 14 "salaries": denyExceptions, which',
      'left out: policies.json: policy 11 "sales for analysts": allowExceptions, which',
      'policy 11 "sales for analysts": policyItems, since their exceptions',  'policy 32 "no exports": nothing is left of it',
      'note: policies.json: policy 27 "owners": isDenyAllElse denies here'], ["sales for analysts", "no exports", "!salaries", "!PII masked"]),
    ("another option", lambda files: files["policies"]["serviceDef"]["options"].update(other="1"), 3,
     "the key \"other\" of a service definition's options isn't known"),
    ("an enricher",
     lambda files: files["policies"]["serviceDef"].update(contextEnrichers=[{"name": "geo", "enricher": "x.RangerFileBasedGeolocationProvider"}]), 3,
     "the context enricher geo"),
    ("a macro, allowed", value(11, "database", "${{USER.dept}}"), 3,
     'left out: policies.json: policy 11 "sales for analysts": the value ${{USER.dept}} has a macro', "USER.dept"),
    ("a macro, denied", value(14, "database", "db_${{USER.dept}}"), 4,
     'UNSAFE: policies.json: policy 14 "salaries": the value db_${{USER.dept}} has a macro', "USER.dept"),
    ("an owner's value", value(11, "database", "home_{OWNER}"), 3, "the value home_{OWNER} has a macro", "home_{OWNER}"),
    ("a macro in a filter", in_item(13, "rowFilterPolicyItems", rowFilterInfo={"filterExpr": "dept = ${{USER.dept}}"}), 4,
     ['UNSAFE: policies.json: policy 13 "own region": rowFilterPolicyItems/0: the filter dept = ${{USER.dept}} has a macro',
      "nothing is left of it"], "USER.dept"),
    ("a macro in a mask", in_item(12, "dataMaskPolicyItems", dataMaskInfo={"dataMaskType": "CUSTOM", "valueExpr": "${{USER.x}}"}), 4,
     "UNSAFE: policies.json: policy 12", "USER.x"),
    ("a macro for a group", in_item(11, "policyItems", groups=["${{USER.dept}}"]), 3,
     ["${{USER.dept}} is a macro", "V10 (it names nobody who is there)"], "USER.dept"),
    ("a condition of its own, allowed", in_item(26, "policyItems", conditions=TOGETHER), 3,
     'left out: policies.json: policy 26 "all but drafts": policyItems/0: V9 (the condition resources-accessed-together isn\'t there',
     "all but drafts"),
    ("a condition of its own, excepted from", in_item(11, "allowExceptions", conditions=TOGETHER), 3,
     ["allowExceptions/0: V9", "policyItems, since an exception from them can't be said"], "sales for analysts"),
    ("a condition of its own, denied", in_item(14, "denyPolicyItems", conditions=TOGETHER), 4,
     'UNSAFE: policies.json: policy 14 "salaries": denyPolicyItems/0: V9', "!salaries"),
    ("a condition of its own, excepted from a denial", in_item(14, "denyExceptions", conditions=TOGETHER), 3,
     "left out: policies.json: policy 14 \"salaries\": denyExceptions/0: V9", "!salaries"),
    ("a condition of its own, masked", in_item(12, "dataMaskPolicyItems", conditions=TOGETHER), 4, "UNSAFE: policies.json: policy 12", "ssn masked"),
    ("a script, of a tag policy", setting(24, conditions=SCRIPT), 3,
     'left out: policies.json: policy 24 "open data": V9 (the condition expression isn\'t there: a script', "open data"),
    ("a script, of a tag policy that denies", setting(22, conditions=SCRIPT), 4, 'UNSAFE: policies.json: policy 22 "PII": V9', '"name":"PII"'),
    ("a script without a definition", setting(26, conditions=[{"type": "_expression", "values": ["1"]}]), 3,
     "V9 (the definition has no condition _expression)", "all but drafts"),
    ("_any, allowed", in_item(26, "policyItems", accesses=[{"type": "_any"}, {"type": "select"}]), 3,
     "left out: policies.json: policy 26 \"all but drafts\": policyItems/0: V8 (there is no access type _any)", ["_any", "!all but drafts"]),
    ("_any, denied", in_item(14, "denyPolicyItems", accesses=[{"type": "_any"}]), 4,
     'UNSAFE: policies.json: policy 14 "salaries": denyPolicyItems/0: V8 (there is no access type _any)', "_any"),
    ("a schedule that recurs", setting(16, validitySchedules=[{"startTime": "", "endTime": "", "recurrences": [{"interval": {}}]}]), 3,
     "policy 16 \"month's end\": V12 (a schedule recurs)", "month's end"),
    ("a schedule that recurs, denied", both(denying(16), setting(16, validitySchedules=[{"recurrences": [{}]}])), 4,
     "UNSAFE: policies.json: policy 16", "month's end"),
    ("a schedule that doesn't", setting(16, validitySchedules=[{"startTime": "2024/06/01 00:00:00", "timeZone": "UTC", "recurrences": []}]), 0, (),
     "!month's end"),
    ("a schedule without a zone", setting(16, validitySchedules=[{"startTime": "2024/06/01 00:00:00"}]), 4,
     "UNSAFE: policies.json: policy 16 \"month's end\": a schedule without a time zone counts in UTC", "!month's end"),
    ("a schedule in the plugins' zone",
     lambda files: setting(16, validitySchedules=[{"startTime": "2024/06/01 00:00:00"}])(files) or ("--time-zone=Asia/Kolkata",), 0, (),
     '!"timeZone":"Asia/Kolkata"'),
    ("time zones", setting(26, validitySchedules=[{"endTime": "2030/01/01 00:00:00", "timeZone": "Asia/Kolkata"}]), 0, (),
     ['!"timeZones":[{"name":"America/New_York","rule":"EST5EDT,M3.2.0,M11.1.0"},{"name":"Asia/Kolkata","rule":"IST-5:30"}]']),
    ("a time zone without a file", setting(16, validitySchedules=[{"timeZone": "Mars/Olympus"}]), 3,
     "V12 (this machine has no rule for the time zone Mars/Olympus)", "month's end"),
    ("a time zone that is a path", setting(16, validitySchedules=[{"timeZone": "../../etc/passwd"}]), 3,
     "V12 (this machine has no rule for the time zone ../../etc/passwd)", "month's end"),
    ("a time zone without a rule", setting(16, validitySchedules=[{"timeZone": "Nowhere/Footless"}]), 3,
     "V12 (this machine has no rule for the time zone Nowhere/Footless)", "month's end"),
    ("a null attribute", in_tag(1, attributes={"expiry_date": "2024/12/31", "source": None}), 0, "note: tags.json: /tags/1/attributes/source is null",
     '"source"'),
    ("a null in a list", in_item(11, "policyItems", users=[None, "ann"]), 0, "note: policies.json: /policies/0/policyItems/0/users/0 is null"),
    ("a tag that isn't there", lambda files: files["tags"]["resourceToTagIds"].update({"101": [1, 99]}), 3,
     "left out: tags.json: resource 101: there is no tag 99", '!"EXPIRES_ON"'),
    ("a resource that isn't there", lambda files: files["tags"]["resourceToTagIds"].update({"999": [1]}), 3,
     "left out: tags.json: resource 999 has tags, and isn't there"),
    ("a resource of another service", lambda files: files["tags"]["serviceResources"][0].update(serviceName="hive_dev"), 4,
     "resource 101: it is of the service hive_dev", "campaign_2024"),
    ("tags of another service", lambda files: files["tags"].update(serviceName="hive_dev"), 2,
     "tags.json: /serviceName: tags of hive_dev, and the policies are of hive_prod"),
    ("an expiry that doesn't read", in_tag(1, attributes={"expiry_date": "31.12.2024"}), 4,
     "UNSAFE: tags.json: tag 1 (EXPIRES_ON): its expiry_date 31.12.2024 doesn't read"),
    ("an expiry of Atlas", in_tag(1, attributes={"expiry_date": "2024-12-31T01:30:00.000+02:00"}), 0, (), '!"expiry_date":"2024/12/30 23:30:00"'),
    ("letters past ASCII, allowed", value(11, "database", "Ärzte"), 3,
     'left out: policies.json: policy 11 "sales for analysts": the case of letters past ASCII counts here (Ärzte)', "!Ärzte"),
    ("letters past ASCII, denied", value(14, "database", "Ärzte"), 4, "UNSAFE: policies.json: policy 14", "!Ärzte"),
    ("letters past ASCII, excluded", value(26, "table", "Entwürfe"), 4, "UNSAFE: policies.json: policy 26", "!Entwürfe"),
    ("a mask's condition", in_item(12, "dataMaskPolicyItems", dataMaskInfo={"dataMaskType": "MASK", "conditionExpr": "region = 'eu'"}), 3,
     "a mask's conditionExpr: the mask stands always", ["conditionExpr", "!ssn masked"]),
    ("addresses", in_item(18, "policyItems", conditions=[{"type": "ip-range", "values": ["10.20.*.*", "*.*.*.*", "fe80:*:*", "1.2.3.4"]}]), 0, (),
     '!"values":["10.20.*","*","fe80:*","1.2.3.4"]'),
    ("an address with a star inside", in_item(18, "policyItems", conditions=[{"type": "ip-range", "values": ["10.*.7.1"]}]), 3,
     "V9 (the values of the condition ip-range)", "10.*.7.1"),
    ("a network", in_item(18, "policyItems", conditions=[{"type": "ip-range", "values": ["10.0.0.0/8"]}]), 3,
     "V9 (the values of the condition ip-range)", "10.0.0.0"),
    ("an answer in capitals", in_item(21, "denyPolicyItems", conditions=[{"type": "accessed-after-expiry", "values": [" Yes "]}]), 0, (),
     '!"values":["yes"]'),
    ("a policy of audits", setting(26, policyType=3), 3, "left out: policies.json: policy 26 \"all but drafts\": V3 (the type is 3)", "all but drafts"),
    ("a disabled policy that can't be said", both(denying(20), in_item(20, "denyPolicyItems", conditions=TOGETHER)), 3,
     'left out: policies.json: policy 20 "old"', '"old"'),
)


# ---- what would break a rule

cases(
    ("no id", setting(26, id=0), 3, "its id isn't positive, or another policy has it", "all but drafts"),
    ("an id twice", setting(26, id=11), 3, 'policy 11 "all but drafts": its id isn\'t positive, or another', "all but drafts"),
    ("V1", setting(26, name=LONG), 3, "V1 (the name is empty", LONG),
    ("V2", setting(26, name="homes"), 3, 'policy 26 "homes": V2', "draft_"),
    ("V4", setting(14, policyPriority=2), 4, 'UNSAFE: policies.json: policy 14 "salaries": V4 (the priority is 2)', "salaries"),
    ("V5, no such level", lambda files: policy(files, 26)["resources"].update(schema={"values": ["x"]}), 3, "V5 (there is no level schema)",
     "all but drafts"),
    ("V5, no path", lambda files: policy(files, 26)["resources"].update(udf={"values": ["x"]}), 3, "V5 (the levels lie on no one path)",
     "all but drafts"),
    ("V5, nothing", setting(26, resources={}), 3, "V5 (no level)", "all but drafts"),
    ("V5, mandatory", setting(26, resources={"table": {"values": ["x"]}}), 3, "V5 (the level database isn't named)", "all but drafts"),
    ("V5, a filter of a column", lambda files: policy(files, 13)["resources"].update(column={"values": ["x"]}), 4,
     "UNSAFE: policies.json: policy 13 \"own region\": V5 (a level that the part", "own region"),
    ("V5, many maps", setting(26, additionalResources=[{"database": {"values": ["d%d" % n]}} for n in range(16)]), 3,
     "V5 (more than 15 additional maps)", "all but drafts"),
    ("V6, no value", lambda files: policy(files, 26)["resources"]["table"].update(values=[]), 3, "V6 (level table: no value)", "all but drafts"),
    ("V6, a long value", value(26, "table", LONG), 3, "V6 (level table: a value that is empty or has more than 256 characters)", LONG),
    ("V6, recursive", value(26, "table", "x", isRecursive=True), 3, "V6 (level table doesn't support it)", "all but drafts"),
    ("V7", setting(26, dataMaskPolicyItems=[{"accesses": [{"type": "select"}], "users": ["ann"], "dataMaskInfo": {"dataMaskType": "MASK"}}]), 3,
     "dataMaskPolicyItems of a policy of type 0 (V7)", "!all but drafts"),
    ("V7, of a mask", setting(12, isDenyAllElse=True), 3, "isDenyAllElse of a policy of type 1 (V7)", "!ssn masked"),
    ("V8", in_item(26, "policyItems", accesses=[]), 3, "V8 (no access)", "all but drafts"),
    ("V8, of a mask", in_item(12, "dataMaskPolicyItems", accesses=[{"type": "update"}]), 4,
     "UNSAFE: policies.json: policy 12 \"ssn masked\": dataMaskPolicyItems/0: V8 (there is no access type update)", "ssn masked"),
    ("V10, nobody", in_item(26, "policyItems", groups=[]), 3, "policyItems/0: V10 (it names nobody)", "all but drafts"),
    ("V10, no role", in_item(26, "policyItems", roles=["ghosts"]), 3, "policyItems/0: V10 (there is no role ghosts)", ["ghosts", "!all but drafts"]),
    ("V10, no role denied", in_item(14, "denyPolicyItems", roles=["ghosts"]), 4,
     "UNSAFE: policies.json: policy 14 \"salaries\": denyPolicyItems/0: V10 (there is no role ghosts)", ["ghosts", "!salaries"]),
    ("no roles given", lambda files: ("roles",), 4,
     ["V10 (there is no role payroll)", "V10 (there is no role finance_reader)", "UNSAFE: policies.json: policy 33", "Z5"], "payroll"),
    ("no tags given", lambda files: ("tags",), 4, "UNSAFE: policies.json: no tags are given, so the tag policies count for nothing"),
    ("V11, no such mask", in_item(12, "dataMaskPolicyItems", dataMaskInfo={"dataMaskType": "MASK_MORE"}), 4,
     "UNSAFE: policies.json: policy 12 \"ssn masked\": dataMaskPolicyItems/0: V11 (there is no mask type MASK_MORE)", "MASK_MORE"),
    ("V11, CUSTOM", in_item(12, "dataMaskPolicyItems", dataMaskInfo={"dataMaskType": "CUSTOM"}), 4, "V11 (CUSTOM without an expression)", "ssn masked"),
    ("V11, no filter", in_item(13, "rowFilterPolicyItems", rowFilterInfo={}), 4, "V11 (no filter)", "own region"),
    ("V12, no time", setting(16, validitySchedules=[{"startTime": "2024/02/30 00:00:00", "timeZone": "UTC"}]), 3,
     "V12 (2024/02/30 00:00:00 is no time)", "month's end"),
    ("V12, the end first",
     setting(16, validitySchedules=[{"startTime": "2024/07/01 00:00:00", "endTime": "2024/06/01 00:00:00", "timeZone": "America/New_York"}]), 3,
     "V12 (it ends before it starts)", "month's end"),
    ("V13", both(value(26, "database", "sales"), value(26, "table", "*", isExcludes=False)), 3, "policy 26 \"all but drafts\": V13", "all but drafts"),
    ("V14", setting(26, zoneName="labs2"), 3, "policy 26 \"all but drafts\": V14 (the zone labs2 isn't there", "all but drafts"),
    ("V14, denied", setting(14, zoneName="labs2"), 4, "UNSAFE: policies.json: policy 14 \"salaries\": V14", "salaries"),
    ("another service's policy", setting(26, service="hive_dev"), 3, "policy 26 \"all but drafts\": it is of the service hive_dev", "all but drafts"),
    ("O1", lambda files: files["roles"]["rangerRoles"][2].update(name=LONG), 4, "O1 (its name)", LONG),
    ("two roles of a name", lambda files: files["roles"]["rangerRoles"].append(files["roles"]["rangerRoles"][0]), 4,
     "role finance_reader: there are two of that name"),
    ("O2", lambda files: files["roles"]["rangerRoles"][2]["roles"].append({"name": "ghosts"}), 3,
     "left out: roles.json: role payroll: its role ghosts (O2: it isn't there)", "ghosts"),
    ("O2, a filter's", lambda files: files["roles"]["rangerRoles"][1]["roles"].append({"name": "ghosts"}), 4,
     "UNSAFE: roles.json: role finance_lead: its role ghosts (O2", "ghosts"),
    ("O3", lambda files: files["roles"]["rangerRoles"][1]["roles"].append({"name": "finance_reader"}), 4, "(O3: a circle)"),
    ("deep roles",
     lambda files: files["roles"]["rangerRoles"].extend({"name": "r%d" % n, "roles": [{"name": "r%d" % (n + 1)}] if n < 299 else []} for n in range(300)),
     0, (), "!r299"),
    ("Z1",
     lambda files: (files["policies"]["securityZones"].update({LONG: files["policies"]["securityZones"].pop("labs")}), files["zones"].pop()) and None,
     4, "Z1 (its name)", LONG),
    ("Z2", lambda files: files["zones"][0]["services"].update(hdfs_prod={"resources": [{"path": ["/fin"]}]}), 3,
     "zone finance: its services hdfs_prod, which aren't converted (Z2)", ["hdfs_prod", "!fay"]),
    ("Z2, a zone of another service",
     lambda files: files["zones"].append({"name": "lake", "services": {"hdfs_prod": {"resources": [{"path": ["/fin"]}]}}, "tagServices": ["tags_dev"]}),
     3, ["zone lake: its services hdfs_prod, tags_dev, which aren't converted (Z2)", "zone lake: it has nothing of the service hive_prod"], "lake\"}"),
    ("Z3", lambda files: files["policies"]["securityZones"]["labs"]["resources"].append({"table": ["a"], "udf": ["b"]}), 4,
     "UNSAFE: zones.json: zone labs: Z3 (V5 (the levels lie on no one path))", "trials"),
    ("Z4", lambda files: files["policies"]["securityZones"]["labs"]["resources"].append({"database": ["x_{USER}"]}), 4,
     "UNSAFE: zones.json: zone labs: Z4 ({USER} in level database)", "trials"),
    ("Z5", lambda files: files["zones"][0]["adminRoles"].append("ghosts"), 3, "left out: zones.json: zone finance: there is no role ghosts (Z5)",
     "ghosts"),
    ("Z6", lambda files: files["policies"]["securityZones"]["labs"]["resources"].append({"database": ["*_EU"]}), 4,
     ["UNSAFE: zones.json: zone labs: Z6 (it overlaps the zone finance)", "policy 41 \"trials\": V14"], "trials"),
    ("Z6, udf and table",
     both(lambda files: files["policies"]["securityZones"]["labs"].update(resources=[{"table": ["*"]}]),
          lambda files: files["policies"]["securityZones"]["finance"].update(resources=[{"udf": ["*"]}])),
     4, "Z6 (it overlaps the zone finance)"),
    ("not quite Z6", lambda files: files["policies"]["securityZones"]["labs"]["resources"].append({"database": ["?in_*", "fi_*"][1:]}), 0, (),
     "!trials"),
    ("letters of a zone", lambda files: files["policies"]["securityZones"]["labs"]["resources"].append({"database": ["Büro"]}), 4,
     "UNSAFE: zones.json: zone labs: the case of letters past ASCII"),
    ("G2", lambda files: files["tags"]["serviceResources"][0]["resourceElements"].update(udf={"values": ["f"]}), 4,
     "UNSAFE: tags.json: resource 101: G2 (V5", "campaign_2024"),
    ("G2, of what allows", lambda files: files["tags"]["serviceResources"][2]["resourceElements"]["database"].update(values=["p_{USER}"]), 3,
     "left out: tags.json: resource 103: G2 ({USER} in level database)", "p_"),
    ("G3", lambda files: files["tags"]["resourceToTagIds"].update({"101": [1] * 65}), 4, "resource 101: G3", "campaign_2024"),
    ("G3, a long type", in_tag(3, type=LONG), 3, "left out: tags.json: resource 103: G3", LONG),
    ("G4", lambda files: files["tags"]["serviceResources"][1].update(id=101), 4, "UNSAFE: tags.json: resource 101: G4", "leads"),
    ("U1", lambda files: files["users"]["userGroupMapping"].update({LONG: ["a"], "joe": [LONG, "b"]}), 3, ["(U1)", "user joe: a group of it (U1)"],
     LONG),
    ("S5", lambda files: files["policies"]["serviceDef"]["accessTypes"][0].update(impliedGrants=["fly"]), 3,
     "select implies fly, which is no access type (S5)", "fly"),
    ("S6", lambda files: files["policies"]["serviceDef"]["policyConditions"].append({"name": "ip-range"}), 3,
     "the condition ip-range of the definition hive (S6)"),
    ("S7", lambda files: files["policies"]["serviceDef"]["rowFilterDef"]["resources"].append({"name": "schema"}), 3,
     "rowFilterDef of the definition hive: schema isn't one of its resources (S7)", "schema"),
    ("S2", lambda files: files["policies"]["serviceDef"].update(resources=[]), 2, "policies.json: the service definition hive breaks S2"),
    ("S3", lambda files: level(files, "table").update(level=10), 2, "policies.json: the service definition hive breaks S3"),
    ("S8", lambda files: files["policies"]["tagPolicies"]["serviceDef"].update(name="tags"), 2, "policies.json: the service definition tags breaks S8"),
    ("C6", lambda files: files["policies"]["serviceDef"].update(name="tag"), 2, "breaks C6: a tag service has no plugin"),
    ("no tag definition", lambda files: files["policies"]["tagPolicies"].pop("serviceDef") and None, 4,
     ["UNSAFE: policies.json: policy 21 \"expired\": there is no tag definition", "left out: policies.json: policy 24"], "expired"),
    ("no definition", lambda files: files["policies"].pop("serviceDef") and None, 2, "policies.json: no service definition: give it by --definition"),
    ("no name of the service", lambda files: files["policies"].pop("serviceName") and None, 2,
     "policies.json: the name of the service has 1 to 256 characters"),
)


# ---- exports, and what is too long

def pages(files):
    files["export"]["totalCount"] = 500


def another_service(files):
    files["export"]["policies"][0]["service"] = "hive_dev"


def another_tag_service(files):
    files["export"]["policies"][-2]["service"] = "tags_dev"


cases(
    ("export as it is", lambda files: None, 0, (), ["!sales for analysts", "!tagPolicies"]),
    ("export of a page", pages, 4, "UNSAFE: export.json: 21 of 500 policies: the others aren't in the file"),
    ("export of two services", another_service, 2, "export.json: policies of several services: choose one of hive_dev, hive_prod by --service"),
    ("export of two tag services", another_tag_service, 2,
     "export.json: policies of several services: choose one of tags_dev, tags_prod by --tag-service"),
    ("export without zones", lambda files: ("zones",), 4, 'UNSAFE: export.json: policy 41 "trials": V14', "trials"),
    ("export as a list", lambda files: files.update(export=files["export"]["policies"]), 0, (), "!sales for analysts"),
    ("export without policies", lambda files: files["export"].pop("policies") and None, 2,
     "export.json: neither a download of policies nor a list of them"),
)


def many_users(count):
    return lambda files: policy(files, 11)["policyItems"][0].update(users=["user%07d" % number for number in range(count)])


cases(
    ("facts past 1 MiB", many_users(90000), 0, "warning: the facts line has 12"),
    ("administration of a policy past 1 MiB", many_users(90000), 4, "UNSAFE: a command of 12", "sales for analysts"),
)


# ---- bad files, and much at once

BAD_FILES = {
    "no file": None, "an empty file": b"", "no JSON": b"{'a':1}", "not UTF-8": b'{"serviceName":"\xff"}', "NaN": b'{"serviceName":NaN}',
    "half a character": b'{"serviceName":"\\ud800"}', "nested deep": b"[" * 100000, "a number": b"7", "a text": b'"x"', "a list of numbers": b"[1,2]",
    "policies that are a map": b'{"serviceName":"h","policies":{}}', "a policy that is a text": b'{"serviceName":"h","policies":["x"]}',
    "an id past 64 bits": b'{"serviceName":"h","policies":[{"id":99999999999999999999}]}', "an id that is a text": b'{"serviceName":"h","policies":[{"id":"7"}]}',
    "a truth that is a number": b'{"serviceName":"h","policies":[{"isEnabled":1}]}', "a level that is a list": b'{"serviceName":"h","policies":[{"resources":{"d":[]}}]}',
    "a number that is long": b'{"serviceName":' + b"9" * 5000 + b"}",
}


def spoil(files):
    """Much of it goes, so the outputs have to go on without it alike."""
    for number, name in ((26, "policyItems"), (14, "denyPolicyItems"), (23, "dataMaskPolicyItems")):
        in_item(number, name, conditions=TOGETHER)(files)
    in_item(11, "policyItems", accesses=[{"type": "_any"}, {"type": "select"}])(files)
    in_tag(2, validityPeriods=BOUND)(files)
    in_tag(3, validityPeriods=BOUND)(files)
    setting(17, policyPriority=5)(files)
    files["policies"]["securityZones"]["labs"]["resources"].append({"database": ["fin_eu"]})
