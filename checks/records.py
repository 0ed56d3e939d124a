"""Records with all their fields, from the JSON of docs/FORMATS.md: what is missing or null gets its default."""

SUBJECTS = {"users": [], "groups": [], "roles": []}
ACCESS_LISTS = ("policyItems", "denyPolicyItems", "allowExceptions", "denyExceptions")
ITEM_LISTS = ACCESS_LISTS + ("dataMaskPolicyItems", "rowFilterPolicyItems")
ZONE_LISTS = ("tagServices", "adminUsers", "adminUserGroups", "adminRoles", "auditUsers", "auditUserGroups", "auditRoles")


def filled(given, **defaults):
    return {**defaults, **{key: value for key, value in given.items() if value is not None}}


def each(make, things):
    return [make(thing) for thing in things]


def truth(value):
    return value in (True, "true")


def level(given):
    whole = filled(given, level=0, parent="", mandatory=False, recursiveSupported=False, excludesSupported=False, matcherOptions={})
    options = filled(whole["matcherOptions"], wildCard=True, ignoreCase=True)
    return {**whole, "matcherOptions": {key: truth(value) for key, value in options.items()}}


def definition(given):
    whole = filled(given, resources=[], accessTypes=[], policyConditions=[], dataMaskDef={}, rowFilterDef={})
    mask = filled(whole["dataMaskDef"], maskTypes=[], accessTypes=[], resources=[])
    mask["maskTypes"] = [filled(kind, transformer="") for kind in mask["maskTypes"]]
    return {**whole, "resources": each(level, whole["resources"]),
            "accessTypes": [filled(kind, impliedGrants=[]) for kind in whole["accessTypes"]],
            "policyConditions": [filled(row, evaluator="", evaluatorOptions={}) for row in whole["policyConditions"]],
            "dataMaskDef": mask, "rowFilterDef": filled(whole["rowFilterDef"], accessTypes=[], resources=[])}


def resources(given):
    return {name: filled(one, values=[], isExcludes=False, isRecursive=False) for name, one in given.items()}


def conditions(given):
    return [filled(condition, values=[]) for condition in given]


def item(given):
    whole = filled(given, accesses=[], conditions=[], delegateAdmin=False, dataMaskInfo=None, rowFilterInfo={}, **SUBJECTS)
    mask = whole["dataMaskInfo"]
    return {**whole, "accesses": [filled(entry, isAllowed=True) for entry in whole["accesses"]],
            "conditions": conditions(whole["conditions"]),
            "dataMaskInfo": None if mask is None else filled(mask, dataMaskType="", conditionExpr="", valueExpr=""),
            "rowFilterInfo": filled(whole["rowFilterInfo"], filterExpr=None)}


def policy(given):
    whole = filled(given, id=0, guid="", version=1, service="", name="", policyType=0, policyPriority=0, resources={}, additionalResources=[],
                   conditions=[],
                   validitySchedules=[], zoneName="", isDenyAllElse=False, isEnabled=True, isAuditEnabled=True,
                   **{name: [] for name in ITEM_LISTS})
    schedules = [filled(one, startTime="", endTime="", timeZone="", recurrences=[]) for one in whole["validitySchedules"]]
    return {**whole, "resources": resources(whole["resources"]), "additionalResources": each(resources, whole["additionalResources"]),
            "conditions": conditions(whole["conditions"]), "validitySchedules": schedules, **{name: each(item, whole[name]) for name in ITEM_LISTS}}


def role(given):
    """A member is a text, or a map with its name."""
    member = lambda one: one if isinstance(one, str) else one["name"]
    whole = filled(given, **SUBJECTS)
    return {**whole, **{kind: each(member, whole[kind]) for kind in SUBJECTS}}


def zone(given):
    whole = filled(given, services={}, **{name: [] for name in ZONE_LISTS})
    return {**whole, "services": {name: filled(one, resources=[]) for name, one in whole["services"].items()}}


def tag_row(given):
    whole = filled(given, id=0, resourceElements={}, tags=[])
    return {**whole, "resourceElements": resources(whole["resourceElements"]),
            "tags": [filled(tag, attributes={}) for tag in whole["tags"]]}


def facts(given):
    whole = filled(given, fallback=False, tagServiceDef=None, policies=[], tagPolicies=[], zones=[], roles=[], resources=[],
                   timeZones=[], policyVersion=1, tagVersion=1, roleVersion=0)
    tag_definition = whole["tagServiceDef"]
    return {**whole, "serviceDef": definition(whole["serviceDef"]),
            "tagServiceDef": None if tag_definition is None else definition(tag_definition),
            "policies": each(policy, whole["policies"]), "tagPolicies": each(policy, whole["tagPolicies"]),
            "zones": each(zone, whole["zones"]), "roles": each(role, whole["roles"]), "resources": each(tag_row, whole["resources"])}


def request(given, now=0):
    whole = filled(given, userGroups=[], accessTime=now, clientIPAddress="", context={})
    return {**whole, "resource": filled(whole["resource"], ownerUser="")}
