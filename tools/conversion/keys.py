"""The table of Ranger's keys: what becomes of each, record by record.

A key is kept, or it means nothing here, or it changes decisions and is judged where the record is taken (which names it). A key that
isn't in the table is named as unknown.
"""

import collections

from conversion.told import Bad

KEPT, NOTHING, JUDGED = "kept", "nothing", "judged"
Key = collections.namedtuple("Key", "fate kind why")

# Kinds of values. A list, a map from names, and a record are pairs.
TEXT, TRUTH, INTEGER, WORD, ANY = "text", "truth", "integer", "truth or word", "any value"


def each(kind):
    return ("list", kind)


def by_name(kind):
    return ("map", kind)


def record(name):
    return ("record", name)


TEXTS, TEXT_MAP = each(TEXT), by_name(TEXT)


def kept(**kinds):
    return {key: Key(KEPT, kind, "") for key, kind in kinds.items()}


def nothing(why, keys):
    return {key: Key(NOTHING, ANY, why) for key in keys.split()}


def judged(**rows):
    return {key: Key(JUDGED, *row) for key, row in rows.items()}


BOOKS = nothing("who made it and when", "createdBy updatedBy createTime updateTime")
BASE = {**BOOKS, **nothing("the server's own number, version and mark", "id guid version isEnabled")}
FORM = nothing("the form on the page", "itemId label description rbKeyLabel rbKeyDescription rbKeyValidationMessage uiHint validationRegEx "
               "validationMessage displayName")
PAGE = nothing("which page of a list it is", "startIndex pageSize resultSize sortType sortBy queryTimeMS list listSize")
SEVERAL = nothing("when it was given", "policyUpdateTime tagUpdateTime roleUpdateTime userStoreUpdateTime")

TABLE = {
    "policy download": {
        **kept(serviceName=TEXT, policyVersion=INTEGER, serviceDef=record("service definition"), policies=each(record("policy")),
               tagPolicies=record("tag policies"), securityZones=by_name(record("zone of a download"))),
        **judged(policyDeltas=(ANY, "a download as deltas isn't whole: status 2"),
                 serviceConfig=(by_name(ANY), "super users are allowed everything there; what is audited is set there"),
                 auditMode=(TEXT, "what is audited")),
        **SEVERAL, **nothing("the server's own number", "serviceId"),
    },
    "tag policies": {
        **kept(serviceName=TEXT, serviceDef=record("service definition"), policies=each(record("policy"))),
        **judged(policyDeltas=(ANY, "a download as deltas isn't whole: status 2"),
                 serviceConfig=(by_name(ANY), "super users are allowed everything there; what is audited is set there"),
                 auditMode=(TEXT, "what is audited")),
        **SEVERAL, **nothing("the server's own number and version", "serviceId policyVersion"),
    },
    "zone of a download": {
        **kept(resources=each(by_name(TEXTS)), policies=each(record("policy")), containsAssociatedTagService=TRUTH),
        **judged(policyDeltas=(ANY, "a download as deltas isn't whole: status 2")),
        **nothing("the key that it stands under", "zoneName"),
    },
    "policy export": {
        **kept(policies=each(record("policy"))),
        **judged(totalCount=(INTEGER, "more policies than there are in the file: the others are missing")),
        **PAGE, **nothing("who exported and when", "metaDataInfo"),
    },
    "service definition": {
        **kept(name=TEXT, resources=each(record("level")), accessTypes=each(record("access type")),
               policyConditions=each(record("condition definition")), dataMaskDef=record("mask part"), rowFilterDef=record("filter part")),
        **judged(options=(by_name(ANY), "enableDenyAndExceptionsInPolicies may turn denials and exceptions off"),
                 contextEnrichers=(each(record("enricher")), "what it adds to a request has to come with the request here")),
        **FORM, **BASE, **nothing("how the server reaches the component", "implClass configs enums"),
        **nothing("marks of access types; a policy that names one breaks V8", "markerAccessTypes"),
    },
    "enricher": {**kept(name=TEXT, enricher=TEXT), **nothing("settings of the enricher", "itemId enricherOptions")},
    "level": {
        **kept(name=TEXT, level=INTEGER, parent=TEXT, mandatory=TRUTH, recursiveSupported=TRUTH, excludesSupported=TRUTH,
               matcherOptions=record("matcher options")),
        **judged(matcher=(TEXT, "another matcher than the default, the path and the URL matcher matches otherwise")),
        **FORM, **nothing("what may be stored and looked up", "type lookupSupported accessTypeRestrictions isValidLeaf"),
    },
    "matcher options": {
        **kept(wildCard=WORD, ignoreCase=WORD),
        **judged(pathSeparatorChar=(TEXT, "recursive values go by another separator than /"),
                 quotedCaseSensitive=(WORD, "quoted values count with case"), quoteChars=(TEXT, "the quotes of such values"),
                 replaceTokens=(WORD, "whether {USER} and other macros count"), tokenDelimiterStart=(TEXT, "how macros begin"),
                 tokenDelimiterEnd=(TEXT, "how macros end"), tokenDelimiterEscape=(TEXT, "what takes a macro's meaning away"),
                 tokenDelimiterPrefix=(TEXT, "how macros begin")),
        **nothing("what may be stored", "__isValidLeaf __accessTypeRestrictions"),
    },
    "access type": {**kept(name=TEXT, impliedGrants=TEXTS), **FORM, **nothing("where it is listed", "category")},
    "condition definition": {**kept(name=TEXT, evaluator=TEXT, evaluatorOptions=by_name(ANY)), **FORM},
    "mask part": {**kept(maskTypes=each(record("mask type")), accessTypes=each(record("name of a part")), resources=each(record("name of a part")))},
    "filter part": {**kept(accessTypes=each(record("name of a part")), resources=each(record("name of a part")))},
    "name of a part": {
        **kept(name=TEXT), **FORM,
        **nothing("as at the definition's own", "impliedGrants category type level parent mandatory lookupSupported recursiveSupported "
                  "excludesSupported matcher matcherOptions accessTypeRestrictions isValidLeaf"),
    },
    "mask type": {**kept(name=TEXT, transformer=TEXT), **FORM, **nothing("settings of the component", "dataMaskOptions")},
    "policy": {
        **kept(id=INTEGER, guid=TEXT, version=INTEGER, service=TEXT, name=TEXT, policyType=INTEGER, policyPriority=INTEGER,
               resources=by_name(record("resource")), additionalResources=each(by_name(record("resource"))),
               conditions=each(record("condition")), policyItems=each(record("item")), denyPolicyItems=each(record("item")),
               allowExceptions=each(record("item")), denyExceptions=each(record("item")), dataMaskPolicyItems=each(record("item")),
               rowFilterPolicyItems=each(record("item")), validitySchedules=each(record("schedule")), zoneName=TEXT, isDenyAllElse=TRUTH,
               isEnabled=TRUTH, isAuditEnabled=TRUTH),
        **judged(serviceType=(TEXT, "in an export, whether it is a tag policy")),
        **BOOKS, **nothing("what the server keeps for itself", "description resourceSignature options policyLabels"),
    },
    "resource": kept(values=TEXTS, isExcludes=TRUTH, isRecursive=TRUTH),
    "item": kept(accesses=each(record("access")), users=TEXTS, groups=TEXTS, roles=TEXTS, conditions=each(record("condition")),
                 delegateAdmin=TRUTH, dataMaskInfo=record("mask"), rowFilterInfo=record("filter")),
    "access": kept(type=TEXT, isAllowed=TRUTH),
    "condition": kept(type=TEXT, values=TEXTS),
    "mask": {**kept(dataMaskType=TEXT, valueExpr=TEXT), **judged(conditionExpr=(TEXT, "when to mask; here the mask stands always"))},
    "filter": kept(filterExpr=TEXT),
    "schedule": {
        **kept(startTime=TEXT, endTime=TEXT, timeZone=TEXT),
        **judged(recurrences=(each(ANY), "a schedule that recurs isn't there")),
    },
    "role download": {**kept(rangerRoles=each(record("role")), roles=each(record("role")), roleVersion=INTEGER), **SEVERAL, **PAGE,
                      **nothing("the service that asked, and how many there are", "serviceName totalCount")},
    "role": {**kept(name=TEXT, users=each(record("member")), groups=each(record("member")), roles=each(record("member"))), **BASE,
             **nothing("what the server keeps for itself", "description options createdByUser")},
    "member": {**kept(name=TEXT), **nothing("who may change the role: the administrators alone here", "isAdmin")},
    "zone list": {**kept(securityZones=each(record("zone"))), **PAGE, **nothing("how many there are", "totalCount")},
    "zone": {
        **kept(name=TEXT, services=by_name(record("service of a zone")), tagServices=TEXTS, adminUsers=TEXTS, adminUserGroups=TEXTS,
               adminRoles=TEXTS, auditUsers=TEXTS, auditUserGroups=TEXTS, auditRoles=TEXTS),
        **BASE, **nothing("what the server keeps for itself", "description"),
    },
    "service of a zone": {**kept(resources=each(by_name(TEXTS))), **nothing("who made it and when", "resourcesBaseInfo")},
    "tag download": {
        **kept(serviceName=TEXT, tagVersion=INTEGER, tags=by_name(record("tag")), serviceResources=each(record("tagged resource")),
               resourceToTagIds=by_name(each(INTEGER))),
        **judged(isDelta=(TRUTH, "a download as deltas isn't whole: status 2"), op=(TEXT, "a removal isn't whole: status 2")),
        **SEVERAL, **nothing("of deltas, and how it is packed", "tagsChangeExtent isTagsDeduped"),
        **nothing("a tag's type counts here and not its definition", "tagDefinitions"),
    },
    "tagged resource": {
        **kept(id=INTEGER, serviceName=TEXT, resourceElements=by_name(record("resource"))),
        **BOOKS, **nothing("what the server keeps for itself", "guid version isEnabled resourceSignature additionalInfo"),
        **nothing("the owner of a resource comes with a request", "ownerUser"),
    },
    "tag": {
        **kept(type=TEXT, attributes=by_name(TEXT)),
        **judged(validityPeriods=(each(record("schedule")), "when the tag counts; here a tag counts always")),
        **BASE, **nothing("what the server keeps for itself", "owner options"),
    },
    "user store": {
        **kept(userGroupMapping=by_name(TEXTS)), **SEVERAL,
        **nothing("attributes, which macros read", "userAttrMapping groupAttrMapping userCloudIdMapping groupCloudIdMapping"),
        **nothing("versions begin at 1", "userStoreVersion serviceName"),
    },
}


class Reader:
    """Takes records of one file by the table."""

    def __init__(self, file, told):
        self.file, self.told = file, told

    def bad(self, place, what):
        raise Bad("%s: %s: %s" % (self.file, place or "/", what))

    def read(self, kind, value, place=""):
        if isinstance(kind, tuple):
            return {"list": self.list, "map": self.map, "record": self.record}[kind[0]](kind[1], value, place)
        if kind is ANY:
            return value
        if kind is WORD:
            return self.word(value, place)
        fits = {TEXT: str, TRUTH: bool, INTEGER: int}[kind]
        if not isinstance(value, fits) or (kind is INTEGER and isinstance(value, bool)):
            self.bad(place, "not a %s" % kind)
        if kind is INTEGER and not -2 ** 63 <= value < 2 ** 63:
            self.bad(place, "past 64 bits")
        return value

    def word(self, value, place):
        """Ranger takes every word but `true` for false."""
        if not isinstance(value, (str, bool)):
            self.bad(place, "not a truth")
        return value if isinstance(value, bool) else value.strip().lower() == "true"

    def list(self, kind, value, place):
        if not isinstance(value, list):
            self.bad(place, "not a list")
        return [self.read(kind, item, "%s/%d" % (place, number)) for number, item in enumerate(value) if self.is_there(item, place, number)]

    def map(self, kind, value, place):
        if not isinstance(value, dict):
            self.bad(place, "not a map")
        return {key: self.read(kind, item, "%s/%s" % (place, key)) for key, item in value.items() if self.is_there(item, place, key)}

    def is_there(self, item, place, key):
        """A null says nothing there, and makes a whole line bad here."""
        if item is None:
            self.told.note("%s: %s/%s is null, and is left out as if it weren't there" % (self.file, place, key))
        return item is not None

    def record(self, name, value, place):
        """The keys that are kept or judged, without those that are null."""
        if name == "member" and isinstance(value, str):
            return {"name": value}
        if not isinstance(value, dict):
            self.bad(place, "not a map")
        taken = {}
        for key, item in value.items():
            row = TABLE[name].get(key)
            if row is None:
                self.told.unknown_key(self.file, name, key, place)
            elif row.fate != NOTHING and item is not None:
                taken[key] = self.read(row.kind, item, "%s/%s" % (place, key))
        return taken


def printed():
    """The table as a page shows it."""
    words = {KEPT: "kept", NOTHING: "nothing here", JUDGED: "changes decisions"}
    rows = ["| record | keys | what becomes of them |", "|---|---|---|"]
    for name, keys in TABLE.items():
        groups = {}
        for key, row in keys.items():
            groups.setdefault((words[row.fate], row.why), []).append("`%s`" % key)
        for (word, why), names in groups.items():
            rows.append("| %s | %s | %s |" % (name, ", ".join(names), word + (": " + why if why else "")))
    return "\n".join(rows)
