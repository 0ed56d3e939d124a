"""Policies: what can be said here, and what is left out and how bad that is."""

import re

from conversion.definitions import KINDS_OF_CONDITIONS, is_name

ACCESS_LISTS = ("policyItems", "denyPolicyItems", "allowExceptions", "denyExceptions")
ITEM_LISTS = ACCESS_LISTS + ("dataMaskPolicyItems", "rowFilterPolicyItems")
OWN_LISTS = {0: ACCESS_LISTS, 1: ("dataMaskPolicyItems",), 2: ("rowFilterPolicyItems",)}
# Where an item of these is missing, or fits less, somebody may get more.
HARMING_LISTS = ("denyPolicyItems", "dataMaskPolicyItems", "rowFilterPolicyItems")
SWITCHED_LISTS = ("denyPolicyItems", "allowExceptions", "denyExceptions")
MOST_MORE_MAPS = 15
DEFAULTS = {"isExcludes": False, "isRecursive": False, "isAllowed": True, "delegateAdmin": False, "isDenyAllElse": False, "isEnabled": True,
            "isAuditEnabled": True, "policyType": 0, "policyPriority": 0, "version": 1}


def is_harming(policy):
    """Whether somebody may get more without it."""
    if not policy.get("isEnabled", True):
        return False
    kind = policy.get("policyType", 0)
    if kind in (1, 2):
        return any(policy.get(name) for name in OWN_LISTS[kind])
    return kind != 3 and bool(policy.get("denyPolicyItems") or policy.get("isDenyAllElse", False))


def maps_of(policy):
    return [policy.get("resources", {})] + policy.get("additionalResources", [])


def label(policy):
    return 'policy %s "%s"' % (policy.get("id", "without an id"), policy.get("name", ""))


def lean(value):
    """Without what is the default anyway."""
    if isinstance(value, dict):
        pairs = ((key, lean(item)) for key, item in value.items())
        return {key: item for key, item in pairs if item not in ([], {}, "") and not (key in DEFAULTS and DEFAULTS[key] == item)}
    return [lean(item) for item in value] if isinstance(value, list) else value


# ---- conditions

def condition_fault(definition, condition):
    row = definition.conditions.get(condition.get("type", ""))
    if row is None:
        return "V9 (the definition has no condition %s)" % condition.get("type", "")
    kind = next((text for text in (row["evaluator"], row["name"]) if text in KINDS_OF_CONDITIONS), None)
    if kind is None or kind.startswith("context") and "attributeName" not in row["evaluatorOptions"]:
        return "V9 (the condition %s isn't there: a script, or a class of its own)" % row["name"]
    values = fitting_values(kind, condition.get("values", []))
    if values is None or any("${{" in value for value in values):
        return "V9 (the values of the condition %s)" % row["name"]
    condition["values"] = values
    return None


def fitting_values(kind, values):
    """The values as they are written here, None where they can't be."""
    if kind == "accessed-after-expiry":
        values = [value.strip().lower() for value in values]
        return values if len(values) == 1 and values[0] in ("yes", "true", "no", "false") else None
    if kind != "ip-range":
        return values or None
    values = [re.sub(r"([.:]\*)([.:]\*)+$", r"\1", re.sub(r"^\*([.:]\*)+$", "*", value)) for value in values]
    plain = all(re.fullmatch(r"\*|[^*/]+|[^*/]+[.:]\*", value) for value in values)
    return values if values and plain else None


class Policies:
    """Takes the policies of one service."""

    def __init__(self, ground, definition, service, file, told):
        self.ground, self.definition, self.service, self.file, self.told = ground, definition, service, file, told

    def take(self, policies):
        return [taken for taken in map(self.taken, policies) if taken is not None]

    def tell(self, policy, what, harms):
        self.told.left_out("%s: %s: %s" % (self.file, label(policy), what), harms and policy.get("isEnabled", True))

    def taken(self, policy):
        """The policy with what can be said of it, None where nothing is left."""
        policy.update(policyType=policy.get("policyType", 0), version=max(policy.get("version", 1), 0))
        fault = self.fault(policy)
        if fault:
            self.tell(policy, fault, is_harming(policy) or self.ground.zone_is_missing(policy))
            return None
        self.tell_schedules_and_letters(policy)
        had = any(policy.get(name) for name in ITEM_LISTS)
        self.drop_items_of_other_types(policy)
        self.drop_switched_off(policy)
        for name in OWN_LISTS[policy["policyType"]]:
            self.trim(policy, name)
        if had and not policy.get("isDenyAllElse") and not any(policy.get(name) for name in ITEM_LISTS):
            self.tell(policy, "nothing is left of it", False)
            return None
        policy.pop("serviceType", None)
        self.ground.remember(policy)
        return lean(policy)

    # ---- the policy as a whole

    def fault(self, policy):
        """The first thing for which all of it has to go."""
        checks = (self.name_fault, self.type_fault, self.resource_fault, self.other_fault)
        return next(filter(None, (check(policy) for check in checks)), None)

    def name_fault(self, policy):
        if policy.setdefault("service", self.service) != self.service:
            return "it is of the service %s" % policy["service"]
        if not self.ground.id_is_free(policy):
            return "its id isn't positive, or another policy has it"
        if not is_name(policy.get("name", "")):
            return "V1 (the name is empty or has more than 256 characters)"
        if not self.ground.name_is_free(policy):
            return "V2 (another policy has the name)"
        return None

    def type_fault(self, policy):
        kind = policy["policyType"]
        if kind not in (0, 1, 2):
            return "V3 (the type is %d)" % kind
        if kind == 1 and not self.definition.masks or kind == 2 and not self.definition.filter_access:
            return "V3 (the definition has no %s)" % ("masks" if kind == 1 else "row filters")
        return None if policy.get("policyPriority", 0) in (0, 1) else "V4 (the priority is %d)" % policy["policyPriority"]

    def resource_fault(self, policy):
        if len(maps_of(policy)) > 1 + MOST_MORE_MAPS:
            return "V5 (more than 15 additional maps)"
        listed = {1: self.definition.mask_levels, 2: self.definition.filter_levels}.get(policy["policyType"])
        for resources in maps_of(policy):
            fault = self.definition.map_fault(resources)
            if fault:
                return fault
            if listed and not set(resources) <= set(listed):
                return "V5 (a level that the part doesn't list)"
        return None

    def other_fault(self, policy):
        for condition in policy.get("conditions", []):
            fault = condition_fault(self.definition, condition)
            if fault:
                return fault
        for schedule in policy.get("validitySchedules", []):
            fault = self.ground.clocks.schedule_fault(schedule)
            if fault:
                return fault
        if not self.ground.zone_lists(policy.get("zoneName", ""), self.service):
            return "V14 (the zone %s isn't there, or doesn't list the service)" % policy["zoneName"]
        return None if self.ground.is_alone(policy) else "V13 (another policy has the same resources)"

    def tell_schedules_and_letters(self, policy):
        for schedule in policy.get("validitySchedules", []):
            schedule.pop("recurrences", None)
            if not schedule.get("timeZone") and (schedule.get("startTime") or schedule.get("endTime")):
                self.tell(policy, "a schedule without a time zone counts in UTC here, and there in the plugin's own: give it by --time-zone", True)
        for resources in maps_of(policy):
            for value, excludes in self.definition.folds_more(resources):
                self.tell(policy, "the case of letters past ASCII counts here (%s)" % value, is_harming(policy) or excludes)

    # ---- items

    def drop_items_of_other_types(self, policy):
        """They count for nothing there, and break V7 here."""
        for name in ITEM_LISTS:
            if name not in OWN_LISTS[policy["policyType"]] and policy.get(name):
                self.tell(policy, "%s of a policy of type %d (V7)" % (name, policy["policyType"]), False)
                policy[name] = []
        if policy["policyType"] and policy.get("isDenyAllElse"):
            self.tell(policy, "isDenyAllElse of a policy of type %d (V7)" % policy["policyType"], False)
            policy["isDenyAllElse"] = False

    def drop_switched_off(self, policy):
        """Where the service has no denials and exceptions they can't be said to be off, so they go, and with exceptions what they except from."""
        if self.definition.denies:
            return
        for name in SWITCHED_LISTS:
            if policy.get(name):
                self.tell(policy, "%s, which the service turns off (enableDenyAndExceptionsInPolicies)" % name, name == "denyPolicyItems")
                if name == "allowExceptions" and policy.get("policyItems"):
                    self.tell(policy, "policyItems, since their exceptions can't be said", False)
                    policy["policyItems"] = []
                policy[name] = []
        if policy.get("isDenyAllElse"):
            self.told.note("%s: %s: isDenyAllElse denies here; the service turns denials off there" % (self.file, label(policy)))

    def trim(self, policy, name):
        """Leaves out of the list what can't be said, with allow items for their exceptions."""
        kept = []
        for number, item in enumerate(policy.get(name, [])):
            faults = self.trimmed(policy, item)
            for fault in faults:
                self.tell(policy, "%s/%d: %s" % (name, number, fault), name in HARMING_LISTS)
            if faults and name == "allowExceptions":
                if policy.get("policyItems"):
                    self.tell(policy, "policyItems, since an exception from them can't be said", False)
                policy["policyItems"] = policy[name] = []
                return
            if item["accesses"]:
                kept.append(item)
        policy[name] = kept

    def trimmed(self, policy, item):
        """What is wrong with the item. An item that can't stay has no accesses behind it."""
        faults, kept = [], []
        allowed = {0: [one["name"] for one in self.definition.access_types], 1: self.definition.mask_access,
                   2: self.definition.filter_access}[policy["policyType"]]
        for entry in item.get("accesses", []):
            if entry.get("type", "") in allowed:
                kept.append(entry)
            else:
                faults.append("V8 (there is no access type %s)" % entry.get("type", ""))
        if not item.get("accesses"):
            faults.append("V8 (no access)")
        faults += self.subject_faults(item)
        whole = [condition_fault(self.definition, condition) for condition in item.get("conditions", [])] + [self.mask_fault(policy, item)]
        if not any(item.get(key) for key in ("users", "groups", "roles")):
            whole.append("V10 (it names nobody%s)" % (" who is there" if faults else ""))
        faults += [fault for fault in whole if fault]
        item["accesses"] = [] if any(whole) else kept
        return faults

    def subject_faults(self, item):
        """Roles that aren't there hold nobody."""
        missing = [role for role in item.get("roles", []) if role not in self.ground.roles]
        item["roles"] = [role for role in item.get("roles", []) if role in self.ground.roles]
        macros = [name for key in ("users", "groups") for name in item.get(key, []) if "${{" in name]
        for key in ("users", "groups"):
            item[key] = [name for name in item.get(key, []) if "${{" not in name]
        return ["V10 (there is no role %s)" % role for role in missing] + ["%s is a macro" % name for name in macros]

    def mask_fault(self, policy, item):
        mask, text = item.get("dataMaskInfo", {}), item.get("rowFilterInfo", {}).get("filterExpr", "")
        if policy["policyType"] == 1:
            kind, expression = mask.get("dataMaskType", ""), mask.get("valueExpr", "")
            if kind not in self.definition.masks:
                return "V11 (there is no mask type %s)" % kind
            if kind == "CUSTOM" and not expression:
                return "V11 (CUSTOM without an expression)"
            if mask.pop("conditionExpr", ""):
                self.tell(policy, "a mask's conditionExpr: the mask stands always", False)
            return "the expression %s has a macro" % expression if "${{" in expression else None
        item.pop("dataMaskInfo", None)
        if policy["policyType"] == 2:
            return "V11 (no filter)" if not text else "the filter %s has a macro" % text if "${{" in text else None
        item.pop("rowFilterInfo", None)
        return None
