"""Service definitions: what is taken of them, and the rules that look at them."""

import re

from conversion.told import Bad

MATCHERS = ("RangerDefaultResourceMatcher", "RangerPathResourceMatcher", "RangerURLResourceMatcher")
RECURSIVE_MATCHERS = MATCHERS[1:]
MOST_LEVELS, MOST_ACCESS_TYPES, MOST_ROWS = 16, 1024, 64
KNOWN_OPTIONS = {"enableDenyAndExceptionsInPolicies", "enableImplicitConditionExpression", "enableTagBasedPolicies", "ui.pages"}
KINDS_OF_CONDITIONS = ("accessed-after-expiry", "ip-range", "context-value-in", "context-value-not-in")
ANYTHING, ONE = object(), object()


def is_name(text):
    return 1 <= len(text) <= 256


def folded(text):
    """ASCII alone."""
    return "".join(c.lower() if "A" <= c <= "Z" else c for c in text)


class Level:
    """A level, and what of its matcher can't be said here."""

    def __init__(self, row):
        self.name, self.parent, self.number = row.get("name", ""), row.get("parent", ""), row.get("level", 0)
        self.mandatory, self.recursive, self.excludes = (row.get(key, False) for key in ("mandatory", "recursiveSupported", "excludesSupported"))
        options = row.get("matcherOptions", {})
        self.wild, self.fold = options.get("wildCard", True), options.get("ignoreCase", True)
        self.separator, self.tokens = options.get("pathSeparatorChar", "/") or "/", options.get("replaceTokens", True)
        self.start, self.end = options.get("tokenDelimiterStart", "{"), options.get("tokenDelimiterEnd", "}")
        self.prefix, self.escape = options.get("tokenDelimiterPrefix", ""), options.get("tokenDelimiterEscape", "\\")
        self.quotes = (options.get("quoteChars") or "\"'") if options.get("quotedCaseSensitive") else ""
        self.matcher = row.get("matcher", "").rpartition(".")[2]

    def row(self):
        """As it is written here."""
        return {"name": self.name, "level": self.number, "parent": self.parent, "mandatory": self.mandatory, "recursiveSupported": self.recursive,
                "excludesSupported": self.excludes, "matcherOptions": {"wildCard": self.wild, "ignoreCase": self.fold}}

    def unsaid(self, value, recursive):
        """Why this value means another thing there, None where it doesn't."""
        if self.matcher and self.matcher not in MATCHERS:
            return "the matcher %s of level %s isn't there" % (self.matcher, self.name)
        if recursive and self.separator != "/":
            return 'level %s separates by "%s" and not by "/", which recursion goes by' % (self.name, self.separator)
        if recursive and self.matcher and self.matcher not in RECURSIVE_MATCHERS:
            return "the matcher %s of level %s knows no recursion" % (self.matcher, self.name)
        if value[:1] and value[:1] in self.quotes:
            return "level %s compares quoted values with case" % self.name
        return self.unsaid_macro(value)

    def unsaid_macro(self, value):
        if "${{" in value:
            return "the value %s has a macro" % value
        plain = self.tokens and (self.start, self.end, self.prefix) == ("{", "}", "")
        if "{USER}" in value and (not plain or self.escape and self.escape + "{USER}" in value):
            return "the value %s is taken to the letter there" % value
        own = re.escape(self.start + self.prefix) + r"[A-Za-z_][A-Za-z0-9_.-]*" + re.escape(self.end)
        if self.tokens and self.start and any(found != "{USER}" for found in re.findall(own, value)):
            return "the value %s has a macro" % value
        return None

    def folds_more(self, value):
        """Whether the value has letters that fold there and not here."""
        return self.fold and any(ord(c) > 127 and (c.lower() != c or c.upper() != c) for c in value)

    def atoms(self, text, recursive):
        """A pattern, or its twin."""
        read = [ANYTHING if self.wild and c == "*" else ONE if self.wild and c == "?" else c for c in (folded(text) if self.fold else text)]
        return read + ([] if text.endswith("/") else ["/"]) + [ANYTHING] if recursive else read

    def patterns(self, values):
        """Of a zone, which is recursive where the level supports it."""
        return [self.atoms(value, twin) for value in values for twin in ([False, True] if self.recursive else [False])]


def meet(one, other):
    """Whether some text is stood for by both patterns."""
    seen, waiting = set(), [(0, 0)]
    while waiting:
        i, j = place = waiting.pop()
        if place in seen:
            continue
        seen.add(place)
        if place == (len(one), len(other)):
            return True
        left, right = one[i] if i < len(one) else None, other[j] if j < len(other) else None
        if left is ANYTHING or right is ANYTHING:
            waiting += ([(i + 1, j)] if left is not None else []) + ([(i, j + 1)] if right is not None else [])
        elif left is not None and right is not None and (left is ONE or right is ONE or left == right):
            waiting.append((i + 1, j + 1))
    return False


class Definition:
    """A definition of one file. Raises Bad where a rule fails that no part can be left out for."""

    def __init__(self, row, file, told, is_tag=False):
        self.row, self.file, self.told, self.is_tag = row, file, told, is_tag
        self.name = row.get("name", "")
        self.levels = {level.name: level for level in map(Level, row.get("resources", []))}
        self.access_types = [{"name": one.get("name", ""), "impliedGrants": one.get("impliedGrants", [])} for one in row.get("accessTypes", [])]
        self.refuse_what_breaks_a_rule()
        parents = {level.parent for level in self.levels.values()}
        self.paths = [{name, *self.above(name)} for name in self.levels if name not in parents]
        self.conditions = self.taken_conditions()
        self.implied_grants_exist()
        self.masks = {one["name"]: one for one in self.part("dataMaskDef").get("maskTypes", [])[:MOST_ROWS] if one.get("name")}
        self.mask_access, self.mask_levels = self.names_of_part("dataMaskDef")
        self.filter_access, self.filter_levels = self.names_of_part("rowFilterDef")
        self.denies = self.taken_options()
        self.tell_enrichers_and_levels()

    def refuse_what_breaks_a_rule(self):
        levels, accesses = [one.get("name", "") for one in self.row.get("resources", [])], [one["name"] for one in self.access_types]
        broken = [
            ("S1", is_name(self.name)),
            ("S2", 1 <= len(levels) <= MOST_LEVELS and len(set(levels)) == len(levels) and all(map(is_name, levels))),
            ("S3", all(not it.parent or (it.parent in self.levels and self.levels[it.parent].number < it.number) for it in self.levels.values())),
            ("S4", 1 <= len(accesses) <= MOST_ACCESS_TYPES and len(set(accesses)) == len(accesses) and all(map(is_name, accesses))),
            ("C6: a tag service has no plugin", self.is_tag or self.name != "tag"),
            ("S8", not self.is_tag or self.name == "tag" and levels == ["tag"]),
        ]
        for rule, passes in broken:
            if not passes:
                raise Bad("%s: the service definition %s breaks %s" % (self.file, self.name, rule))

    def part(self, key):
        return self.row.get(key, {})

    def names_of_part(self, key):
        """Those of the definition; the others break S7."""
        kept = []
        for kind, there in (("accessTypes", {one["name"] for one in self.access_types}), ("resources", set(self.levels))):
            names = [one.get("name", "") for one in self.part(key).get(kind, [])]
            for name in names:
                if name not in there:
                    self.told.left_out("%s: %s of the definition %s: %s isn't one of its %s (S7)" % (self.file, key, self.name, name, kind))
            kept.append([name for name in names if name in there])
        return kept

    def taken_conditions(self):
        kept = {}
        for one in self.row.get("policyConditions", []):
            name = one.get("name", "")
            if not name or name in kept or len(kept) == MOST_ROWS:
                self.told.left_out("%s: the condition %s of the definition %s (S6)" % (self.file, name, self.name))
            else:
                options = {key: value for key, value in one.get("evaluatorOptions", {}).items() if isinstance(value, str)}
                kept[name] = {"name": name, "evaluator": one.get("evaluator", ""), "evaluatorOptions": options}
        return kept

    def implied_grants_exist(self):
        there = {one["name"] for one in self.access_types}
        for one in self.access_types:
            for grant in one["impliedGrants"]:
                if grant not in there:
                    self.told.left_out("%s: %s implies %s, which is no access type (S5)" % (self.file, one["name"], grant))
            one["impliedGrants"] = [grant for grant in one["impliedGrants"] if grant in there]

    def taken_options(self):
        """Whether denials and exceptions count."""
        options = self.row.get("options", {})
        for key in options:
            if key not in KNOWN_OPTIONS:
                self.told.unknown_key(self.file, "service definition's options", key, "/options")
        return str(options.get("enableDenyAndExceptionsInPolicies", "true")).strip().lower() == "true"

    def tell_enrichers_and_levels(self):
        for one in self.row.get("contextEnrichers", []):
            if not one.get("enricher", "").endswith("TagEnricher"):
                self.told.left_out("%s: the context enricher %s: what it adds has to come with a request" % (self.file, one.get("name", "")))
        for level in self.levels.values():
            if level.separator != "/":
                self.told.note('%s: level %s separates by "%s": what is recursive there can\'t be said here' % (self.file, level.name, level.separator))

    def written(self):
        return {"name": self.name, "resources": [level.row() for level in self.levels.values()], "accessTypes": self.access_types,
                "policyConditions": list(self.conditions.values()),
                "dataMaskDef": {"maskTypes": [{"name": one["name"], "transformer": one.get("transformer", "")} for one in self.masks.values()],
                                "accessTypes": named(self.mask_access), "resources": named(self.mask_levels)},
                "rowFilterDef": {"accessTypes": named(self.filter_access), "resources": named(self.filter_levels)}}

    # ---- levels

    def above(self, name):
        """The levels above, the nearest first."""
        found, level = [], self.levels[name]
        while level.parent:
            found.append(level.parent)
            level = self.levels[level.parent]
        return found

    def levels_fault(self, names, mandatory=True):
        """V5 of one map."""
        if not names:
            return "V5 (no level)"
        missing = [name for name in names if name not in self.levels]
        if missing:
            return "V5 (there is no level %s)" % missing[0]
        if not any(set(names) <= path for path in self.paths):
            return "V5 (the levels lie on no one path)"
        needed = {above for name in names for above in self.above(name) if self.levels[above].mandatory} if mandatory else set()
        return "V5 (the level %s isn't named)" % min(needed - set(names)) if needed - set(names) else None

    def map_fault(self, resources, mandatory=True, plain=False):
        """V5 and V6, or what can't be said. A plain map is of no user."""
        fault = self.levels_fault(list(resources), mandatory)
        if fault:
            return fault
        for name, one in resources.items():
            level, values = self.levels[name], one.get("values", [])
            if not values or not all(map(is_name, values)):
                return "V6 (level %s: %s)" % (name, "no value" if not values else "a value that is empty or has more than 256 characters")
            if one.get("isExcludes") and not level.excludes or one.get("isRecursive") and not level.recursive:
                return "V6 (level %s doesn't support it)" % name
            if plain and any("{USER}" in value for value in values):
                return "{USER} in level %s" % name
            unsaid = next(filter(None, (level.unsaid(value, one.get("isRecursive", False)) for value in values)), None)
            if unsaid:
                return unsaid
        return None

    def folds_more(self, resources):
        """The values whose letters fold there and not here, and whether their level excludes."""
        return [(value, one.get("isExcludes", False)) for name, one in resources.items() if name in self.levels
                for value in one.get("values", []) if self.levels[name].folds_more(value)]

    def overlap(self, one, other):
        """Whether a resource lies in both maps of zones: as deep as both can be asked, with `*` in what can't be asked."""
        return any(here & there and self.meet_on(one, other, here & there)
                   for here in self.paths if set(one) <= here for there in self.paths if set(other) <= there)

    def meet_on(self, one, other, asked):
        for name in set(one) | set(other):
            if name not in asked:
                if "*" not in {**one, **other}[name]:
                    return False
            elif name in one and name in other:
                level = self.levels[name]
                if not any(meet(a, b) for a in level.patterns(one[name]) for b in level.patterns(other[name])):
                    return False
        return True


def named(names):
    return [{"name": name} for name in names]
