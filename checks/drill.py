#!/usr/bin/env python3
"""What `rangerd drill SEED POLICIES REQUESTS` has to print, worked out once more from the documents: checks/drill.py SEED POLICIES REQUESTS."""
import sys

FACTOR, SUMMAND = 6364136223846793005, 1442695040888963407


class Draws:
    def __init__(self, seed):
        self.x = seed

    def __call__(self, k):
        self.x = (self.x * FACTOR + SUMMAND) % 2**64
        return self.x // 2**33 % k


def policy(draw, n):
    database, prefix, first, user, every, deny = f"db{draw(50)}", draw(4) == 0, draw(16) == 0, f"u{draw(100)}", draw(2) == 0, draw(8) == 0
    return {"id": n, "database": database, "table": f"t{n}", "prefix": prefix, "first": first, "user": user, "all": every, "deny": deny}


def request(draw, policies):
    user, database = f"u{draw(100)}", f"db{draw(50)}"
    return {"user": user, "database": database, "table": f"t{1 + draw(policies)}" if policies else "t1"}


def lies(p, r):
    table = r["table"].startswith(p["table"]) if p["prefix"] else r["table"] == p["table"]
    return p["database"] == r["database"] and table


def access(policies, r):
    """The first cell that isn't empty; each item is for select or for all accesses, so it grants the request's select."""
    given = [p for p in policies if lies(p, r) and p["user"] == r["user"]]
    for first in (True, False):
        for deny in (True, False):
            if any(p["first"] == first and p["deny"] == deny for p in given):
                return "denied" if deny else "allowed"
    return "denied"


def tries(policies, r):
    """How many values are filed under prefixes of the request's at the level that has fewest, the first of several; a column is `*`, filed
    under the empty text. Marks pass over those whose database the request's doesn't begin with: the definition's first two levels are
    database and url, and no request names a url."""
    databases = [p for p in policies if r["database"].startswith(p["database"])]
    tables = [p for p in policies if r["table"].startswith(p["table"])]
    fewest = min((databases, tables, policies), key=len)
    return sum(r["database"].startswith(p["database"]) for p in fewest)


def main(seed, n, m):
    draw = Draws(seed)
    policies = [policy(draw, k) for k in range(1, n + 1)]
    requests = [request(draw, n) for _ in range(m)]
    answers = [access(policies, r) for r in requests]
    asked = sum(tries(policies, r) for r in requests)
    print(f"policies={n} publications={1 + -(-n // 500)} compiles={n} edits={3 * n}")
    print(f"requests={m} allowed={answers.count('allowed')} denied={answers.count('denied')} undetermined=0 tries={asked}")


main(*map(int, sys.argv[1:4]))
