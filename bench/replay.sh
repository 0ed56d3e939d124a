#!/usr/bin/env bash
# Times `rangerd replay`: a facts line of POLICIES policies and LINES decide lines.
# usage: bench/replay.sh [CASE] [POLICIES] [LINES]      (plain, 1000 and 100000 where not given)
# CASE is plain (one level, plain values), patterns (three levels with patterns), mix (patterns, groups, deny items,
# exceptions, priorities, conditions and schedules), zones (mix with 100 nested roles and ten zones), or all (zones with
# 50 tag rows, a tag policy for each ten policies, masks and row filters).
# Prints the sizes, decide lines per second (best of three runs) and the peak of resident memory.
# With the case `admin` the script is one of an administration: see bench/replay_admin.py.
set -eu
cd "$(dirname "$0")/.."
case=${1:-plain} policies=${2:-1000} lines=${3:-100000}
folder=$(mktemp -d)
trap 'rm -rf "$folder"' EXIT
bin/rangerd replay </dev/null
if [ "$case" = admin ]; then
  exec python3 bench/replay_admin.py crates/rangerd/out/rangerd "${@:2}"
fi

python3 - "$case" "$policies" "$lines" > "$folder/script" <<'P'
import json, sys

case, policies, lines = sys.argv[1], int(sys.argv[2]), int(sys.argv[3])
cases = ["plain", "patterns", "mix", "zones", "all"]
has = lambda least: cases.index(case) >= cases.index(least)
levels = [{"name": "database", "level": 10}]
if has("patterns"):
    levels += [{"name": "table", "level": 20, "parent": "database"}, {"name": "column", "level": 30, "parent": "table"}]
definition = {"name": "hive", "resources": levels, "accessTypes": [{"name": "select"}, {"name": "all", "impliedGrants": ["select"]}],
              "policyConditions": [{"name": "ip-range", "evaluator": "ip-range"}]}
listed = lambda *names: [{"name": name} for name in names]
masks = lambda access: {"maskTypes": [{"name": "MASK", "transformer": "mask({col})"}, {"name": "MASK_NONE"}], "accessTypes": listed(access)}
if has("all"):
    definition.update(dataMaskDef=masks("select"), rowFilterDef={"accessTypes": listed("select")})
tag_definition = {"name": "tag", "resources": listed("tag"), "accessTypes": listed("hive:select"),
                  "policyConditions": listed("accessed-after-expiry"), "dataMaskDef": masks("hive:select")}

def item(n, access="select", **more):
    return {"users": ["u%d" % (n % 100)], "accesses": [{"type": access}], **more}

# every fifth database lies in a zone of its own, and every other zone lists the tag service
def zone_name(n):
    return "z%d" % (n % 50) if n % 5 == 0 else ""

def zone(n):
    return {"name": zone_name(n), "services": {"hive1": {"resources": [{"database": ["db%d" % n]}]}}, "tagServices": ["tags1"] * (n % 2)}

# each role names the role ten before it
def role(n):
    return {"name": "r%d" % n, "users": ["u%d" % n], "roles": ["r%d" % (n - 10)] * (n >= 10)}

def tag_row(n):
    return {"id": n, "resourceElements": {"database": {"values": ["db%d" % n]}},
            "tags": [{"type": "k%d" % (n % 10), "attributes": {"expiry_date": "202%d/01/01" % (n % 10)}}, {"type": "seen"}]}

# of eight tag policies one masks, two deny what has expired, and five allow
def tag_policy(n):
    made = {"id": policies + n, "name": "t%d" % n, "service": "tags1", "resources": {"tag": {"values": ["k%d" % (n % 10)]}}}
    if n % 8 == 6:
        return {**made, "policyType": 1, "dataMaskPolicyItems": [item(n, "hive:select", dataMaskInfo={"dataMaskType": "MASK"})]}
    if n % 4 == 0:
        return {**made, "denyPolicyItems": [item(n, "hive:select", conditions=[{"type": "accessed-after-expiry", "values": ["yes"]}])]}
    return {**made, "policyItems": [item(n, "hive:select")]}

# of eight policies one masks, and one filters tables
def bound(made, n):
    given = {"groups": ["staff"], "accesses": [{"type": "select"}]}
    if n % 8 == 2:
        return {**made, "policyType": 1, "dataMaskPolicyItems": [{**given, "dataMaskInfo": {"dataMaskType": "MASK"}}]}
    del made["resources"]["column"]
    return {**made, "policyType": 2, "rowFilterPolicyItems": [{**given, "rowFilterInfo": {"filterExpr": "region = %d" % n}}]}

def policy(n):
    made = {"id": n, "name": "p%d" % n, "resources": {"database": {"values": ["db%d" % (n % 50)]}}}
    if has("patterns"):
        made["resources"]["table"] = {"values": ["t%d*" % (n % 20), "*_%d" % n]}
        made["resources"]["column"] = {"values": ["*"]}
    if has("zones"):
        made["zoneName"] = zone_name(n)
    if has("all") and n % 8 in (2, 4):
        return bound(made, n)
    made["policyItems"] = [item(n)]
    if has("zones"):
        made["policyItems"] += [{"roles": ["r%d" % (n * 7 % 100)], "accesses": [{"type": "select"}]}]
    if has("mix"):
        made["policyPriority"] = int(n % 16 == 0)
        made["policyItems"] += [{"groups": ["g%d" % (n % 10)], "accesses": [{"type": "all"}], "conditions": [{"type": "ip-range", "values": ["10.0.*"]}]}]
        if n % 4 == 0:
            made["denyPolicyItems"] = [item(n + 1)]
            made["denyExceptions"] = [{"groups": ["g%d" % (n % 7)], "accesses": [{"type": "select"}]}]
        if n % 5 == 0:
            made["validitySchedules"] = [{"startTime": "2024/01/01 00:00:00", "endTime": "2034/01/01 00:00:00", "timeZone": "UTC"}]
    return made

# every other request asks what a policy gives to another user
def request(n):
    about = n * 13 % 100
    elements = {"database": "db%d" % (about % 50)}
    if has("patterns"):
        elements.update(table="t%d_%d" % (about % 20, n % 1000), column="c")
    if has("all") and n % 4 == 0:
        del elements["column"]
    asked = {"user": "u%d" % (about + n % 2), "resource": {"elements": elements}, "accessType": "select", "accessTime": 1730000000}
    if has("mix"):
        asked.update(userGroups=["g%d" % (n % 10), "staff"], clientIPAddress="10.%d.0.7" % (n % 2))
    return asked

compact = lambda value: json.dumps(value, separators=(",", ":"))
facts = {"service": "hive1", "serviceDef": definition, "policies": [policy(n) for n in range(1, policies + 1)]}
if has("zones"):
    facts.update(roles=[role(n) for n in range(100)], zones=[zone(n) for n in range(0, 50, 5)])
if has("all"):
    facts.update(tagServiceDef=tag_definition, tagPolicies=[tag_policy(n) for n in range(1, policies // 10 + 1)],
                 resources=[tag_row(n) for n in range(50)])
print("facts " + compact(facts))
for n in range(1, lines + 1):
    print("decide " + compact(request(n)))
P

program=crates/rangerd/out/rangerd
best=
for _ in 1 2 3; do
  start=$(date +%s%N)
  "$program" replay < "$folder/script" > "$folder/out"
  took=$(( $(date +%s%N) - start ))
  if [ -z "$best" ] || [ "$took" -lt "$best" ]; then best=$took; fi
done
peak=$(python3 - "$program" "$folder/script" <<'P'
import resource, subprocess, sys
with open(sys.argv[2], "rb") as script:
    subprocess.run([sys.argv[1], "replay"], stdin=script, stdout=subprocess.DEVNULL, check=True)
print(resource.getrusage(resource.RUSAGE_CHILDREN).ru_maxrss)
P
)
echo "case=$case policies=$policies lines=$lines input=$(wc -c < "$folder/script") output=$(wc -c < "$folder/out") allowed=$(grep -c ALLOWED "$folder/out" || true)"
awk -v m="$lines" -v ns="$best" -v kb="$peak" 'BEGIN { printf "seconds=%.3f lines_per_second=%d peak_kib=%d\n", ns / 1e9, m * 1e9 / ns, kb }'
