#!/usr/bin/env bash
# Times the reading of JSON: a script of many facts-sized lines can't stand, since a script has one facts line of at most
# 1 MiB, so it reads one line of policies of about that size, again and again in runs of their own, and a script of
# decide lines of about MEGABYTES. Compares with `python3 -m json.tool`, which reads and prints the same texts.
# usage: bench/json.sh [MEGABYTES]      (10 where not given)
set -eu
cd "$(dirname "$0")/.."
megabytes=${1:-10}
folder=$(mktemp -d)
trap 'rm -rf "$folder"' EXIT
bin/rangerd replay </dev/null

python3 - "$megabytes" "$folder" <<'P'
import json, sys

size, folder = int(sys.argv[1]) * 1000000, sys.argv[2]
compact = lambda value: json.dumps(value, separators=(",", ":"))
definition = {"name": "hive", "resources": [{"name": "database"}], "accessTypes": [{"name": "select"}]}
policies = []
length = 200
while True:
    n = len(policies) + 1
    policy = {"id": n, "guid": "g%d" % n, "name": "policy %d" % n, "resources": {"database": {"values": ["db%d" % n]}},
              "policyItems": [{"users": ["ann", "bob"], "groups": ["staff"], "accesses": [{"type": "select", "isAllowed": True}]}]}
    length += len(compact(policy)) + 1
    if length > 1000000:
        break
    policies.append(policy)
facts = compact({"service": "hive1", "serviceDef": definition, "policies": policies})
open(folder + "/facts.json", "w").write(facts)
open(folder + "/facts.script", "w").write("facts " + facts + "\n")
small = compact({"service": "hive1", "serviceDef": definition, "policies": []})
request = {"user": "ann", "userGroups": ["staff"], "resource": {"elements": {"database": "db1"}, "ownerUser": "bob"},
           "accessType": "select", "accessTime": 0, "context": {"padding": "x" * 1000}}
line = compact(request)
count = size // (len(line) + 8)
with open(folder + "/decide.script", "w") as script, open(folder + "/decide.json", "w") as plain:
    script.write("facts " + small + "\n")
    plain.write("[" + ",".join([line] * count) + "]")
    for _ in range(count):
        script.write("decide " + line + "\n")
P

program=crates/rangerd/out/rangerd
# the best of five runs, in MB a second
rate() {
  local bytes best= start took
  bytes=$(wc -c < "$1"); shift
  for _ in 1 2 3 4 5; do
    start=$(date +%s%N)
    "$@" > /dev/null
    took=$(( $(date +%s%N) - start ))
    if [ -z "$best" ] || [ "$took" -lt "$best" ]; then best=$took; fi
  done
  awk -v b="$bytes" -v ns="$best" 'BEGIN { printf "%.1f", b * 1000 / ns }'
}
replay() { "$program" replay < "$1"; }
tool() { python3 -m json.tool --compact "$1"; }
echo "facts of 1 MB, read, judged and built: rangerd $(rate "$folder/facts.script" replay "$folder/facts.script") MB/s, json.tool $(rate "$folder/facts.json" tool "$folder/facts.json") MB/s"
echo "$megabytes MB of decide lines, read and decided: rangerd $(rate "$folder/decide.script" replay "$folder/decide.script") MB/s, json.tool $(rate "$folder/decide.json" tool "$folder/decide.json") MB/s"
