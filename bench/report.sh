#!/usr/bin/env bash
# Times `rangerd report`: POLICIES policies that name twice as many users, and one report over six accesses to one resource.
# usage: bench/report.sh [POLICIES]      (5000 where not given)
# Prints the rows, the seconds of a run with the report and of one without it (best of three each), and their difference.
set -eu
cd "$(dirname "$0")/.."
policies=${1:-5000}
folder=$(mktemp -d)
trap 'rm -rf "$folder"' EXIT
program=crates/rangerd/out/rangerd
python3 - "$policies" > "$folder/facts" <<'P'
import json, sys

policies = int(sys.argv[1])
accesses = ["select", "update", "create", "drop", "alter", "all"]
definition = {"name": "hive", "resources": [{"name": "db", "level": 10}], "accessTypes": [{"name": name} for name in accesses]}

def policy(n):
    return {"id": n, "name": "p", "resources": {"db": {"values": ["d%d" % (n % 500)]}},
            "policyItems": [{"users": ["u%d" % n, "v%d" % n], "accesses": [{"type": "select"}]}]}

facts = {"service": "hive1", "serviceDef": definition, "policies": [policy(n) for n in range(1, policies + 1)]}
print("facts " + json.dumps(facts, separators=(",", ":")))
P
{ cat "$folder/facts"; echo 'report {"resource":{"elements":{"db":"d7"}},"accessTime":0}'; } > "$folder/script"

best() {
  local least= start took
  for _ in 1 2 3; do
    start=$(date +%s%N)
    "$program" report < "$1" > "$2"
    took=$(( $(date +%s%N) - start ))
    if [ -z "$least" ] || [ "$took" -lt "$least" ]; then least=$took; fi
  done
  echo "$least"
}

whole=$(best "$folder/script" "$folder/rows")
facts=$(best "$folder/facts" "$folder/none")
echo "policies=$policies input=$(wc -c < "$folder/script") rows=$(wc -l < "$folder/rows") allowed=$(grep -c ALLOWED "$folder/rows" || true)"
awk -v a="$whole" -v b="$facts" 'BEGIN { printf "seconds=%.3f without=%.3f report=%.3f\n", a / 1e9, b / 1e9, (a - b) / 1e9 }'
