#!/usr/bin/env bash
# What single calls of an administration cost: the first rule that a creation breaks, a creation, an update and a deletion, each over
# POLICIES policies, a command read, a reply printed, a note in a log that is full, and a question to it.
# usage: bench/admin.sh [POLICIES [RUNS]]      (5,000 and seven where not given; it prints microseconds a call, the median of the runs)
set -eu
. "$(dirname "$0")/built.sh"

POLICIES=${1:-5000}
RUNS=${2:-7}

# The median of the nanoseconds that the runs take.
median() {
    local start
    for _ in $(seq "$RUNS"); do
        start=$(date +%s%N)
        "$program" admin "$@" > /dev/null
        echo $(($(date +%s%N) - start))
    done | sort -n | sed -n "$(((RUNS + 1) / 2))p"
}

while read -r work before count; do
    took=$(($(median "$work" "$before" "$count") - $(median "$work" "$before" 0)))
    awk -v work="$work" -v before="$before" -v count="$count" -v ns="$took" 'BEGIN { printf "%s over %d: %.3f\n", work, before, ns / count / 1000 }'
done <<CASES
fault $POLICIES 2000
create $POLICIES 1000
update $POLICIES 1000
delete $POLICIES 1000
read 0 20000
print 0 20000
note 1024 50000000
since 1024 20000000
CASES
