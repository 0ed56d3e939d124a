#!/usr/bin/env bash
# What an engine costs over the drill's workload, with the figures of one that asks every policy beside it: a decision, the build, the
# engine after the change of one policy, and the memory. Prints microseconds; the lowest of three runs counts.
# usage: bench/engine.sh [POLICIES]..      (1,000 and 5,000 where not given)
set -eu
. "$(dirname "$0")/built.sh"
[ $# -gt 0 ] || set -- 1000 5000

REQUESTS=1000

# The lowest time of three runs with these arguments, in nanoseconds.
lowest() {
    local best=0 start took
    for _ in 1 2 3; do
        start=$(date +%s%N)
        "$program" engine "$@" > /dev/null
        took=$(($(date +%s%N) - start))
        if [ "$best" -eq 0 ] || [ "$took" -lt "$best" ]; then best=$took; fi
    done
    echo "$best"
}

# The nanoseconds that such a work takes once, done so often.
each() {
    echo $((($(lowest "$1" "$2" "$3") - $(lowest "$1" "$2" 0)) / $3))
}

# The peak of resident memory of a run, in bytes.
peak() {
    python3 - "$program" engine "$@" <<'P'
import os, sys
child = os.fork()
if child == 0:
    os.dup2(os.open(os.devnull, os.O_WRONLY), 1)
    os.execv(sys.argv[1], sys.argv[1:])
print(os.wait4(child, 0)[2].ru_maxrss * 1024)
P
}

for policies in "$@"; do
    verdict=$(each verdict "$policies" 1000)
    scan=$(each scan "$policies" 10)
    build=$(($(each build "$policies" 20) - $(each copy "$policies" 20)))
    apply=$(each apply "$policies" 2000)
    facts=$(($(peak copy "$policies" 0) - $(peak copy 0 0)))
    whole=$(($(peak verdict "$policies" 0) - $(peak verdict 0 0)))
    awk -v policies="$policies" -v verdict="$verdict" -v scan="$scan" -v build="$build" -v apply="$apply" -v facts="$facts" -v whole="$whole" -v requests="$REQUESTS" \
        'BEGIN { printf "policies=%d decision=%.3f asking_all=%.1f build=%.0f apply=%.1f bytes_a_policy=%.0f of_them_facts=%.0f\n", policies, verdict / requests / 1000, scan / requests / 1000, build / 1000, apply / 1000, whole / policies, facts / policies }'
done
