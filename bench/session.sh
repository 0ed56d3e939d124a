#!/usr/bin/env bash
# Times decisions through a link in memory: builds bench_figures, and asks for 10,000 decisions on a link.
# usage: bench/session.sh [POLICIES [LINKS]]    (1,000 policies and ten links; it prints decisions a second, without the time in
# which the policies are created and published; the best of three runs)
set -eu
. "$(dirname "$0")/built.sh"

POLICIES=${1:-1000}
LINKS=${2:-10}
MESSAGES=10000

# The least of the nanoseconds that three runs with so many links take.
best_of() {
    local best= start took
    for _ in 1 2 3; do
        start=$(date +%s%N)
        "$program" session "$POLICIES" "$1" "$MESSAGES" > /dev/null
        took=$(($(date +%s%N) - start))
        if [ -z "$best" ] || [ "$took" -lt "$best" ]; then best=$took; fi
    done
    echo "$best"
}

took=$(($(best_of "$LINKS") - $(best_of 0)))
awk -v policies="$POLICIES" -v n=$((LINKS * MESSAGES)) -v ns="$took" 'BEGIN { printf "policies=%d decisions=%.0f a second\n", policies, n * 1000000000 / ns }'
