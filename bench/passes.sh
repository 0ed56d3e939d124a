#!/usr/bin/env bash
# Times decisions by 1, 2 and 4 passes, each on a thread of its own, while changes of one policy are published: none, 10 and up to
# 1,000 a second. The first line is the engine alone, on one thread. Prints decisions a second, what was published a second, and how
# many publications a pass decided by.
# usage: bench/passes.sh [POLICIES [ROUNDS]]    (5,000 policies; each pass decides a hundred requests ROUNDS times)
set -eu
. "$(dirname "$0")/built.sh"

POLICIES=${1:-5000}
ROUNDS=${2:-50}

for passes in 0 1 2 4; do
    for pause in 0 100 1; do
        if [ "$passes" -eq 0 ] && [ "$pause" -ne 0 ]; then continue; fi
        "$program" passes "$passes" "$POLICIES" "$ROUNDS" "$pause" | awk -F '[ =]' -v passes="$passes" -v pause="$pause" '
            /^decisions/ { decisions = $2; falling = $4 }
            /^microseconds/ { micros = $2; published = $4; serials = $6 }
            END {
                each = passes ? serials / passes : serials
                printf "passes=%d pause_ms=%d decisions=%.0f a second, published=%.1f a second, serials=%.1f a pass, falling=%d\n", passes, pause, decisions * 1000000 / micros, published * 1000000 / micros, each, falling
            }'
    done
done
