#!/usr/bin/env bash
# What an edit of a trie, a walk over it and a count of what the walk gives cost, at three sizes. Prints microseconds; the lowest of three runs counts.
set -eu
. "$(dirname "$0")/built.sh"

ROUNDS=10000
WALKS=100000

# The lowest time of three runs with these arguments, in microseconds.
lowest() {
    local best=0 start took
    for _ in 1 2 3; do
        start=$(date +%s%N)
        "$program" trie "$@" > /dev/null
        took=$((($(date +%s%N) - start) / 1000))
        if [ "$best" -eq 0 ] || [ "$took" -lt "$best" ]; then best=$took; fi
    done
    echo "$best"
}

for pairs in 1000 10000 100000; do
    filled=$(lowest "$pairs" 0 0 0)
    edited=$(lowest "$pairs" "$ROUNDS" 0 0)
    walked=$(lowest "$pairs" 0 "$WALKS" 0)
    counted=$(lowest "$pairs" 0 0 "$WALKS")
    awk -v pairs="$pairs" -v filled="$filled" -v edited="$edited" -v walked="$walked" -v counted="$counted" -v rounds="$ROUNDS" -v walks="$WALKS" \
        'BEGIN { printf "pairs=%d insertion while filling=%.1f edit=%.1f walk=%.2f count=%.2f\n", pairs, filled / pairs, (edited - filled) / (2 * rounds), (walked - filled) / walks, (counted - filled) / walks }'
done
