#!/usr/bin/env bash
# What a call of a turn costs, by one thread alone and by four at once. Prints microseconds a call; the lowest of three runs counts.
set -eu
. "$(dirname "$0")/built.sh"

CALLS=500000

for threads in 1 4; do
    best=0
    for _ in 1 2 3; do
        start=$(date +%s%N)
        "$program" turn "$threads" "$CALLS" > /dev/null
        took=$((($(date +%s%N) - start) / 1000))
        if [ "$best" -eq 0 ] || [ "$took" -lt "$best" ]; then best=$took; fi
    done
    awk -v threads="$threads" -v took="$best" -v calls="$CALLS" 'BEGIN { printf "threads=%d call=%.2f\n", threads, took / (threads * calls) }'
done
