#!/usr/bin/env bash
# Times framing and printing in memory: builds bench_figures and runs each case.
# usage: bench/http.sh    (it prints messages or responses a second, start-up taken off; the best of five runs)
set -eu
. "$(dirname "$0")/built.sh"

# The nanoseconds that one run takes.
time_of() {
    local start end
    start=$(date +%s%N)
    "$program" http "$@" >/dev/null
    end=$(date +%s%N)
    echo $((end - start))
}

best_of() {
    local best= took
    for _ in 1 2 3 4 5; do
        took=$(time_of "$@")
        if [ -z "$best" ] || [ "$took" -lt "$best" ]; then best=$took; fi
    done
    echo "$best"
}

empty=$(best_of 0 4096 0)
while read -r name count messages piece responses; do
    took=$(($(best_of "$messages" "$piece" "$responses") - empty))
    awk -v n="$name" -v c="$count" -v ns="$took" 'BEGIN { printf "%s: %.0f a second\n", n, c * 1000000000 / ns }'
done <<'CASES'
messages-whole 100000 100000 4096 0
messages-by-64 50000 50000 64 0
messages-by-byte 10000 10000 1 0
responses 500000 0 4096 500000
CASES
