#!/usr/bin/env bash
# Times matching and overlap tests: builds bench_figures and runs each case so many rounds.
# usage: bench/patterns.sh    (it prints nanoseconds for each round, start-up taken off)
set -eu
. "$(dirname "$0")/built.sh"

# The nanoseconds that one run takes.
time_of() {
    local start end
    start=$(date +%s%N)
    "$program" patterns "$1" "$2" >/dev/null
    end=$(date +%s%N)
    echo $((end - start))
}

while read -r name rounds; do
    best=
    for _ in 1 2 3 4 5; do
        took=$(($(time_of "$name" "$rounds") - $(time_of "$name" 0)))
        if [ -z "$best" ] || [ "$took" -lt "$best" ]; then best=$took; fi
    done
    echo "$name: $((best / rounds)) ns a round ($rounds rounds, best of 5)"
done <<CASES
worst 20000
nested 2000
typical 1000000
overlap 500000
CASES
