#!/usr/bin/env bash
# Times `rangerd drill`: the creations with their rules, the refreshes, and the decisions, beside decisions by hand.
# usage: bench/drill.sh [SEED] [POLICIES] [REQUESTS]      (7, 5000 and 100000 where not given)
# Prints the drill's own lines, the seconds without and with the requests (best of three), the decisions' share, the peak of
# resident memory, and, where there is a Rust compiler, the same decisions by a scan and by hash maps.
set -eu
cd "$(dirname "$0")/.."
seed=${1:-7} policies=${2:-5000} requests=${3:-100000}
folder=$(mktemp -d)
trap 'rm -rf "$folder"' EXIT
bin/rangerd drill "$seed" "$policies" "$requests"

python3 - "$seed" "$policies" "$requests" <<'P'
import os, subprocess, sys, time

seed, policies, requests = sys.argv[1:]


def run(requests):
    best, peak = None, 0
    for _ in range(3):
        begun = time.perf_counter()
        child = subprocess.Popen(["crates/rangerd/out/rangerd", "drill", seed, policies, requests], stdout=subprocess.DEVNULL)
        _, status, usage = os.wait4(child.pid, 0)
        assert status == 0
        took, peak = time.perf_counter() - begun, max(peak, usage.ru_maxrss)
        best = took if best is None else min(best, took)
    return best, peak


without, _ = run("0")
whole, peak = run(requests)
print(f"{policies} creations and their refreshes: {without:.3f} s")
print(f"{requests} decisions: {whole - without:.3f} s, {(whole - without) / max(int(requests), 1) * 1e6:.2f} microseconds each")
print(f"peak of memory: {peak / 1024:.0f} MB")
P
if command -v rustc > /dev/null; then
  rustc -O -o "$folder/by_hand" bench/by_hand.rs
  "$folder/by_hand" "$seed" "$policies" "$requests"
fi
