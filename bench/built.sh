# shellcheck shell=bash
# Builds crates/bench_figures where it isn't built, goes into its folder, and names the program: read by the scripts beside it with `.`.
cd "$(dirname "${BASH_SOURCE[0]}")/../crates/bench_figures"
rt run > /dev/null 2>&1 || { echo "bench_figures is not built: see rt run in its folder" >&2; exit 1; }
program=out/bench_figures
