#!/usr/bin/env bash
# Runs rangerd, and rangerd-explain and rangerd-test where they are built, over made-up scripts, and compares each line with the rules written
# once more, in Python: scripts of facts, of an administration, with grants, and of kept administrations; explanations and tests. Prints the
# seed and a line for each kind. Where scripts differ it prints the difference and ends with status 1. Where there is no Python it compares
# nothing.
# usage: checks/quick.sh [SEED [PROGRAM [EXPLAINER [TESTER]]]]      (the day, as 20240131, and the built programs where not given)
set -u
cd "$(dirname "$0")/.." || exit 1
seed=${1:-$(date -u +%Y%m%d)} program=${2:-crates/rangerd/out/rangerd} failed=0
explainer=${3:-crates/rangerd_explain/out/rangerd_explain} tester=${4:-crates/rangerd_test/out/rangerd_test}
command -v python3 > /dev/null || { echo "made-up scripts: none is compared, since there is no python3"; exit 0; }
echo "made-up scripts of seed $seed:"

# Prints the first line of what a comparison says, or all of it where it fails. A program that hangs is ended after five minutes.
compare() {
  local kind=$1 said
  shift
  if said=$(timeout 300 python3 "$@" 2>&1); then
    echo "$kind: ${said%%$'\n'*}"
  else
    printf '%s: not as wanted, or not done in five minutes\n%s\n' "$kind" "$said"
    failed=1
  fi
}

# The same with a program that not every build has.
compare_built() {
  local kind=$1 built=$2
  shift 2
  if [ -x "$built" ]; then compare "$kind" "$@" --program "$built"; else echo "$kind: left out, since $built isn't built"; fi
}

compare facts checks/compare.py "$seed" 200 --program "$program"
compare administration checks/compare_admin.py "$program" 60 --seed "$seed"
compare grants checks/compare_admin.py "$program" 60 --seed "$seed" --grants
compare keep checks/compare_admin.py "$program" 60 --seed "$seed" --keep
compare "rules together" checks/pairs.py "$program"
compare_built explanations "$explainer" checks/compare_explained.py "$seed" 60
compare_built tests "$tester" checks/compare_tests.py "$seed" 60
exit "$failed"
