#!/usr/bin/env bash
# Works each script of examples/: grants.script by `grants`, report.script by `report`, keep.script by `keep`, tests.script by rangerd-test,
# and the others by `replay`; and compares what is printed with the file beside it, byte for byte. A script beside which NAME.explained
# stands is explained too, and tests.xml is what rangerd-test prints as JUnit. Each script is the one that tools/script.py makes of the
# source beside it; where there is no Python this isn't looked at.
# usage: checks/examples.sh [PROGRAM [EXPLAINER [TESTER]]]      (the built rangerd, rangerd-explain and rangerd-test where not given)
# What is wanted was worked out from the rules by checks/admin_model.py, checks/grants_model.py, checks/report_model.py, checks/explaining.py
# and checks/testing.py, and not taken from the program.
set -u
cd "$(dirname "$0")/.." || exit 1
program=${1:-crates/rangerd/out/rangerd}
explainer=${2:-crates/rangerd_explain/out/rangerd_explain}
tester=${3:-crates/rangerd_test/out/rangerd_test}
passed=0 failed=0
told() {
  echo "$1"
  failed=$((failed + 1))
}

# Compares what the words behind the script and the file make of it with the file. (A program that isn't built prints nothing.)
compare() {
  local script=$1 wanted=$2
  shift 2
  if "$@" < "$script" | cmp - "$wanted"; then
    passed=$((passed + 1))
  else
    told "$wanted: not as wanted"
  fi
}

for script in examples/*.script; do
  name=${script%.script}
  if command -v python3 > /dev/null && ! tools/script.py pack < "$name.source" | cmp - "$script"; then
    told "$script: not what tools/script.py makes of $name.source"
    continue
  fi
  case $script in
    */grants.script) compare "$script" "$name.out" "$program" grants ;;
    */report.script) compare "$script" "$name.out" "$program" report ;;
    */keep.script) compare "$script" "$name.out" "$program" keep ;;
    */tests.script)
      compare "$script" "$name.out" "$tester"
      compare "$script" "$name.xml" "$tester" --junit
      ;;
    *) compare "$script" "$name.out" "$program" replay ;;
  esac
  if [ -e "$name.explained" ]; then compare "$script" "$name.explained" "$explainer"; fi
done
echo "examples: $passed passed, $failed failed"
[ "$failed" -eq 0 ]
