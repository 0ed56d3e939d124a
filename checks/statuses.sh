#!/usr/bin/env bash
# Runs the built rangerd over the table of crates/test_scripts, which runs the same scripts over ports in memory, and compares the status
# and what is printed, byte for byte. So its real main, streams, clock and keeper are seen with statuses other than 0 too. A row in which
# a read or a write fails, or an enricher adds a pair, is left out. Then rangerd-explain and rangerd-test with words and scripts of a line
# or two each: of these the status is compared, and of a test how many passed and failed.
# usage: checks/statuses.sh [PROGRAM [EXPLAINER [TESTER]]]      (the built ones where not given)
set -u
cd "$(dirname "$0")/.." || exit 1
program=${1:-crates/rangerd/out/rangerd}
explainer=${2:-crates/rangerd_explain/out/rangerd_explain} tester=${3:-crates/rangerd_test/out/rangerd_test}
table=crates/test_scripts/stdin data=crates/test_scripts/data
script=$(mktemp) output=$(mktemp) printed=$(mktemp)
trap 'rm -f "$script" "$output" "$printed"' EXIT
passed=0 failed=0

# Puts the file there, or nothing where there is no such file.
take() { if [ -e "$1" ]; then cat "$1"; fi > "$2"; }

# Runs the row of this name, which is to end with this status; the other arguments are its words.
run_row() {
  local name=$1 wanted=$2 word command=() status
  shift 2
  take "$data/$name.script" "$script"
  for word in "$@"; do
    case $word in
      read=* | write=* | pair=*) return ;;
      audit=*) ;;
      script=*) take "$data/${word#*=}.script" "$script" ;;
      hashes=*) head -c "${word#*=}" /dev/zero | tr '\0' '#' > "$script" ;;
      *) command+=("$word") ;;
    esac
  done
  take "$data/$name.output" "$output"
  "$program" ${command[@]+"${command[@]}"} < "$script" > "$printed"
  status=$?
  if [ "$status" -eq "$wanted" ] && cmp "$output" "$printed"; then
    passed=$((passed + 1))
  else
    echo "$name: not as wanted; its status is $status, and $wanted is wanted"
    failed=$((failed + 1))
  fi
}

while IFS= read -r line; do
  case $line in '' | '#'*) continue ;; esac
  read -ra row <<< "$line"
  run_row "${row[@]}"
done < "$table"

# Runs a program over the script with the other arguments as its words: it is to end with this status, and where a line is wanted that is to
# be the last one. With status 1 nothing is printed.
end_as() {
  local name=$1 wanted=$2 last=$3 input=$4 status
  shift 4
  printf '%s' "$input" | "$@" > "$printed" 2> /dev/null
  status=$?
  if [ "$wanted" -eq 1 ] && [ -s "$printed" ]; then status="1 with something printed"; fi
  if [ "$status" = "$wanted" ] && { [ -z "$last" ] || [ "$(tail -n 1 "$printed")" = "$last" ]; }; then
    passed=$((passed + 1))
  else
    echo "$name: not as wanted; its status is $status, and $wanted is wanted${last:+ with the last line $last}"
    failed=$((failed + 1))
  fi
}

facts=$'facts {"service":"s","serviceDef":{"name":"d","resources":[{"name":"r"}],"accessTypes":[{"name":"a"}]}}\n'
asked=$facts$'decide {"user":"u","resource":{"elements":{"r":"x"}},"accessType":"a","accessTime":0}\n'
for words in --jsn --junit --help help x 0 01 -1 +1 4294967296 '1 2' '1 x' '--json x' '--json --json' '--all 1 --all'; do
  # (unquoted: each is a word)
  end_as "rangerd-explain $words" 1 "" "$asked" "$explainer" $words
done
end_as "nothing to explain" 0 "" "" "$explainer"
end_as "explained" 0 "" "$asked" "$explainer"
end_as "explained with all words" 0 "" "$asked" "$explainer" --json --all 1
end_as "explained with all words in another order" 0 "" "$asked" "$explainer" 4294967295 --all --json
end_as "no such decision" 0 "" "$asked" "$explainer" 2
end_as "a bad line" 2 "bad line 3" "$asked"$'refresh\n' "$explainer" --all
for words in --json --all --help help x 1 '--junit x' '--junit --junit'; do
  end_as "rangerd-test $words" 1 "" "$asked" "$tester" $words
done
end_as "no test" 2 "0 passed, 0 failed" "$asked" "$tester"
end_as "no line" 2 "0 passed, 0 failed" "" "$tester"
end_as "no test in JUnit" 2 "</testsuite>" "$asked" "$tester" --junit
end_as "a test that passes" 0 "1 passed, 0 failed" "$asked"$'# expect DENIED -1\n' "$tester"
end_as "a test that fails" 2 "1 passed, 1 failed" "$asked"$'# expect DENIED -1\n# expect ALLOWED\n' "$tester"
end_as "a test that fails in JUnit" 2 "</testsuite>" "$asked"$'# expect ALLOWED\n' "$tester" --junit
end_as "an expectation of no form" 2 "1 passed, 0 failed" "$asked"$'# expect DENIED\n# expect denied\n' "$tester"
end_as "an expectation behind nothing" 2 "0 passed, 0 failed" "$facts"$'# expect DENIED\n' "$tester"
end_as "a line that is too long" 6 "too long" "$(head -c 1048577 /dev/zero | tr '\0' '#')" "$tester" --junit
echo "statuses: $passed passed, $failed failed"
[ "$failed" -eq 0 ]
