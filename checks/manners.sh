#!/usr/bin/env bash
# Looks at what bin/rangerd says besides what the program prints: help without a build, the address of `serve`, what is said after status 2,
# and the statuses, which are the program's own or 125. What it prints on standard output is compared with what the program prints. The same
# of the words of bin/rangerd-check, bin/rangerd-explain, bin/rangerd-test, bin/rangerd-view, bin/rangerd-plugin and bin/rangerd-kept.
# usage: checks/manners.sh [PROGRAM [EXPLAINER [TESTER [VIEWER [CHECKER]]]]]      (the built ones where not given)
set -u
cd "$(dirname "$0")/.." || exit 1
program=$(readlink -f "${1:-crates/rangerd/out/rangerd}")
explainer=$(readlink -m "${2:-crates/rangerd_explain/out/rangerd_explain}") tester=$(readlink -m "${3:-crates/rangerd_test/out/rangerd_test}")
viewer=$(readlink -m "${4:-crates/rangerd_view/out/rangerd_view}") checker=$(readlink -m "${5:-crates/rangerd_check/out/rangerd_check}")
room=$(mktemp -d)
trap 'rm -rf "$room"' EXIT
mkdir "$room/bin" && cp bin/rangerd bin/rangerd-check bin/rangerd-explain bin/rangerd-test bin/rangerd-view bin/rangerd-plugin bin/rangerd-kept "$room/bin" || exit 1
passed=0 failed=0

# What bin/built is here: it prints where the program lies, or isn't there and says so.
build_as() { printf '#!/bin/sh\n%s\n' "$1" > "$room/bin/built" && chmod +x "$room/bin/built"; }

judge() {
  if [ "$2" = "$3" ]; then
    passed=$((passed + 1))
  else
    failed=$((failed + 1))
    printf '%s: not as wanted: %s; wanted is %s\n' "$1" "$2" "$3"
  fi
}

# Runs bin/rangerd and the program with the same words and input; both are to print the same with the same status, and so much is said.
run_both() {
  local name=$1 input=$2 said=$3 ours theirs
  shift 3
  ours=$(printf '%s' "$input" | "$room/bin/rangerd" "$@" 2> "$room/said"; echo "status $?")
  theirs=$(printf '%s' "$input" | "$program" "$@" 2> /dev/null; echo "status $?")
  judge "$name" "$ours" "$theirs"
  judge "$name, said" "$(grep -c "$said" "$room/said")" 1
}

bad=$'decide {}\n'
build_as "exit 125"
run_both "help without a build" "" "replay  .*works a script" --help
run_both "version without a build" "" "^rangerd, commit " --version
"$room/bin/rangerd" replay < /dev/null > "$room/printed"
judge "not built" "$? $(wc -c < "$room/printed")" "125 0"

build_as "echo '$program'"
run_both "a bad line" "$bad" "bin/rangerd-check replay" replay
run_both "a bad configuration" "$bad" "bin/rangerd-check serve" serve 127.0.0.1:0 1
printf '# nothing\n' | "$room/bin/rangerd" replay > "$room/printed" 2> "$room/said"
judge "nothing to say" "$? $(cat "$room/printed" "$room/said")" "0 "

# Wrong words and scripts that can't be read end with 1, the first with the usage line and all with nothing printed.
script=examples/tests.script
run_wrong() {
  local name=$1 said=$2
  shift 2
  "$room/bin/$name" "$@" < "$script" > "$room/printed" 2> "$room/said"
  judge "$name $*" "$? $(wc -c < "$room/printed") $(grep -c "$said" "$room/said")" "1 0 1"
}
for words in --jsn --help -1 '1 2 3' "$script $script" '--json --all 1 2'"$script"' 3'; do
  # (unquoted: each is a word)
  run_wrong rangerd-explain "^usage: rangerd-explain " $words
done
for words in --json --help -1 "$script $script" "$script --junit"; do
  run_wrong rangerd-test "^usage: rangerd-test " $words
done
for words in '' 127.0.0.1:1 '127.0.0.1:1 hive1 root more'; do
  run_wrong rangerd-view "^usage: rangerd-view " $words
done
for words in '' '127.0.0.1:1 hive1 cache 127.0.0.1:0' '127.0.0.1:1 hive1 cache 127.0.0.1:0 1 audit more'; do
  run_wrong rangerd-plugin "^usage: rangerd-plugin " $words
done
for words in '' kept.db 'kept.db 127.0.0.1:0 audit more'; do
  run_wrong rangerd-kept "^usage: rangerd-kept " $words
done
for words in --help 'grants serve' "$script grants" "serve $script $script"; do
  run_wrong rangerd-check "^usage: rangerd-check " $words
done
run_wrong rangerd-explain "No such file" ./nowhere
run_wrong rangerd-check "No such file" keep ./nowhere
run_wrong rangerd-test "No such file" --junit ./nowhere

# Words and script reach the program.
reach() {
  local name=$1 ran=$2 ours theirs
  shift 2
  ours=$("$room/bin/$name" "$@" "$script"; echo "status $?")
  theirs=$("$ran" "$@" < "$script"; echo "status $?")
  judge "$name $* $script" "$ours" "$theirs"
  ours=$("$room/bin/$name" "$@" < "$script"; echo "status $?")
  judge "$name $*" "$ours" "$theirs"
}
build_as "echo '$explainer'"
for words in '' --json '--all 3' '2 --all --json'; do reach rangerd-explain "$explainer" $words; done
build_as "echo '$tester'"
for words in '' --junit; do reach rangerd-test "$tester" $words; done
build_as "echo '$checker'"
for words in '' replay grants report keep serve; do reach rangerd-check "$checker" $words; done
build_as "exit 125"
for name in rangerd-explain rangerd-test rangerd-check; do
  "$room/bin/$name" < /dev/null > "$room/printed" 2> /dev/null
  judge "$name isn't built" "$? $(wc -c < "$room/printed")" "125 0"
done
"$room/bin/rangerd-view" 127.0.0.1:1 hive1 > "$room/printed" 2> /dev/null
judge "rangerd-view isn't built" "$? $(wc -c < "$room/printed")" "125 0"
"$room/bin/rangerd-plugin" 127.0.0.1:1 hive1 "$room/cache" 127.0.0.1:0 1 > "$room/printed" 2> /dev/null
judge "rangerd-plugin isn't built" "$? $(wc -c < "$room/printed")" "125 0"
"$room/bin/rangerd-kept" "$room/kept.db" 127.0.0.1:0 < /dev/null > "$room/printed" 2> /dev/null
judge "rangerd-kept isn't built" "$? $(wc -c < "$room/printed")" "125 0"
build_as "echo '$program'"

# A service on a port that the system chooses is named once it listens, and ended by what ends bin/rangerd.
: > "$room/said"
grep '^config ' examples/hive.config | "$room/bin/rangerd" serve 127.0.0.1:0 1000000 > "$room/printed" 2> "$room/said" &
service=$!
for _ in {1..100}; do
  if [ -s "$room/said" ] || ! kill -0 "$service" 2> /dev/null; then break; fi
  sleep 0.1
done
said=$(sed 's/:[1-9][0-9]*$/:PORT/' "$room/said")
# What its plugin sees is printed while it runs, and nothing once it has ended.
view() { "$room/bin/rangerd-view" "127.0.0.1:$(sed 's/.*://' "$room/said")" hive1; }
build_as "echo '$viewer'"
seen=$(view; echo "status $?")
kill "$service" 2> /dev/null
wait "$service" 2> /dev/null
status=$?
if [ "$status" -eq 5 ]; then
  echo "listening: left out, since nothing can listen here"
else
  if [ -r /proc/self/net/tcp ]; then
    judge "listening" "$said" "listening on 127.0.0.1:PORT"
    judge "what a plugin sees" "${seen%% *} ${seen##*$'\n'}" "facts status 0"
    judge "what a plugin sees of nobody" "$(view; echo "status $?")" "status 5"
  fi
  judge "ended by TERM" "$status" 143
fi
echo "manners: $passed passed, $failed failed"
[ "$failed" -eq 0 ]
