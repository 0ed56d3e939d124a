#!/usr/bin/env bash
# Tries the edits of code that the prover has to refuse: checks/wrong_bodies/CRATE/*.edit, and the gate's own in crates/CRATE/must-fail.
# usage: checks/wrong_bodies.sh [--jobs N] [CRATE..]    (every crate that has edits where none is named)
#        checks/wrong_bodies.sh --list                  (these crates, each with the number of its edits)
# A line tells of each edit, and the last line is 'N refused, N not refused, N bad'. The status is 1 where one isn't refused: the crate is still
# proved with it, it cannot be applied or read (bad), or it wasn't tried, as where the crate as it stands isn't proved.
# `rt ci` does the work, in a copy of the crates and of those that they stand on. A toolchain that keeps what it proved on this machine proves
# none of it again, and tries an edit again only once its crate or one below has changed. It tells of its progress on standard error. --jobs N
# makes N checks at a time, whatever memory is left; else processors and memory say how many.
set -u
shopt -s nullglob
cd "$(dirname "$0")/.." || exit 2

stop() {
  echo "wrong_bodies: $1" >&2
  exit 2
}

edits_of() {
  printf '%s\n' "checks/wrong_bodies/$1"/*.edit "crates/$1/must-fail"/*.edit | grep .
}

# The crates that have edits, in the order of crates.txt.
with_edits() {
  sed -n 's/^\([a-z0-9_]*\)[ :].*/\1/p' crates.txt | while read -r crate; do
    edits_of "$crate" > /dev/null && echo "$crate"
  done
}

# The lines of crates.txt that tell of these crates and of all that they stand on.
lines_of() {
  awk -v wanted="$*" '
    /^[a-z]/ { name = $1; sub(/:.*/, "", name); line[name] = $0; below[name] = $0; sub(/^[^:]*:/, "", below[name]) }
    END {
      count = split(wanted, todo)
      for (at = 1; at <= count; at++) {
        if (todo[at] in done || !(todo[at] in line)) continue
        done[todo[at]] = 1
        print line[todo[at]]
        more = split(below[todo[at]], next_ones)
        for (other = 1; other <= more; other++) todo[++count] = next_ones[other]
      }
    }' crates.txt
}

# Copies a crate without its edits and without what checks left in it.
copy_crate() {
  mkdir -p "$copy/crates/$1"
  for part in "crates/$1"/*; do
    case ${part##*/} in
      out | must-fail) ;;
      *) cp -r "$part" "$copy/crates/$1/" ;;
    esac
  done
}

give_edits() {
  local to=$copy/crates/$1/must-fail
  mkdir "$to"
  for edit in $(edits_of "$1"); do
    [ ! -e "$to/${edit##*/}" ] || stop "$1 has two edits ${edit##*/}"
    cp "$edit" "$to/"
    edits=$((edits + 1))
  done
}

crates=()
while [ $# -gt 0 ]; do
  case $1 in
    --list)
      with_edits | while read -r crate; do echo "$crate $(edits_of "$crate" | wc -l)"; done
      exit
      ;;
    --jobs)
      export RT_JOBS=${2:-}
      [[ $RT_JOBS =~ ^[1-9][0-9]*$ ]] || stop "--jobs takes a number"
      shift
      ;;
    *)
      edits_of "$1" > /dev/null || stop "there are no edits of $1"
      crates+=("$1")
      ;;
  esac
  shift
done
[ ${#crates[@]} -gt 0 ] || mapfile -t crates < <(with_edits)

# What rt makes for itself lies beside the copy, so that nothing is left however this ends.
running=
room=$(mktemp -d) || exit 2
trap 'kill $running 2> /dev/null; rm -rf "$room"' EXIT
trap 'exit 2' HUP INT TERM
copy=$room/copy edits=0 tried=0 refused=0 bad=0
mkdir "$copy" "$room/tmp"
lines_of "${crates[@]}" > "$copy/crates.txt"
cp HANDLES "$copy/"
while read -r crate _; do copy_crate "${crate%:}"; done < "$copy/crates.txt"
for crate in "${crates[@]}"; do give_edits "$crate"; done

exec 3< <(cd "$copy" && TMPDIR=$room/tmp exec rt ci 2>&1)
running=$!
while IFS= read -r line <&3; do
  told=${line#rt: must-fail }
  if [ "$told" = "$line" ]; then
    echo "$line" >&2
    continue
  fi
  echo "$told"
  tried=$((tried + 1))
  case ${told#*.edit: } in
    refused*) refused=$((refused + 1)) ;;
    "BAD EDIT"*) bad=$((bad + 1)) ;;
  esac
done
wait "$running"
ended=$? running=
[ "$tried" -eq "$edits" ] || echo "wrong_bodies: $((edits - tried)) edits were not tried: rt ended with status $ended" >&2
echo "$refused refused, $((edits - refused - bad)) not refused, $bad bad"
[ "$refused" -eq "$edits" ]
