#!/usr/bin/env bash
# Lists what of a crate's proof takes longest: proves the crate anew with one job, and tells for each part (a function's transitions are its
# Lts, what is proved of them its Proof) the seconds by the clock from the part before it to this one, and the bytes that it left.
# usage: checks/slow.sh CRATE [ROWS]      (the libraries below it are built first where they are missing)
set -eu
cd "$(dirname "$0")/../crates/$1"
rt lib > /dev/null 2>&1 || { echo "$1 isn't proved: see rt check in crates/$1" >&2; exit 1; }
mv out/incremental out/incremental.aside
trap 'rm -rf out/incremental; mv out/incremental.aside out/incremental' EXIT
rt check --jobs 1 > /dev/null
find out/incremental -name '*.oantt' -printf '%T@ %s %f\n' | sort -n |
  awk 'NR > 1 { printf "%6.1f s %9d bytes %s\n", $1 - before, $2, $3 } { before = $1 }' | sort -rn | sed -n "1,${2:-20}p"
