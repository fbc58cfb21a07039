#!/bin/sh
# Runs a test of a crate once for each request for memory that it makes, which is refused, until a run in which none was. The test
# has to pass each time. It needs the crate's tests as 'rt test' or 'rt ci' built them, and cc.
#
#     sh scripts/fail-alloc.sh CRATE TEST [FIRST]
#
# TEST is a word of the test's name. FIRST is the first request that is refused, 1 by default. It prints how many were refused, and ends
# with 1 at the first run that fails.
set -eu
top=$(cd "$(dirname "$0")/.." && pwd)
program=$top/crates/$1/out/$1_tests
runner=$(dirname "$(readlink -f "$(command -v rt)")")/rattle-test
work=$(mktemp -d)
trap 'rm -rf "$work"' EXIT
trap 'exit 1' HUP INT TERM
cc -O2 -shared -fPIC -o "$work/refuse.so" "$top/scripts/fail-alloc.c"
number=${3:-1}
while :; do
  rm -f "$work/note"
  if ! FAIL_ALLOC=$number FAIL_ALLOC_NOTE=$work/note LD_PRELOAD=$work/refuse.so "$runner" --filter "$2" "$program" >"$work/said" 2>&1; then
    echo "request $number was refused, and then:"
    cat "$work/said"
    exit 1
  fi
  test -e "$work/note" || break
  number=$((number + 1))
done
grep '^test ' "$work/said"
echo "passed with each of $((number - ${3:-1})) requests refused"
