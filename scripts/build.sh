#!/bin/sh
# Proves a program of this repository with all crates that it stands on, crates side by side, builds it, and leaves it at bin/NAME.
#
#     sh scripts/build.sh [wbcache|wbnbd|wbmeta|wb_bench]
#
# wbcache where none is named. A program that was built from these very sources by this very kit is left as it is, and of its crates
# only those are proved that changed, or that stand on one that did. Where the proof or the build fails, the crate is named after the last
# lines of what it said, on standard error, the status is 1, and no program stands at bin/NAME. An interrupt ends all that was
# started; of a crate that was cut off nothing is kept. Progress goes to standard error; nothing is printed on standard output. JOBS=2 in
# the environment has two crates proved at once, whatever processors and memory there are.
set -eu
script=build.sh
program=${1:-wbcache}
top=$(cd "$(dirname "$0")/.." && pwd)
cd "$top"
. scripts/side-by-side.sh

# What a program is called with to see that it runs: it prints something, and ends with 0.
trial_of() {
  case $1 in
    wb_bench) echo 'settles 64 0' ;;
    *) echo '--version' ;;
  esac
}
case $program in
  wbcache | wbnbd | wbmeta | wb_bench) ;;
  *) fail "no program is named $program: wbcache, wbnbd, wbmeta or wb_bench" ;;
esac
test -n "$(lines_of "$program")" || fail "crates.txt has no line for $program"
look_at_machine 3000 5000
! is_built "$program" || exit 0

work_alone
rm -f "bin/$program" "bin/$program.sources"
# shellcheck disable=SC2034 # read where a crate fails
left_out="there is no bin/$program"
wanted=$(sum_of "$program")
prove "$program"
test -x "crates/$program/out/$program" || fail "rt left no program at crates/$program/out/$program"
test "$(sum_of "$program")" = "$wanted" || fail 'the sources changed while they were proved: call this again'
mkdir -p bin
cp "crates/$program/out/$program" "bin/$program"
echo "$wanted" >"bin/$program.sources"
