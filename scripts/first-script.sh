#!/bin/sh
# Makes three image files (10 origin blocks of 64 sectors, 4 cache blocks, 4 metadata sectors) in images/, formats the metadata, and runs
# a script that writes a sector and reads it back. It prints 'formatted 4 10', 'ok' and '0 11'.
#
# Where bin/wbcache is there, proved and built from these very sources, that program does it. Else they are compiled for this once, without
# any proof, which standard error says; no program is left then, since bin/ holds proved ones alone.
set -eu
script=first-script.sh
top=$(cd "$(dirname "$0")/.." && pwd)
cd "$top"
. scripts/side-by-side.sh

look_at_machine 2000 500
mkdir -p images
cd images
rm -f m.img c.img o.img
truncate -s 2048 m.img
truncate -s 131072 c.img
truncate -s 327680 o.img
cd ..
table='cache m.img c.img o.img 64 0 tinylfu 0'
lines='w 0 1 11\nr 0 1\n'
if is_built wbcache; then
  cd images
  ../bin/wbcache format "$table"
  # shellcheck disable=SC2059 # the lines are the format
  printf "$lines" | ../bin/wbcache run "$table"
  exit
fi

# rt runs the program in a folder of its own: so the files have whole names. Both calls are cases of one compilation, in the order of their
# names: a file that is standard input, and beside it the arguments, one a line.
work_in "$(mktemp -d)"
table="cache $top/images/m.img $top/images/c.img $top/images/o.img 64 0 tinylfu 0"
mkdir "$work/cases"
: >"$work/cases/1-format"
printf 'format\n%s\n' "$table" >"$work/cases/1-format.args"
# shellcheck disable=SC2059 # the lines are the format
printf "$lines" >"$work/cases/2-run"
printf 'run\n%s\n' "$table" >"$work/cases/2-run.args"
say "$script: compiling wbcache without a proof, a minute or two"
begun=$(date +%s)
# shellcheck disable=SC2016 # it is the text of a script
one_job compile sh -c 'cd crates/wbcache && exec rt try --cases "$1" >"$2"' compile "$work/cases" "$work/said" || {
  tail -n 30 "$work/compile.log" >&2
  fail 'wbcache was not compiled (see above)'
}
grep -v '^== ' "$work/said"
say 'compiled, not proved by this run'
# Machines differ by more than twice: the crates' seconds are of one where it took 53 s to compile, and the build 19 to 21 minutes on four processors.
slower=$(awk -v took="$(($(date +%s) - begun))" 'BEGIN { print took / 53 }')
say "sh scripts/build.sh proves and builds bin/wbcache, in $(how_long wbcache "$slower")"
status=$(sed -n 's/^case=.* status=\([0-9]*\) .*/\1/p' "$work/compile.log" | sort -n | tail -n 1)
exit "${status:-1}"
