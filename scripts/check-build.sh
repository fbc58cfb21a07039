#!/bin/sh
# The scripts that prove, build and try wrong bodies, over a tree of dummy crates and a stand-in for rt that proves nothing. It prints what
# failed, and at the end 'N passed, N failed'; its status is 0 where nothing failed.
set -u
top=$(cd "$(dirname "$0")/.." && pwd)
. "$top/scripts/checks.sh"
work=$(mktemp -d)
trap 'rm -rf "$work"' EXIT
tree=$work/tree
mkdir -p "$tree/scripts" "$work/bin" "$work/holds"
for name in build.sh first-script.sh bugs.sh side-by-side.sh; do cp "$top/scripts/$name" "$tree/scripts/"; done
cat >"$tree/crates.txt" <<'CRATES'
# three crates on one, of which one takes long
low:
left: low
right: low
long: low
wbcache: left right long
wb_bench: low
CRATES
printf 'low 1\nleft 6\nright 4\nlong 20\nwbcache 5\n' >"$tree/scripts/crate-seconds.txt"
for name in low left right long; do
  mkdir -p "$tree/crates/$name/src" "$tree/crates/$name/bugs"
  echo "fn $name() {}" >"$tree/crates/$name/src/lib.rt"
done
for name in wbcache wb_bench; do
  mkdir -p "$tree/crates/$name/src"
  echo 'fn main() {}' >"$tree/crates/$name/src/main.rt"
done
# The kit's module, by which crates are proved, has no stand-in: rt is told of it.
cat >"$tree/scripts/prove_crate.py" <<'STAND_IN'
import subprocess, sys
words = {"library": ["lib", "without_proofs"], "program": ["run"]}
sys.exit(subprocess.call(["rt", *words[sys.argv[1]], *sys.argv[2:]]))
STAND_IN
cat >"$work/bin/rt" <<'STAND_IN'
#!/bin/sh
# Stands in for rt: refuses a crate with a source that has the word BROKEN, and 'builds' a program that prints its name. It notes when it
# begins and ends; where there is a pipe of the crate's name among the holds, it says that it has begun, and waits for a line there.
test "$1" != version || { echo 'stand-in'; exit; }
name=$(basename "$PWD")
test "$1" != must-fail || name=$2
echo "begins $name $*" >>"$CALLS"
if test "$1" = lib || test "$1" = run; then
  for below in ../*; do
    test "$below" = "../$name" || test -e "$below/out/rlib/stamp" || { echo "error: $below is not there"; exit 1; }
  done
  rm -rf out/rlib
  mkdir -p out/rlib
fi
if test -p "$HOLDS/$name"; then
  sleep 1000 &
  echo "$$ $!" >"$HOLDS/begun"
  read -r _ <"$HOLDS/$name"
  kill $!
fi
if grep -rq BROKEN src 2>/dev/null; then
  echo 'error: BROKEN does not parse'
  exit 1
fi
if test "$name" = left && grep -q WRONG ../low/src/lib.rt; then
  printf 'src/lib.rt:1:1: error: it is wrong\nlogic=not-proved\n'
  exit 1
fi
case $1 in
  lib) echo built >out/rlib/stamp ;;
  run)
    printf '#!/bin/sh\ncat <<END\nbuilt from: %s\nEND\n' "$(cat src/*)" >"out/$name"
    chmod +x "out/$name"
    ;;
  try)
    printf '== 1-format\nformatted 4 10\n== 2-run\nok\n0 11\n'
    printf 'case=%s run=ended status=0 runners=1\n' 1-format 2-run >&2
    ;;
  must-fail)
    for edit in "crates/$2/must-fail"/*.edit; do echo "rt: must-fail $2/$(basename "$edit"): $(cat "$edit")"; done
    grep -q 'refused, as it must be' "crates/$2/must-fail"/*.edit
    ;;
esac
echo "ends $name" >>"$CALLS"
STAND_IN
chmod +x "$work/bin/rt"
export CALLS="$work/calls" HOLDS="$work/holds"
: >"$CALLS"
call_script() { # the rest of PATH, script and arguments: what it wrote, and then 'status N'
  : >"$CALLS"
  path=$1
  shift
  (cd "$tree" && PATH=$path:/usr/bin:/bin timeout 60 sh "$@") 2>&1
  echo "status $?"
}
build() { call_script "$work/bin" scripts/build.sh wbcache; }
begun() { awk '$1 == "begins" { printf "%s%s", sep, $2; sep = " " }' "$CALLS"; }
there() { if test -e "$tree/bin/wbcache"; then "$tree/bin/wbcache"; else echo none; fi; }
fresh() { rm -rf "${tree:?}"/crates/*/out "${tree:?}/bin" "${tree:?}/images" "${HOLDS:?}"/*; }

# What is built, and what is built again.
said=$(build)
has 'a build ends with 0' "$said" 'status 0'
has 'a build tells what is to do' "$said" '5 to do'
has 'a build tells what is left' "$said" 's; 4 left, about'
has 'a build tells the last crate' "$said" 's; nothing is left'
check 'a build leaves the program' "$(there)" 'built from: fn main() {}'
said=$(build)
check 'what was built from these sources is not built again' "$said $(begun)" 'status 0 '
echo 'fn left() { 1 }' >"$tree/crates/left/src/lib.rt"
touch -d '2001-01-01' "$tree/crates/left/src/lib.rt"
said=$(build)
check 'what is older than its sources is built again, and what stands on it' "$(begun)" 'left wbcache'
check 'a library is proved without its proofs for what stands on it' "$(grep -c 'left lib without_proofs --jobs' "$CALLS")" 1
rm -rf "$tree/crates/low/out" "$tree/bin"
said=$(build)
check 'what stands on a library that is gone is proved anew, too' "$(begun | tr ' ' '\n' | sort | tr '\n' ' ')" 'left long low right wbcache '
echo 'fn left() { 2 }' >"$tree/crates/left/src/lib.rt"
mkdir "$tree/crates/left/out/incremental"
said=$(build)
check 'a library of which rt keeps what it proved by function is proved over that' "$(grep -c 'left lib --jobs' "$CALLS")" 1
echo 'fn main() { BROKEN' >"$tree/crates/wbcache/src/main.rt"
said=$(build)
has 'a build that fails ends with 1' "$said" 'status 1'
has 'a build that fails says why' "$said" 'error: BROKEN does not parse'
has 'a build that fails names the crate' "$said" 'wbcache is not proved and built'
check 'a build that fails leaves no old program' "$(there)" none
check 'a build that fails leaves nothing but what was kept' "$(cd "$tree" && find . -type f -newer "$work/bin/rt" ! -path './crates/*' | sort | tr '\n' ' ')" ''
echo 'fn main() {}' >"$tree/crates/wbcache/src/main.rt"

# One at a time: those first that most waits for.
fresh
said=$(JOBS=1 build)
check 'the longest chain begins first' "$said $(begun)" "$(printf '%s' "$said") low long left right wbcache"

# A build in the background, some of whose crates are held.
background() { # JOBS, crates that are held
  fresh
  : >"$CALLS"
  jobs=$1
  shift
  for name in begun "$@"; do mkfifo "$HOLDS/$name"; done
  exec 5<>"$HOLDS/begun"
  (cd "$tree" && JOBS=$jobs PATH=$work/bin:/usr/bin:/bin exec env --default-signal=HUP,INT,TERM sh scripts/build.sh wbcache) >"$work/said" 2>&1 &
  builder=$!
  held=''
  for name in "$@"; do
    read -r processes <&5
    held="$held $processes"
  done
}
release() { for name in "$@"; do echo >"$HOLDS/$name"; done; }
ended() { # prints how many of the held stand-ins, and of what they started, still run
  # shellcheck disable=SC2086 # numbers are words
  for process in $held; do awk '{ sub(/^.*\) /, ""); if ($1 != "Z") print "runs" }' "/proc/$process/stat" 2>/dev/null; done | wc -l
}
most_at_once() { awk '$1 == "begins" { count++; if (count > most) most = count } $1 == "ends" { count-- } END { print most }' "$CALLS"; }

background 4 long left right
# Those begin at once, in whatever order.
check 'three crates on one run at once' "$(begun | tr ' ' '\n' | sort | tr '\n' ' ')" 'left long low right '
release long left right
wait "$builder"
check 'a build of crates that were held ends with 0' "$? $(there)" '0 built from: fn main() {}'
background 2 long left
check 'two at once, and no third' "$(begun) $(most_at_once)" 'low long left 2'
release left
release long
wait "$builder"
check 'the third follows' "$? $(begun) $(most_at_once)" '0 low long left right wbcache 2'

# A crate fails while another runs: that one is ended, and nothing of it is kept.
echo 'fn right() { BROKEN' >"$tree/crates/right/src/lib.rt"
background 3 long right
for _ in $(seq 300); do test ! -e "$tree/crates/left/out/rlib/sources" || break; sleep 0.1; done
release right
wait "$builder"
check 'a crate that fails ends the build' "$? $(grep -c 'right is not proved and built' "$work/said") $(ended)" '1 1 0'
check 'what was cut off is not kept' "$(cd "$tree" && echo .wor[k] crates/*/out)" '.wor[k] crates/left/out crates/low/out crates/right/out'
echo 'fn right() {}' >"$tree/crates/right/src/lib.rt"
rm -f "${HOLDS:?}"/*
said=$(build)
check 'after a failure only the rest is done' "$(printf '%s' "$said" | grep -c 'status 0') $(begun | tr ' ' '\n' | sort | tr '\n' ' ')" '1 long right wbcache '

# An interrupt ends all, and a second call takes nothing that was cut off.
for row in 'INT 130' 'TERM 143' 'HUP 129'; do
  background 2 long
  kill -s "${row% *}" "$builder"
  wait "$builder"
  check "${row% *} ends a build" "$? $(ended) $(there)" "${row#* } 0 none"
  check "${row% *} leaves nothing that was cut off" "$(ls -d "$tree/crates/long/out" "$tree/.work" 2>/dev/null)" ''
  rm -f "${HOLDS:?}"/*
  said=$(build)
  check "a build after ${row% *}" "$(printf '%s' "$said" | tail -n 1) $(there)" 'status 0 built from: fn main() {}'
  check "a build after ${row% *} begins with what is kept" "$(begun | grep -c low)" 0
done

# Two builds in one tree: one waits for the other.
background 2 long
(cd "$tree" && PATH=$work/bin:/usr/bin:/bin timeout 60 sh scripts/build.sh wbcache; echo "status $?") >"$work/second" 2>&1 &
second=$!
release long
wait "$builder"
wait "$second"
check 'a second build finds all done, or waits for it' "$(tail -n 1 "$work/second") $(grep -c 'begins low' "$CALLS")" 'status 0 1'

# Without the kit.
if PATH=/usr/bin:/bin command -v rt >/dev/null; then
  echo 'not tried: rt stands in /usr/bin or /bin'
else
  for name in build.sh first-script.sh bugs.sh; do
    said=$(call_script /nowhere "scripts/$name")
    has "without rt $name says so" "$said" 'rt is not on the path'
    has "without rt $name ends with 1" "$said" 'status 1'
  done
fi

# The first script: by the program that is there, or compiled without a proof.
answers='formatted 4 10
ok
0 11'
fresh
check 'the first script without a program' "$(cd "$tree" && PATH=$work/bin:/usr/bin:/bin sh scripts/first-script.sh 2>"$work/said"; echo $?)" "$answers
0"
has 'says that nothing was proved' "$(cat "$work/said")" 'compiled, not proved by this run'
has 'and what proves' "$(cat "$work/said")" 'sh scripts/build.sh proves and builds bin/wbcache, in about'
check 'and leaves no program' "$(there)" none
said=$(build)
: >"$CALLS"
check 'the first script with one' "$(cd "$tree" && PATH=$work/bin:/usr/bin:/bin sh scripts/first-script.sh 2>&1; echo $?)" 'built from: fn main() {}
built from: fn main() {}
0'
check 'compiles nothing' "$(begun)" ''
echo '// changed' >>"$tree/crates/low/src/lib.rt"
(cd "$tree" && PATH=$work/bin:/usr/bin:/bin sh scripts/first-script.sh >/dev/null 2>"$work/said")
has 'a program of other sources is not taken' "$(cat "$work/said")" 'compiled, not proved by this run'

# Wrong bodies.
echo 'refused, as it must be: one' >"$tree/crates/low/bugs/one.edit"
echo 'refused, as it must be: two' >"$tree/crates/left/bugs/two.edit"
said=$(call_script "$work/bin" scripts/bugs.sh low left 2>/dev/null)
check 'wrong bodies that are refused' "$(printf '%s' "$said" | tail -n 2 | tr '\n' ' ')" '2 refused, 0 not refused, 0 bad status 0'
echo 'NOT REFUSED: the crate is still proved' >"$tree/crates/long/bugs/three.edit"
echo 'BAD EDIT: it changes nothing' >"$tree/crates/long/bugs/four.edit"
rmdir "$tree/crates/right/bugs"
said=$(call_script "$work/bin" scripts/bugs.sh)
check 'wrong bodies of all crates' "$(printf '%s' "$said" | tail -n 2 | tr '\n' ' ')" '2 refused, 1 not refused, 1 bad status 1'
has 'one that is not refused is named' "$said" 'long/three.edit: NOT REFUSED'
printf 'file: src/lib.rt\nold: fn low\nnew: fn WRONG\n' >"$tree/crates/low/bugs/one.edit"
printf 'file: src/lib.rt\nold: fn low\nnew: fn other\n' >"$tree/crates/low/bugs/other.edit"
printf 'file: src/lib.rt\nold: fn none\nnew: fn other\n' >"$tree/crates/low/bugs/none.edit"
echo left >"$tree/crates/low/bugs/refused-by"
said=$(call_script "$work/bin" scripts/bugs.sh low)
check 'wrong definitions that a crate above refuses' "$(printf '%s' "$said" | tail -n 2 | tr '\n' ' ')" '1 refused, 1 not refused, 1 bad status 1'
has 'one that is proved above is named' "$said" 'low/other.edit: NOT REFUSED'
has 'one that cannot be applied is named' "$said" 'low/none.edit: BAD EDIT'
check 'they change nothing' "$(tail -n 1 "$tree/crates/low/src/lib.rt")" '// changed'
said=$(EDITS=one call_script "$work/bin" scripts/bugs.sh low)
check 'those of a pattern' "$(printf '%s' "$said" | tail -n 2 | tr '\n' ' ')" '1 refused, 0 not refused, 0 bad status 0'
said=$(call_script "$work/bin" scripts/bugs.sh right)
has 'a crate without wrong bodies' "$said" 'there is no edit in crates/right/bugs'

tell
