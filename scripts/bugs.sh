#!/bin/sh
# Tries the wrong bodies in crates/NAME/bugs, which the gate leaves out, as must-fail edits on a copy: the prover has to refuse each. Crates
# go side by side, once what they stand on is proved, and first the wrong bodies of different functions of a crate together (bugs_at_once.py). Where
# a crate is of definitions alone, wrong ones are refused by the crates above that prove something of them: its file bugs/refused-by names these, each
# after those that it stands on.
#
#     sh scripts/bugs.sh [NAME..]
#
# Those of every crate where none is named. EDITS, where it is set, is a pattern of the names of the edits to try. Before a crate lands, and after a change of its contracts. Each that is not refused, or that
# cannot be tried, stands on standard output with its reason, and last 'N refused, M not refused, K bad'; the status is 0 where M and K are 0.
# Progress goes to standard error. An interrupt ends all that was started. JOBS as for scripts/build.sh.
set -eu
script=bugs.sh
top=$(cd "$(dirname "$0")/.." && pwd)
cd "$top"
. scripts/side-by-side.sh

edits_in() { find "$1" -name "${EDITS:-*}.edit" 2>/dev/null | LC_ALL=C sort; }
edits_of() { edits_in "crates/$1/bugs" | wc -l; }
above() { cat "crates/$1/bugs/refused-by" 2>/dev/null || true; }
look_at_machine 3000 5000
# shellcheck disable=SC2046 # names are words
test $# != 0 || set -- $(for folder in crates/*/bugs; do basename "${folder%/bugs}"; done)
for name in "$@"; do
  test "$(edits_of "$name")" != 0 || fail "there is no edit in crates/$name/bugs"
done
work_alone

crates=$(for name in "$@"; do echo "$name" && above "$name"; done)
# shellcheck disable=SC2086 # names are words
libraries=$(for name in $(with_those_below $crates); do
  test -e "crates/$name/src/main.rt" || echo "$name"
done)
# Where a wrong definition is refused by crates above, these are proved anew for each, which takes less over what rt keeps of them by function.
for name in "$@"; do
  for crate in $(above "$name"); do mkdir -p "crates/$name/out/incremental" "crates/$crate/out/incremental"; done
done
# shellcheck disable=SC2086 # names are words
prove $libraries

# One copy for all: rt only reads it now. It begins with what is kept of a crate, by links, since it replaces such files and changes none.
copy=$work/copy
mkdir -p "$copy/crates"
test ! -e HANDLES || cp HANDLES "$copy/"
# shellcheck disable=SC2086 # names are words
crates=$(with_those_below $crates | tr '\n' ' ')
lines_of "$crates" >"$copy/crates.txt"
for name in $crates; do
  copy_crate "$name" "$copy"
  test ! -d "crates/$name/out/rlib" || cp -Rl "crates/$name/out/rlib" "$copy/crates/$name/out/"
done
: >"$work/plan.bugs"
for name in "$@"; do
  mkdir "$copy/crates/$name/must-fail"
  edits_in "crates/$name/bugs" | while read -r edit; do cp "$edit" "$copy/crates/$name/must-fail/"; done
  for crate in "$name" $(above "$name"); do
    test ! -d "crates/$crate/out/incremental" || test -e "$copy/crates/$crate/out/incremental" || cp -Rl "crates/$crate/out/incremental" "$copy/crates/$crate/out/"
  done
  # those that crates above are to refuse are a job each
  if test -e "crates/$name/bugs/refused-by"; then
    edits_in "crates/$name/bugs" | while read -r edit; do echo "$name/$(basename "$edit")" 60; done >>"$work/plan.bugs"
    mkdir -p "$work/$name"
  else
    echo "$name $((30 * $(edits_of "$name")))" >>"$work/plan.bugs"
  fi
done

# The one pair of an edit, applied in the folder of its crate: its old text has to stand once in its file.
# shellcheck disable=SC2016 # it is the text of a script
apply='
  file=$(sed -n "s/^file: //p" "$1") OLD=$(sed -n "s/^old: //p" "$1") NEW=$(sed -n "s/^new: \{0,1\}//p" "$1")
  export OLD NEW
  test -f "$file" || exit 1
  awk "{
    at = index(\$0, ENVIRON[\"OLD\"])
    if (at) { found++; \$0 = substr(\$0, 1, at - 1) ENVIRON[\"NEW\"] substr(\$0, at + length(ENVIRON[\"OLD\"])) }
    print
  } END { exit found != 1 }" "$file" >"$file.new" && mv "$file.new" "$file"'

# A wrong definition in a copy of its own, by links: its crate has to be proved with it, and then one of those above not to be.
# shellcheck disable=SC2016 # it is the text of a script
try_above='
  copy=$1 room=$2 name=$3 edit=$4 apply=$5
  shift 5
  label="rt: must-fail $name/$edit"
  cp -Rl "$copy" "$room"
  trap "rm -rf \"\$room\"" EXIT
  cd "$room/crates/$name" || exit
  rm -rf must-fail
  sh -c "$apply" apply "$copy/crates/$name/must-fail/$edit" || { echo "$label: BAD EDIT: it cannot be applied"; exit 1; }
  RT_JOBS=1 rt lib >"$room/said" 2>&1 || { echo "$label: BAD EDIT: $name is not proved with it: $(grep -m 1 error "$room/said")"; exit 1; }
  for crate in "$@"; do
    cd "$room/crates/$crate" || exit
    RT_JOBS=1 rt lib >"$room/said" 2>&1 && continue
    if grep -q "^logic=not-proved" "$room/said"; then
      echo "$label: refused, as it must be, by $crate: $(grep -m 1 ": error" "$room/said")"
      exit 0
    fi
    echo "$label: NOT TRIED: $crate came to no verdict: $(tail -n 1 "$room/said")"
    exit 1
  done
  echo "$label: NOT REFUSED: $* are still proved with it"
  exit 1'

refused=0 proved=0 bad=0
begin_edits() { # crate or one of its edits, how many processors it may use, how much it gives way
  case $1 in
    */*)
      # shellcheck disable=SC2046 # names are words
      start "$1" 1 "$3" sh -c "$try_above" try_above "$copy" "$work/$1.room" "${1%/*}" "${1#*/}" "$apply" $(above "${1%/*}")
      ;;
    *)
      # shellcheck disable=SC2016 # it is the text of a script
      start "$1" 1 "$3" sh -c 'export RT_JOBS=1; cd "$1" || exit; python3 "$3" "$2"; test -z "$(ls "crates/$2/must-fail")" || exec rt must-fail "$2"' \
        begin_edits "$copy" "$1" "$top/scripts/bugs_at_once.py"
      ;;
  esac
}
counted() { grep -c "$1" "$log" || true; }
tried() { case $1 in */*) echo 1 ;; *) edits_of "$1" ;; esac; }
end_edits() { # crate or edit, status
  log=$work/$1.log
  set -- "$1" "$(counted ': refused, as it must be')" "$(counted ': NOT REFUSED: ')" "$(counted ': BAD EDIT: \|: NOT TRIED: ')"
  if test $(($2 + $3 + $4)) != "$(tried "$1")"; then
    tail -n 30 "$log" >&2
    fail "the edits of $1 were not tried (see above)"
  fi
  grep ': NOT REFUSED: \|: BAD EDIT: \|: NOT TRIED: ' "$log" || true
  refused=$((refused + $2)) proved=$((proved + $3)) bad=$((bad + $4))
}
side_by_side "$work/plan.bugs" begin_edits end_edits
echo "$refused refused, $proved not refused, $bad bad"
test $((proved + bad)) = 0
