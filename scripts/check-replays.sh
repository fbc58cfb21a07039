#!/bin/sh
# The replays of scripts/cases/replays.txt, each of its faults and crashes in a replay of its own, all over metadata of either version. It prints
# what failed, and at the end 'N passed, N failed'; its status is 0 where nothing failed.
#
#     sh scripts/check-replays.sh WBCACHE
set -u
program=${1:?the program wbcache}
top=$(cd "$(dirname "$0")/.." && pwd)
. "$top/scripts/checks.sh"

setup_of() { # the first lines of a replay: the same over metadata of the version that is tried
  case $version in
    1) printf '%s' "$1" ;;
    2) printf '%s' "$1" | sed 's/ 64 4 10 4/ 64 4 10 5 metadata2/' ;;
  esac
}
replayed() { # lines, parted by slashes: what is printed, parted by slashes
  printf '%s' "$1" | tr '/' '\n' | sed 's/^ *//; s/ *$//' | "$program" replay | tr '\n' '/' | sed 's,/$,,'
}
compare() { # lines, what they are to print
  check "the replay '$1'" "$(replayed "$1")" "$2"
}
joined() { # texts: those that are not empty, with slashes between them
  all=
  for text in "$@"; do
    if test -n "$text"; then all=${all:+$all/}$text; fi
  done
  printf '%s' "$all"
}

for version in 1 2; do
  setup=$(setup_of 'setup writeback 64 4 10 4')
  while IFS='|' read -r kind one two three four five six seven eight nine <&3; do
    case $kind in
      [12]:*)
        test "${kind%%:*}" = "$version" || continue
        kind=${kind#*:}
        ;;
    esac
    case $kind in
      '' | '#'*) ;;
      setup) setup=$(setup_of "$one") ;;
      plain) compare "$(joined "$setup" "$one")" "$two" ;;
      crash)
        begun=$(joined "$setup" "$one")
        told=$(replayed "$begun")
        for base in old new; do
          case $base in old) shown=$five ;; new) shown=$six ;; esac
          compare "$(joined "$begun" "$two" "step 0 $three" "stop $base" "$four")" "$(joined "$told" "$shown")"
        done
        ;;
      both)
        begun=$(joined "$setup" "$one")
        told=$(replayed "$begun")
        for fault in old new; do
          for base in old new; do
            case $fault$base in oldold) shown=$six ;; oldnew) shown=$seven ;; newold) shown=$eight ;; newnew) shown=$nine ;; esac
            compare "$(joined "$begun" "$two" "step 0 $three" "fault 0 $fault" "end 0" "stop $base" "$five")" \
              "$(joined "$told" "0 refused 5 Io $four" "$shown")"
          done
        done
        ;;
      fault)
        begun=$(joined "$setup" "$one")
        told=$(replayed "$begun")
        # shellcheck disable=SC2086 # the three numbers are apart
        set -- $three
        step=$1
        left=$2
        while test "$left" -gt 0; do
          for base in old new; do
            compare "$(joined "$begun" "$two" "step 0 $step" "fault 0 $base" "end 0" "$five")" \
              "$(joined "$told" "0 refused 5 Io $four" "$six")"
          done
          step=$((step + $3))
          left=$((left - 1))
        done
        ;;
      *) check "a row of no kind: $kind" no yes ;;
    esac
  done 3<"$top/scripts/cases/replays.txt"
done

tell
