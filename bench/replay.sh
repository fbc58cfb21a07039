#!/bin/sh
# Times replays over devices of three sizes: prints seconds of processor time, medians of five runs in turn, and what a task took.
# Nothing fails by time. See bench/README.md.
#
#     sh bench/replay.sh [tasks [WBCACHE]]
set -eu
top=$(cd "$(dirname "$0")/.." && pwd)
work=$(mktemp -d)
trap 'rm -rf "$work"' EXIT
trap 'exit 1' HUP INT TERM
tasks=${1:-10000}
run=${2:-$top/bin/wbcache}
test $# -ge 2 || sh "$top/scripts/build.sh" wbcache

script() { # kind, cache blocks, origin blocks, metadata sectors: a replay of so many tasks
  awk -v kind="$1" -v cache="$2" -v origin="$3" -v metadata="$4" -v tasks="$tasks" '
    function task(line) { print "start 0 " line; print "end 0" }
    BEGIN {
      print "setup writeback 64 " cache " " origin " " metadata
      sectors = 64 * origin
      if (kind == "mixed")
        for (i = 0; i < tasks; i += 64) {
          for (a = 0; a < 64; a++) {
            at = 64 * (a * origin / 64 + i / 64 % (origin / 64)) + a
            print "start " a (a % 2 ? " r " at " 1" : " w " at " 1 5a")
          }
          for (round = 0; round < 3; round++) for (a = 0; a < 64; a++) print "step " a " 2"
          for (a = 0; a < 64; a++) print "end " a
        }
      if (kind == "flushes") for (i = 0; i < tasks; i++) task("flush")
      if (kind == "durable") for (i = 0; i < tasks; i += 2) { task("w " i * 7919 % sectors " 1 5a"); task("flush") }
      if (kind == "migrations")
        for (i = 0; i < tasks; i += 4) {
          block = i / 4 % 60
          if (block == 0) task("flush")
          task("promote " block " " block); task("w " 64 * block " 1 5a"); task("clean " block); task("demote " block)
        }
    }'
}
busy() { # a replay's seconds of processor time
  /usr/bin/time -f '%U %S' -o "$work/time" "$run" replay <"$1" >"$work/told"
  awk '{ printf "%.3f\n", $1 + $2 }' "$work/time"
}
median() { sort -n "$1" | sed -n 3p; }

kinds='mixed flushes durable migrations'
printf '%-12s %13s %13s %10s %10s %12s\n' "$tasks tasks" 'cache blocks' 'origin blocks' 'setup s' 's' 'us a task'
size() { # cache blocks, origin blocks, metadata sectors
  for kind in setup $kinds; do
    script "$kind" "$@" >"$work/$kind.replay"
    : >"$work/$kind.seconds"
  done
  for _ in 1 2 3 4 5; do
    for kind in setup $kinds; do
      busy "$work/$kind.replay" >>"$work/$kind.seconds"
      if grep -qE 'skipped|refused' "$work/told"; then
        echo "a task of $kind did not apply" >&2
        exit 1
      fi
    done
  done
  setup=$(median "$work/setup.seconds")
  for kind in $kinds; do
    all=$(median "$work/$kind.seconds")
    printf '%-12s %13s %13s %10s %10s %12s\n' "$kind" "$1" "$2" "$setup" "$all" \
      "$(awk "BEGIN { t = ($all - $setup) / $tasks * 1e6; printf \"%.1f\", t < 0 ? 0 : t }")"
  done
}
size 64 256 8
size 256 1024 20
size 1024 4096 68
