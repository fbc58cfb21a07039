#!/bin/sh
# Times requests of a target's client in write-through and in passthrough beside plain system calls, in turn with these and by medians of
# TURNS, 35 where it is not set: what a plain call takes differs by a quarter from one turn to the next, so few long turns say less than many short ones.
# It needs cc, and builds the programs where they are missing or older than their sources. Files are made in WORK (/dev/shm). See bench/README.md.
#
#     sh bench/modes.sh [WBCACHE WB_BENCH]
set -eu
top=$(cd "$(dirname "$0")/.." && pwd)
if test $# -ge 2; then
  cache=$1
  bench=$2
else
  sh "$top/scripts/build.sh" wbcache
  sh "$top/scripts/build.sh" wb_bench
  cache=$top/bin/wbcache
  bench=$top/bin/wb_bench
fi
work=$(mktemp -d -p "${WORK:-/dev/shm}")
trap 'rm -rf "$work"' EXIT
trap 'exit 1' HUP INT TERM
cc -O2 -pthread -o "$work/clients" "$top/bench/clients.c"
turns=${TURNS:-35}
median() { sort -n "$1" | sed -n "$(((turns + 1) / 2))p"; }
truncate -s 1048576 "$work/m.img"
truncate -s $((512 * 32768)) "$work/c.img"
truncate -s $((1024 * 32768)) "$work/o.img"
head -c 16777216 /dev/urandom >"$work/c.img"
head -c 33554432 /dev/urandom >"$work/o.img"

# In passthrough a read goes past the cache, which is empty here.
printf '%-28s %12s %12s %12s\n' 'us a request' plain proved proved/plain
for row in 'writethrough try_write 8' 'writethrough try_write 64' 'writethrough write 8' 'writethrough write 64' \
  'passthrough try_read 8' 'passthrough try_read 64' 'passthrough read 8' 'passthrough read 64'; do
  # shellcheck disable=SC2086 # the words are apart
  set -- $row
  table="cache $work/m.img $work/c.img $work/o.img 64 1 $1 tinylfu 0"
  requests=40000
  test "$3" = 64 && requests=10000
  rm -f "$work"/*.ns
  turn=0
  while test $turn -lt "$turns"; do
    turn=$((turn + 1))
    case $1 in
      writethrough) "$work/clients" both "$work/o.img" "$work/c.img" "$3" $requests >>"$work/plain.ns" ;;
      *) "$work/clients" "$work/o.img" read "$3" $requests 1 >>"$work/plain.ns" ;;
    esac
    "$cache" format "$table" >"$work/said"
    "$bench" "$table" "$2" "$3" $requests 1 >"$work/said"
    awk '$1 == "requests" { print $3 }' "$work/said" >>"$work/proved.ns"
  done
  awk -v name="$1 $2 $(($3 / 2)) KiB" -v n=$requests -v plain="$(median "$work/plain.ns")" -v proved="$(median "$work/proved.ns")" \
    'BEGIN { printf "%-28s %12.2f %12.2f %12.2f\n", name, plain / n / 1000, proved / n / 1000, proved / plain }'
done
