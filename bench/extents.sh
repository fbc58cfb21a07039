#!/bin/sh
# Requests of 512 bytes to 1 MiB by the proved programs and by plain system calls, in turn, five times each: medians of
# the processor time, and of a file whose pages were dropped what was read from and written to the disk. It needs cc and
# /usr/bin/time, and builds the programs where they are missing or older than their sources. See bench/README.md.
#
#     sh bench/extents.sh [WBCACHE WB_BENCH]
set -eu
top=$(cd "$(dirname "$0")/.." && pwd)
if test $# = 2; then
  cache=$1
  bench=$2
else
  sh "$top/scripts/build.sh" wbcache
  sh "$top/scripts/build.sh" wb_bench
  cache=$top/bin/wbcache
  bench=$top/bin/wb_bench
fi
work=$(mktemp -d -p "${WORK:-$top}")
trap 'rm -rf "$work"' EXIT
trap 'exit 1' HUP INT TERM
cc -O2 -o "$work/plain" "$top/bench/plain.c"
truncate -s 67584 "$work/m.img"
truncate -s 131072 "$work/c.img"
head -c 16777216 /dev/urandom >"$work/o.img"

script() { # direction, sectors, requests
  awk -v way="$1" -v n="$2" -v requests="$3" 'BEGIN {
    apart = n > 64 ? n : 64
    for (i = 0; i < requests; i++) {
      s = (i % int(32768 / apart)) * apart
      if (way == "read") print "r " s " " n; else print "w " s " " n " 5a"
    } }' >"$work/script"
}
cost() { # a file to add a line to, and a command: its processor time in milliseconds
  into=$1
  shift
  # shellcheck disable=SC2016 # the inner shell's words
  /usr/bin/time -f '%U %S' -o "$work/took" "$@" >/dev/null
  awk '{ printf "%.0f\n", ($1 + $2) * 1000 }' "$work/took" >>"$into"
}
median() { sort -n "$1" | sed -n 3p; }
ratio() { awk "BEGIN { if ($2 > 0) printf \"%.2f\", $1 / $2; else printf \"-\" }"; }

printf '%-16s %10s %10s %10s %14s %14s\n' request 'plain ms' 'driven ms' 'script ms' driven/plain script/plain
for row in 'read 1 200000' 'read 8 200000' 'read 64 100000' 'read 2048 4000' \
  'write 1 200000' 'write 8 200000' 'write 64 100000' 'write 2048 4000'; do
  # shellcheck disable=SC2086 # the words are apart
  set -- $row
  rm -f "$work"/*.ms
  script "$1" "$2" "$3"
  for turn in 1 2 3 4 5; do
    cost "$work/plain.ms" "$work/plain" "$work/o.img" "$1" "$2" "$3"
    cost "$work/driven.ms" "$bench" "$work/o.img" "$1" "$2" "$3"
    cost "$work/script.ms" sh -c '"$0" run "$1" <"$2"' "$cache" "cache $work/m.img $work/c.img $work/o.img 64 0 tinylfu 0" "$work/script"
  done
  plain=$(median "$work/plain.ms")
  driven=$(median "$work/driven.ms")
  scripted=$(median "$work/script.ms")
  printf '%-16s %10s %10s %10s %14s %14s\n' "$1 $(($2 * 512)) B" "$plain" "$driven" "$scripted" "$(ratio "$driven" "$plain")" "$(ratio "$scripted" "$plain")"
done

# A file of 64 MiB whose pages were dropped is overwritten whole, and read whole, 32 KiB a call.
printf '\n%-24s %10s %16s %16s\n' 'cold, 64 MiB' 'seconds' 'read from disk' 'written to disk'
head -c 67108864 /dev/urandom >"$work/cold.img"
cold() { # name, command: the pages are dropped before; what the disk moved, in KiB
  name=$1
  shift
  rm -f "$work"/*.s
  for turn in 1 2 3 4 5; do
    sync "$work/cold.img"
    dd of="$work/cold.img" oflag=nocache conv=notrunc,fdatasync count=0 2>/dev/null
    /usr/bin/time -f '%e %I %O' -o "$work/took" "$@" >/dev/null
    cat "$work/took" >>"$work/cold.s"
  done
  sort -n "$work/cold.s" | sed -n 3p | awk -v name="$name" '{ printf "%-24s %10s %12d KiB %12d KiB\n", name, $1, $2 / 2, $3 / 2 }'
}
for way in write read; do
  if test "$way" = write; then echo 'w 0 131072 5a' >"$work/script"; else echo 'r 0 131072' >"$work/script"; fi
  cold "$way, plain" "$work/plain" "$work/cold.img" "$way" 64 2048
  cold "$way, script" sh -c '"$0" run "$1" <"$2"' "$cache" "cache $work/m.img $work/c.img $work/cold.img 64 0 tinylfu 0" "$work/script"
done
