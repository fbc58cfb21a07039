#!/bin/sh
# Times reads and writes of cached blocks by wbnbd, beside nbdkit's file plugin and its cache filter on a file of the same size, and
# beside its null plugin, which moves nothing and so shows what the socket and the client take by themselves; by fio, in turn, medians of
# five, requests a second. It wants fio with its nbd engine, nbdkit and python3. Files are made in WORK (/dev/shm). See bench/README.md.
#
#     sh bench/nbd.sh [WBCACHE WBNBD]
set -eu
top=$(cd "$(dirname "$0")/.." && pwd)
if test $# -ge 2; then
  cache=$1
  server=$2
else
  sh "$top/scripts/build.sh" wbcache
  sh "$top/scripts/build.sh" wbnbd
  cache=$top/bin/wbcache
  server=$top/bin/wbnbd
fi
work=$(mktemp -d -p "${WORK:-/dev/shm}")
servers=
trap 'kill $servers 2>/dev/null; rm -rf "$work"' EXIT
trap 'exit 1' HUP INT TERM

# A cache of 1,024 blocks of 32 KiB over an origin of 64 MiB, of which the first 12 MiB are asked for.
truncate -s 32M "$work/c.img"
truncate -s 64M "$work/o.img"
truncate -s 64K "$work/m.img"
truncate -s 64M "$work/plain.img"
table="cache $work/m.img $work/c.img $work/o.img 64 0 tinylfu 0"
"$cache" format "$table" >"$work/said"

python3 "$top/bench/inetd.py" "$work/wbnbd.sock" "$server" "$table" 2>"$work/told_by_server" &
servers=$!
nbdkit -f --unix "$work/file.sock" file "$work/plain.img" &
servers="$servers $!"
nbdkit -f --unix "$work/filter.sock" --filter=cache file "$work/plain.img" &
servers="$servers $!"
nbdkit -f --unix "$work/null.sock" null 64M &
servers="$servers $!"
for name in wbnbd file filter null; do
  while ! test -S "$work/$name.sock"; do sleep 0.1; done
done

load() { # server, what fio is told: requests a second
  name=$1
  shift
  fio --name=load --ioengine=nbd --uri="nbd+unix:///?socket=$work/$name.sock" --size=12M --group_reporting \
    --output-format=terse --terse-version=3 "$@" >"$work/told" 2>"$work/errors"
  awk -F';' 'NF > 100 { printf "%d\n", $8 + $49 }' "$work/told"
}

# All blocks that are asked for are cached first, and all pages of the other file written.
for name in wbnbd file filter; do
  load "$name" --rw=write --bs=32k >"$work/said"
done
for turn in 1 2 3 4 5 6; do load wbnbd --rw=read --bs=4k >"$work/said"; done
echo status | "$cache" run "$table"

printf '%-26s %10s %10s %10s %10s %12s %12s %12s\n' 'requests a second' wbnbd file filter null wbnbd/file wbnbd/filter null/filter
for size in 4k 64k; do
  for depth in 1 16; do
    for way in randread randwrite; do
      rm -f "$work"/*.rates
      for turn in 1 2 3 4 5; do
        for name in wbnbd file filter null; do
          load "$name" --rw=$way --bs=$size --iodepth=$depth --runtime=1 --time_based >>"$work/$name.rates"
        done
      done
      for name in wbnbd file filter null; do sort -n "$work/$name.rates" | sed -n 3p >"$work/$name.median"; done
      paste "$work/wbnbd.median" "$work/file.median" "$work/filter.median" "$work/null.median" | awk -v name="$way $size, depth $depth" \
        '{ printf "%-26s %10d %10d %10d %10d %12.2f %12.2f %12.2f\n", name, $1, $2, $3, $4, $1 / $2, $1 / $3, $4 / $3 }'
    done
  done
done
