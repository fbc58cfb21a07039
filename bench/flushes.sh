#!/bin/sh
# Times flushes, each behind a write of 4 KiB, by one client and by sixteen: of a target by wb_bench, clients on threads of their own; and by
# wbnbd beside nbdkit's cache filter over its file plugin, on one connection with one and with sixteen requests in flight (flushes.py). In turn,
# medians of seven, flushes a second. It wants nbdkit and python3. Files are made in WORK, which is to lie where a sync costs, and first it
# says what one costs there; with SYNC_US (it wants cc then) each sync takes so many microseconds longer. See bench/README.md.
#
#     WORK=/some/where sh bench/flushes.sh [WBCACHE WBNBD WB_BENCH]
#     WORK=/dev/shm SYNC_US=4000 sh bench/flushes.sh [WBCACHE WBNBD WB_BENCH]
set -eu
top=$(cd "$(dirname "$0")/.." && pwd)
if test $# -ge 3; then
  cache=$1
  server=$2
  bench=$3
else
  for program in wbcache wbnbd wb_bench; do sh "$top/scripts/build.sh" "$program"; done
  cache=$top/bin/wbcache
  server=$top/bin/wbnbd
  bench=$top/bin/wb_bench
fi
work=$(mktemp -d -p "${WORK:-/var/tmp}")
servers=
trap 'kill $servers 2>/dev/null; rm -rf "$work"' EXIT
trap 'exit 1' HUP INT TERM
turns=${TURNS:-7}
seconds=${SECONDS_EACH:-3}
median() { sort -n "$1" | sed -n "$(((turns + 1) / 2))p"; }

slowly=
if test -n "${SYNC_US:-}"; then
  cc -O2 -shared -fPIC -o "$work/slow_sync.so" "$top/bench/slow_sync.c"
  slowly="LD_PRELOAD=$work/slow_sync.so SYNC_US=$SYNC_US"
fi

# shellcheck disable=SC2086 # the words are apart
env $slowly python3 - "$work/synced" <<'END'
import os, statistics, sys, time
file = os.open(sys.argv[1], os.O_RDWR | os.O_CREAT, 0o600)
os.pwrite(file, os.urandom(1 << 24), 0)
os.fsync(file)
took = []
for turn in range(200):
    os.pwrite(file, os.urandom(4096), 4096 * (turn * 37 % 4096))
    start = time.monotonic()
    os.fdatasync(file)
    took.append(1000 * (time.monotonic() - start))
print(f"an fdatasync behind a write of 4 KiB: {statistics.median(took):.2f} ms")
END

# Two caches, one for each of the two programs: of 512 blocks of 32 KiB over 1,024 blocks, and of 1,024 over 64 MiB.
make() { # name, cache, origin, metadata
  head -c "$2" /dev/urandom >"$work/$1-c.img"
  head -c "$3" /dev/urandom >"$work/$1-o.img"
  truncate -s "$4" "$work/$1-m.img"
  "$cache" format "$(table_of "$1")" >"$work/said" 2>&1
}
table_of() { echo "cache $work/$1-m.img $work/$1-c.img $work/$1-o.img 64 0 tinylfu 0"; }
make target 16777216 33554432 1048576
make nbd 33554432 67108864 65536
head -c 67108864 /dev/urandom >"$work/plain.img"
sync

# shellcheck disable=SC2086 # the words are apart
env $slowly python3 "$top/bench/inetd.py" "$work/wbnbd.sock" "$server" "$(table_of nbd)" 2>"$work/told_by_server" &
servers=$!
# shellcheck disable=SC2086 # the words are apart
env $slowly TMPDIR="$work" nbdkit -f --unix "$work/nbdkit.sock" --filter=cache file "$work/plain.img" cache=writeback &
servers="$servers $!"
for name in wbnbd nbdkit; do
  while ! test -S "$work/$name.sock"; do sleep 0.1; done
  python3 "$top/bench/flushes.py" "$work/$name.sock" warm
done

of_target() { # clients, writes of each: flushes a second
  "$cache" format "$(table_of target)" >"$work/said" 2>&1
  # shellcheck disable=SC2086 # the words are apart
  env $slowly "$bench" "$(table_of target)" flush 8 "$2" "$1" | awk '$1 == "requests" { printf "%.1f\n", 1e9 * $2 / $3 }'
}

turn=0
while test $turn -lt "$turns"; do
  of_target 1 300 >>"$work/target.1"
  of_target 16 100 >>"$work/target.16"
  for clients in 1 16; do
    for name in wbnbd nbdkit; do
      python3 "$top/bench/flushes.py" "$work/$name.sock" $clients "$seconds" >>"$work/$name.$clients"
    done
  done
  turn=$((turn + 1))
done

printf '%-10s %10s %10s %10s\n' 'flushes/s' 'one' 'sixteen' 'ratio'
for name in target wbnbd nbdkit; do
  one=$(median "$work/$name.1")
  all=$(median "$work/$name.16")
  printf '%-10s %10s %10s %10s\n' "$name" "$one" "$all" "$(echo "$one $all" | awk '{ printf "%.2f", $2 / $1 }')"
done
grep -v '^wbnbd: [1o]' "$work/told_by_server" >&2 || :
