#!/bin/sh
# Measures the rows of the table of docs/PERFORMANCE.md and prints them as it has them: ours beside plain programs and other servers, all
# alternating in one run, medians of TURNS (7) turns. It needs cc, python3, and for the servers nbdkit and fio, and builds the programs where they are
# missing or older than their sources. Files are made in WORK (/dev/shm); those of durable writes in DISK (/var/tmp), which is to lie on a disk. PART=0.01 is a
# trial of the script, with a hundredth of each count. See bench/README.md.
#
#     sh bench/table.sh [WBCACHE WBNBD WB_BENCH [ROW..]]
#
# ROW is one of requests, four, hot, moves, opening, settle, tick, nbd, mounted, durable, memory; with none all of them are measured.
set -eu
top=$(cd "$(dirname "$0")/.." && pwd)
if test $# -ge 3; then
  cache=$1
  server=$2
  bench=$3
  shift 3
else
  for program in wbcache wbnbd wb_bench; do sh "$top/scripts/build.sh" "$program"; done
  cache=$top/bin/wbcache
  server=$top/bin/wbnbd
  bench=$top/bin/wb_bench
fi
built=$(mktemp -d)
trap 'rm -rf "$built"' EXIT
trap 'exit 1' HUP INT TERM
cc -O2 -pthread -o "$built/clients" "$top/bench/clients.c"
cc -O2 -o "$built/policy" "$top/bench/policy.c"
cc -O2 -o "$built/ticks" "$top/bench/ticks.c"
PYTHONDONTWRITEBYTECODE=1 python3 "$top/bench/table.py" "$cache" "$server" "$bench" "$built" "$@"
