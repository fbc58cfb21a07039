#!/bin/sh
# Measures what a request, an access that is settled, an opening and a tick take over caches of 2^10, 2^15 and 2^20 - 1 blocks, all mapped, medians of
# TURNS (7) turns in one run: it prints bench/results/growth.csv, which bench/pictures.py draws. It needs cc and python3 alone, and builds the programs
# where none are said. Files are made in WORK (/dev/shm): some 200 MiB. PART=0.01 is a trial of the script. See bench/README.md.
#
#     sh bench/growth.sh [WBCACHE WB_BENCH]
set -eu
top=$(cd "$(dirname "$0")/.." && pwd)
if test $# -ge 2; then
  cache=$1
  bench=$2
else
  sh "$top/scripts/build.sh" wbcache
  sh "$top/scripts/build.sh" wb_bench
  cache=$top/bin/wbcache
  bench=$top/bin/wb_bench
fi
built=$(mktemp -d)
trap 'rm -rf "$built"' EXIT
trap 'exit 1' HUP INT TERM
cc -O2 -pthread -o "$built/clients" "$top/bench/clients.c"
cc -O2 -o "$built/policy" "$top/bench/policy.c"
PYTHONDONTWRITEBYTECODE=1 python3 "$top/bench/growth.py" "$cache" "$bench" "$built/clients" "$built/policy"
