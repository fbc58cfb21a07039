#!/bin/sh
# Requests by the proved programs against the same requests by plain system calls, on one file in one run: prints a
# table of seconds and ratios. It needs cc, and builds the programs where they are missing or older than their sources. See bench/README.md.
set -eu
top=$(cd "$(dirname "$0")/.." && pwd)
work=$(mktemp -d)
trap 'rm -rf "$work"' EXIT
requests=${1:-20000}

sh "$top/scripts/build.sh" wbcache
sh "$top/scripts/build.sh" wb_bench
cc -O2 -o "$work/plain" "$top/bench/plain.c"
truncate -s 2048 "$work/m.img"
truncate -s 131072 "$work/c.img"
head -c 16777216 /dev/zero > "$work/o.img"

seconds() { # runs a command with standard output away, and prints how many seconds it took
  start=$(date +%s%N)
  "$@" >/dev/null
  end=$(date +%s%N)
  awk "BEGIN { printf \"%.3f\", ($end - $start) / 1e9 }"
}
play() { "$top/bin/wbcache" run "cache $work/m.img $work/c.img $work/o.img 64 0 tinylfu 0" < "$work/script"; }
script() { # direction, sectors
  awk -v way="$1" -v n="$2" -v requests="$requests" 'BEGIN {
    for (i = 0; i < requests; i++) {
      s = (i % 512) * 64
      if (way == "read") print "r " s " " n; else print "w " s " " n " 5a"
    } }' > "$work/script"
}
ratio() { awk "BEGIN { printf \"%.2f\", $1 / $2 }"; }

printf '%-14s %9s %9s %9s %9s %9s %9s %9s\n' request plain each driven script driven/plain driven/each script/plain
for way in read write; do
  for sectors in 8 64; do
    plain=$(seconds "$work/plain" "$work/o.img" "$way" "$sectors" "$requests")
    each=$(seconds "$work/plain" "$work/o.img" "$way" "$sectors" "$requests" each)
    driven=$(seconds "$top/bin/wb_bench" "$work/o.img" "$way" "$sectors" "$requests")
    script "$way" "$sectors"
    scripted=$(seconds play)
    printf '%-14s %9s %9s %9s %9s %9s %9s %9s\n' "$way $((sectors / 2)) KiB" "$plain" "$each" "$driven" "$scripted" \
      "$(ratio "$driven" "$plain")" "$(ratio "$driven" "$each")" "$(ratio "$scripted" "$plain")"
  done
done

printf '\n%-14s %9s %9s %9s %9s %9s\n' 'policy' plain proved proved/plain 'M settles/s' 'hit ratio'
cc -O2 -o "$work/policy" "$top/bench/policy.c"
for blocks in 1024 262144; do
  hits=$("$work/policy" "$blocks" 10000000)
  test "$hits" = "$("$top/bin/wb_bench" settles "$blocks" 10000000)" || { echo 'the policies differ' >&2; exit 1; }
  plain=$(seconds "$work/policy" "$blocks" 10000000)
  proved=$(seconds "$top/bin/wb_bench" settles "$blocks" 10000000)
  printf '%-14s %9s %9s %9s %9s %9s\n' "$blocks blocks" "$plain" "$proved" "$(ratio "$proved" "$plain")" \
    "$(awk "BEGIN { printf \"%.1f\", 10 / $proved }")" "$(awk "BEGIN { printf \"%.4f\", $hits / 10000000 }")"
done
opening=$(seconds "$top/bin/wb_bench" ticks 262144 0)
ticking=$(seconds "$top/bin/wb_bench" ticks 262144 100)
printf 'ticks past 262143 clean blocks: %s ns a block\n' "$(awk "BEGIN { printf \"%.1f\", ($ticking - $opening) / 100 / 262144 * 1e9 }")"

printf '\n%-30s %9s %9s %9s %9s\n' 'state, read' plain proved proved/plain 'peak KiB'
state() { # cache blocks, sectors of the metadata device
  truncate -s 0 "$work/state.img"
  truncate -s $(($2 * 512)) "$work/state.img"
  nodes=$("$top/bin/wb_bench" "$work/state.img" mapping "$1")
  test "$("$top/bin/wb_bench" "$work/state.img" state)" = "$nodes" || { echo 'the nodes differ' >&2; exit 1; }
  plain=$(seconds "$work/plain" "$work/o.img" read 1 "$((nodes + 2))")
  proved=$(seconds "$top/bin/wb_bench" "$work/state.img" state)
  peak=-
  if test -x /usr/bin/time; then
    /usr/bin/time -f %M -o "$work/peak" "$top/bin/wb_bench" "$work/state.img" state >/dev/null
    peak=$(cat "$work/peak")
  fi
  printf '%-30s %9s %9s %9s %9s\n' "$1 blocks, $nodes nodes" "$plain" "$proved" "$(ratio "$proved" "$plain")" "$peak"
}
state 1024 68
state 1048575 67652
