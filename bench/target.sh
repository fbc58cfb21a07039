#!/bin/sh
# Times clients of a target on cached blocks, promotions and openings, counts the device steps of flushes, and compares hit ratios with
# those of plain programs, in turn with these and by medians of five. It needs cc, python3 and strace, and builds
# the programs where they are missing or older than their sources. Files are made in WORK (/dev/shm). See bench/README.md.
#
#     sh bench/target.sh [WBCACHE WB_BENCH [TRACES]]
#
# TRACES is a program that prints a trace: python3 TRACES NAME BLOCKS ACCESSES SEED.
set -eu
traces=${3:-}
top=$(cd "$(dirname "$0")/.." && pwd)
if test $# -ge 2; then
  cache=$1
  bench=$2
else
  sh "$top/scripts/build.sh" wbcache
  sh "$top/scripts/build.sh" wb_bench
  cache=$top/bin/wbcache
  bench=$top/bin/wb_bench
fi
work=$(mktemp -d -p "${WORK:-/dev/shm}")
trap 'rm -rf "$work"' EXIT
trap 'exit 1' HUP INT TERM
cc -O2 -pthread -o "$work/clients" "$top/bench/clients.c"
cc -O2 -o "$work/policy" "$top/bench/policy.c"
median() { sort -n "$1" | sed -n 3p; }
ratio() { awk "BEGIN { if ($2 > 0) printf \"%.2f\", $1 / $2; else printf \"-\" }"; }
files() { # cache blocks, origin blocks: three devices with blocks of 64 sectors, formatted
  rm -f "$work"/*.img
  truncate -s $((1048576 + $1 * 40)) "$work/m.img"
  truncate -s $(($1 * 32768)) "$work/c.img"
  truncate -s $(($2 * 32768)) "$work/o.img"
}
table="cache $work/m.img $work/c.img $work/o.img 64 0 tinylfu 0"

# Requests on cached blocks, by one client and by four.
files 512 1024
head -c 16777216 /dev/urandom >"$work/c.img"
printf '%-22s %12s %12s %12s\n' 'cached, us a request' plain proved proved/plain
for row in 'try_read 8 1' 'try_read 64 1' 'try_write 8 1' 'try_write 64 1' 'read 8 1' 'read 64 1' 'write 8 1' 'write 64 1' \
  'try_read 8 4' 'try_read 64 4' 'try_write 8 4' 'try_write 64 4'; do
  # shellcheck disable=SC2086 # the words are apart
  set -- $row
  requests=200000
  test "$2" = 64 && requests=50000
  rm -f "$work"/*.ns
  for turn in 1 2 3 4 5; do
    "$work/clients" "$work/c.img" "${1#try_}" "$2" $requests "$3" >>"$work/plain.ns"
    "$cache" format "$table" >"$work/said"
    "$bench" "$table" "$1" "$2" $requests "$3" >"$work/said"
    awk '$1 == "requests" { print $3 }' "$work/said" >>"$work/proved.ns"
    awk '$1 == "promotions" { print $3 / $2 }' "$work/said" >>"$work/promotions"
    "$work/clients" copy "$work/o.img" "$work/c.img" | awk '{ print $1 / 512 }' >>"$work/copies"
  done
  plain=$(median "$work/plain.ns")
  proved=$(median "$work/proved.ns")
  awk -v name="$1 $(($2 / 2)) KiB, $3" -v n=$((requests * $3)) -v plain="$plain" -v proved="$proved" \
    'BEGIN { printf "%-22s %12.2f %12.2f %12.2f\n", name, plain / n / 1000, proved / n / 1000, proved / plain }'
done
middle() { sort -n "$1" | sed -n 30p; }
printf '%-22s %12.2f %12.2f %12s\n' 'promotion 32 KiB' "$(middle "$work/copies" | awk '{ print $1 / 1000 }')" \
  "$(middle "$work/promotions" | awk '{ print $1 / 1000 }')" "$(ratio "$(middle "$work/promotions")" "$(middle "$work/copies")")"

# What a flush does to the metadata device after so many blocks were promoted.
printf '\n%-22s %12s %12s\n' 'flush after' 'writes' 'syncs'
for changed in 1 100 10000; do
  files 16384 16384
  "$cache" format "$table" >"$work/said"
  awk -v n="$changed" 'BEGIN { for (b = 0; b < n; b++) printf "r %d 1\nr %d 1\nwork\n", b * 64, b * 64; print "flush" }' >"$work/script"
  strace -f -y -e trace=pwrite64,pwritev,fsync,fdatasync -o "$work/calls" "$cache" run "$table" <"$work/script" >"$work/said"
  # Those of the opening come first: the flush's are what follows the last write to the cache.
  awk -v n="$changed" '
    /c\.img/ && /pwrite/ { writes = 0; syncs = 0 }
    /m\.img/ && /pwrite/ { writes++ }
    /sync\(/ { syncs++ }
    END { printf "%-22s %12d %12d\n", n, writes, syncs }' "$work/calls"
done

# An opening of a full mapping, until a read is answered: each cache block holds the origin block of its number, or one far from its neighbour's.
printf '\n%-22s %12s %12s %12s\n' 'opening of' seconds 'with its end' 'peak MiB'
blocks=1048575
files $blocks 1048576
truncate -s $((2 * 512 * 40000)) "$work/m.img"
"$bench" "$work/m.img" mapping $blocks >"$work/said"
cp --sparse=always "$work/m.img" "$work/near"
python3 "$top/bench/scatter.py" "$work/far" $blocks 1048576 80000
for full in near far; do
  : >"$work/opened"
  for turn in 1 2 3 4 5; do
    cp --sparse=always "$work/$full" "$work/m.img"
    python3 "$top/bench/opened.py" "$cache" "$table" >>"$work/opened"
  done
  sort -n "$work/opened" | sed -n 3p | awk -v n="$blocks blocks, $full" '{ printf "%-22s %12s %12s %12.0f\n", n, $1, $2, $3 / 1024 }'
done

# Hit ratios of traces, of reads that are each followed by its order.
test -n "$traces" || exit 0
printf '\n%-22s %12s %12s\n' 'hits of 40,000' plain proved
for name in zipf scan_zipf loop shift; do
  python3 "$traces" $name 2048 40000 1 >"$work/trace"
  files 256 2048
  "$cache" format "$table" >"$work/said"
  awk '{ printf "r %d 1\nwork\n", $1 * 64 } END { print "status" }' "$work/trace" >"$work/script"
  "$cache" run "$table" <"$work/script" >"$work/said"
  printf '%-22s %12s %12s\n' $name "$("$work/policy" 256 "$work/trace")" "$(tail -n 1 "$work/said" | awk '{ print $5 }')"
done
