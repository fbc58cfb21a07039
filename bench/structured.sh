#!/bin/sh
# Whether structured replies make reads faster: nbdkit's memory plugin with and without them (--no-sr), read by fio's nbd engine, qemu-img bench and
# nbdcopy, in turn, the one that goes first changing, medians of seven. It says what wbnbd, which offers none, could win at most. It wants nbdkit, fio
# with its nbd engine, qemu-utils and libnbd-bin; what is missing is said. See docs/DECISIONS.md.
#
#     sh bench/structured.sh [TURNS [SECONDS]]      7 turns of 1 second by default
set -eu
turns=${1:-7}
seconds=${2:-1}
for tool in nbdkit fio qemu-img nbdcopy; do
  command -v $tool >/dev/null || { echo "there is no $tool"; exit 1; }
done
work=$(mktemp -d -p "${WORK:-/dev/shm}")
servers=
trap 'kill $servers 2>/dev/null; rm -rf "$work"' EXIT
trap 'exit 1' HUP INT TERM
nbdkit -f --unix "$work/with.sock" memory 64M &
servers=$!
nbdkit -f --no-sr --unix "$work/without.sock" memory 64M &
servers="$servers $!"
for name in with without; do
  while ! test -S "$work/$name.sock"; do sleep 0.1; done
  head -c 67108864 /dev/urandom >"$work/image"
  nbdcopy "$work/image" "nbd+unix:///?socket=$work/$name.sock"
  nbdinfo "nbd+unix:///?socket=$work/$name.sock" | head -n 1
done

reads() { # server, size, depth: reads a second by fio
  fio --name=load --ioengine=nbd --uri="nbd+unix:///?socket=$work/$1.sock" --size=64M --group_reporting --output-format=terse --terse-version=3 \
    --rw=randread --bs="$2" --iodepth="$3" --runtime="$seconds" --time_based 2>"$work/errors" | awk -F';' 'NF > 100 { printf "%d\n", $8 }'
}
benched() { # server, bytes, depth: reads a second by qemu-img
  qemu-img bench -f raw -c 40000 -d "$3" -s "$2" "nbd+unix:///?socket=$work/$1.sock" | awk '/Run completed/ { printf "%d\n", 40000 / $4 }'
}
copied() { # server: MiB a second by nbdcopy, 16 times 64 MiB
  begun=$(date +%s%N)
  for _ in 1 2 3 4 5 6 7 8 9 10 11 12 13 14 15 16; do nbdcopy "nbd+unix:///?socket=$work/$1.sock" null:; done
  echo $((16 * 64 * 1000000000 / ($(date +%s%N) - begun)))
}
row() { # what is measured, a command that takes the server's name: the medians
  what=$1
  shift
  rm -f "$work"/*.rates
  turn=0
  while test $turn -lt "$turns"; do
    order='with without'
    test $((turn % 2)) = 0 || order='without with'
    for name in $order; do
      call=$1
      shift
      $call "$name" "$@" >>"$work/$name.rates"
      set -- "$call" "$@"
    done
    turn=$((turn + 1))
  done
  for name in with without; do sort -n "$work/$name.rates" | sed -n "$(((turns + 1) / 2))p" >"$work/$name.median"; done
  paste "$work/with.median" "$work/without.median" | awk -v name="$what" '{ printf "%-34s %10d %10d %8.3f\n", name, $1, $2, $1 / $2 }'
}
uptime
printf '%-34s %10s %10s %8s\n' 'medians' with without ratio
row 'fio, 4 KiB, depth 1, reads/s' reads 4k 1
row 'fio, 4 KiB, depth 16, reads/s' reads 4k 16
row 'fio, 64 KiB, depth 16, reads/s' reads 64k 16
row 'qemu-img bench, 4 KiB, depth 16' benched 4096 16
row 'nbdcopy, MiB/s' copied
uptime
