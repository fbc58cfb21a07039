#!/bin/sh
# Real clients of wbnbd, command by command, as was seen: docs/CLIENTS.md is what this prints. By hand, not a part of the gate.
#
#     sh scripts/clients.sh [WBCACHE WBNBD [KILLS]] >docs/CLIENTS.md
#
# It wants nbdinfo, nbdcopy, nbdsh (libnbd-bin, python3-libnbd), nbdfuse and fuse3, qemu-img and qemu-io (qemu-utils), fio with its nbd engine, nbd-client,
# systemd-socket-activate, systemd-analyze, e2fsprogs, and python3. The programs are those that scripts/build.sh leaves, where none are said; WHICH says how
# others were made.
# shellcheck disable=SC2016 # what is printed has names of variables in it
set -u
top=$(cd "$(dirname "$0")/.." && pwd)
whole() { echo "$(cd "$(dirname "$1")" && pwd)/$(basename "$1")"; }
work=$(mktemp -d)
left=
trap 'fusermount3 -u -z "$work/clients/disk" 2>/dev/null; kill $left 2>/dev/null; rm -rf "$work"' EXIT
trap 'exit 1' HUP INT TERM
mkdir "$work/bin" "$work/clients"
if test $# -ge 2; then
  ln -s "$(whole "$1")" "$work/bin/wbcache"
  ln -s "$(whole "$2")" "$work/bin/wbnbd"
else
  for program in wbcache wbnbd; do
    sh "$top/scripts/build.sh" "$program" >&2 || exit
    ln -s "$top/bin/$program" "$work/bin/$program"
  done
fi
kills=${3:-50}
case $# in 0 | 1) which='as scripts/build.sh proved and built them' ;; *) which=${WHICH:-that were given} ;; esac
which="$(date -u +%F), commit $(cd "$top" && git rev-parse --short HEAD), programs $which"
for tool in nbdinfo nbdcopy nbdsh nbdfuse fusermount3 qemu-img qemu-io fio nbd-client systemd-socket-activate systemd-analyze mkfs.ext4; do
  command -v $tool >/dev/null || { echo "clients.sh: there is no $tool" >&2; exit 1; }
done
# nbdsh has the module of the distribution's python3.
PATH=$work/bin:/usr/bin:/bin:$PATH:/usr/sbin:/sbin
cd "$work/clients" || exit 1
cp "$top/bench/inetd.py" "$top/docs/systemd/wbnbd.socket" "$top/docs/systemd/wbnbd@.service" .
say() { printf '%s\n' "$*"; }
show() { # commands: each as it is typed, and what it and its server print, within a minute
  say
  while IFS= read -r line; do
    say "    \$ $line"
    eval "$line" >said.txt 2>&1
    sed 's/^/    /' said.txt
  done
}

say "# Clients

Real clients of \`wbnbd\`, as \`sh scripts/clients.sh\` printed them
($which)."
say '[GUIDE.md](GUIDE.md) is for operators, and mounts a file system.

## Versions'
show <<'W'
nbdinfo --version | head -n 1; qemu-img --version | head -n 1; fio --version; nbd-client -V; systemd-socket-activate --version | head -n 1
W
say '
## A cache of 16 MiB over 64 MiB'
show <<'W'
truncate -s 64M o.img; truncate -s 16M c.img; truncate -s 64K m.img
table='cache m.img c.img o.img 64 0 tinylfu 0'
wbcache format "$table"
W
say '
## Started by its client: libnbd'
show <<'W'
nbdsh -c 'h.connect_command(["wbnbd", "-q", "'"$table"'"])' -c 'print(h.get_size(), h.can_flush(), h.can_fua(), h.can_zero(), h.can_trim())' -c 'h.pwrite(b"x" * 512, 0); h.flush(); h.zero(512, 512); print(h.pread(1024, 0)[510:514]); h.shutdown()'
W
say '
With `[ command ]`, nbdinfo, nbdcopy and nbdsh give the command a listening socket as descriptor 3. `wbnbd` serves
standard input and output, and takes no such socket:'
show <<'W'
timeout 20 nbdinfo -- [ wbnbd -q "$table" ] >out.txt 2>reason.txt; echo "status $?"; cat reason.txt
W
say '
`bench/inetd.py` accepts on that socket and starts `wbnbd`. `socat ACCEPT-FD:3 EXEC:./serve`, with a script that starts
`wbnbd`, should do the same; it was not tried:'
show <<'W'
nbdinfo --size -- [ python3 inetd.py - wbnbd -q "$table" ]
head -c 67108864 /dev/urandom >image
nbdcopy -- image [ python3 inetd.py - wbnbd -q --wait 10 "$table" ]
nbdcopy -- [ python3 inetd.py - wbnbd -q --wait 10 "$table" ] copy
cmp image copy && echo the same
W
say '
## Started by systemd, for each connection

`docs/systemd/wbnbd.socket` and `wbnbd@.service` have `Accept=yes` and `StandardInput=socket`. No systemd ran here:
`systemd-socket-activate --inetd -a` does the same with a socket, and `systemd-analyze` finds nothing wrong with the two
files. The signal that stops the service does not end `wbnbd`: it ends when its client does.'
show <<'W'
sed -i "s,/usr/bin/wbnbd,$(command -v wbnbd)," wbnbd@.service; systemd-analyze verify --man=no ./wbnbd.socket ./wbnbd@.service; echo "status $?"
systemd-socket-activate --inetd -a -l "$PWD/disk.sock" wbnbd -q --wait 10 "$table" >told.txt 2>&1 & left=$!
until test -S disk.sock; do sleep 0.1; done; uri='nbd+unix:///?socket=disk.sock'
nbdinfo "$uri" | sed "s,$PWD/,,"
nbdinfo --list "$uri" | head -n 3
nbdcopy "$uri" copy && cmp image copy && echo the same
W
say '
## QEMU'
show <<'W'
qemu-img info "$uri"
qemu-io -f raw -c 'write -P 0x5a 1M 3M' -c flush -c 'read -P 0x5a 1M 3M' -c 'write -f -P 0x77 512 4096' -c 'read -P 0x77 512 4096' "$uri" | grep bytes
qemu-io -f raw -c 'write -z 2M 64k' -c 'read -P 0 2M 64k' -c 'discard 2M 64k' -c 'read -P 0 2M 64k' "$uri" | grep bytes
qemu-img convert -n -f raw -O raw image "$uri" && qemu-img compare -f raw -F raw image "$uri"
W
say '
Trim is not offered: a discard of QEMU then does nothing.

## fio

Random writes of 4 KiB, up to 16 at once, with a flush after each 32nd. Then each is read again and compared:'
show <<'W'
fio --name=load --ioengine=nbd --uri="$uri" --size=64M --io_size=16M --rw=randwrite --bs=4k --iodepth=16 --fsync=32 --verify=crc32c --output=fio.txt; echo "status $?"
grep -c 'err= 0' fio.txt
W
say '
## nbd-client

It makes a block device of the kernel (`/dev/nbd0`), which this machine did not have. The steps before that work: it
lists the one export, which has no name, and gets the size.'
show <<'W'
kill $left; wait $left 2>/dev/null; systemd-socket-activate --inetd -a -l 127.0.0.1:10809 wbnbd -q --wait 10 "$table" >told.txt 2>&1 & left=$!; sleep 1
nbd-client -l 127.0.0.1; echo "status $?"
nbd-client -N '' 127.0.0.1 10809 /dev/nbd0; echo "status $?"
kill $left; wait $left 2>/dev/null; left=
W
say '
## nbdfuse: the origin as a file, and a file system on it'
show <<'W'
mkdir disk mnt tree; echo hello >tree/hello
nbdfuse -P pid disk/nbd --command wbnbd -q "$table" & until test -s pid; do sleep 0.1; done
mkfs.ext4 -q -F -d tree disk/nbd
e2fsck -f -n disk/nbd >check.txt 2>&1; echo "status $?"
fusermount3 -u disk; wait
W
say '
nbdfuse does not wait for `wbnbd`, which flushes after nbdfuse has ended and holds the files until then. The next
`wbnbd` waits for them with `--wait 10`.'
show <<'W'
nbdcopy -- [ python3 inetd.py - wbnbd -q --wait 10 "$table" ] copy; e2fsck -f -n copy >check.txt 2>&1; echo "status $?"
W
say '
## Servers that are killed

Up to 16 writes and flushes at once over 2 MiB, until the server is killed. The next server must show what was flushed,
or a later write:'
say
say "    \$ python3 scripts/nbd_kill.py wbnbd \"\$table\" $kills"
python3 "$top/scripts/nbd_kill.py" "$work/bin/wbnbd" "$table" "$kills" 2>/dev/null | sed 's/^/    /'
say '
**Warning.** A client must not reconnect by itself to the next server: see
[Clients that reconnect](GUIDE.md#clients-that-reconnect).'
