#!/bin/sh
# A walk from empty files to a mounted, cached, killed, reopened and drained file system: it prints each command and what that prints. By hand, for a look
# at a whole life on this machine; docs/GUIDE.md says what operators do, and scripts/guide.py tries that.
# As root, on Linux with /dev/fuse and loop devices, e2fsprogs and python3; nbdfuse does what scripts/fuse_nbd.py does here, where it is there.
#
#     sh scripts/walk.sh [WBCACHE WBNBD WBMETA]
#
# The programs are those that scripts/build.sh leaves, where none are said.
set -u
top=$(cd "$(dirname "$0")/.." && pwd)
whole() { echo "$(cd "$(dirname "$1")" && pwd)/$(basename "$1")"; }
work=$(mktemp -d)
trap 'rm -rf "$work"' EXIT
mkdir "$work/bin" "$work/walk"
if test $# = 3; then
  ln -s "$(whole "$1")" "$work/bin/wbcache"
  ln -s "$(whole "$2")" "$work/bin/wbnbd"
  ln -s "$(whole "$3")" "$work/bin/wbmeta"
else
  for program in wbcache wbnbd wbmeta; do
    sh "$top/scripts/build.sh" "$program" >&2 || exit
    ln -s "$top/bin/$program" "$work/bin/$program"
  done
fi
PATH=$work/bin:$PATH
cd "$work/walk" || exit 1
say() { printf '%s\n' "$*"; }
show() { # commands: each as it is typed, and what it prints
  say
  while IFS= read -r line; do
    say "    \$ $line"
    eval "$line" 2>&1 | sed 's/^/    /'
  done
}
set_up() { # the same, for what stays behind
  say
  while IFS= read -r line; do
    say "    \$ $line"
    eval "$line" >said.txt 2>&1
    sed 's/^/    /' said.txt
  done
}
mounted() { until test -e disk/nbd; do sleep 0.1; done; }
serve() { python3 "$top/scripts/fuse_nbd.py" disk wbnbd "$table" >server.txt 2>told.txt & }

say '# A walk

From empty files to a file system that is mounted, cached, killed, opened again and drained, command by command.
`serve` starts `scripts/fuse_nbd.py disk wbnbd "$table"`, which shows what `wbnbd` serves as the file `disk/nbd`, as `nbdfuse disk/nbd --command wbnbd "$table"` does.

## Three files: 64 MiB of origin, a cache of 16 MiB, 64 KiB of metadata'
set_up <<'W'
truncate -s 64M o.img; truncate -s 16M c.img; truncate -s 64K m.img
table='cache m.img c.img o.img 64 0 tinylfu 0'
wbcache format "$table"
wbmeta check "$table"
W
say '
## A file system on it'
set_up <<'W'
mkdir disk mnt; serve; mounted
mkfs.ext4 -q disk/nbd
mount -o loop disk/nbd mnt
cp -R /usr/include/linux mnt/; sync
for turn in 1 2 3; do cat mnt/linux/*.h >mnt/all$turn; sync; done
du -s -h mnt | cut -f1
umount mnt; umount disk; wait
cat told.txt
W
say '
The second line is the status line, of which docs/GUIDE.md lists the fields.
The server ended in order, so the cache is clean, though not all of it is home:'
show <<'W'
wbmeta check "$table"
W
say '
## Killed in the middle of writing'
set_up <<'W'
serve; mounted
mount -o loop disk/nbd mnt
echo 'what was synced is there' >mnt/synced; sync mnt/synced
yes more >mnt/growing 2>more.txt & writer=$!
sleep 1; kill -KILL "$(cat server.txt)"; kill $writer 2>/dev/null
umount mnt; umount -l disk; wait
wbmeta check "$table" | cut -d' ' -f1,3
W
say '
Unclean: each cached block counts as dirty now. Opened again, the journal is replayed, and nothing else is to be mended:'
set_up <<'W'
serve; mounted
e2fsck -p disk/nbd | sed 's/^.*: recover/recover/; s/^.*: clean.*/clean/'
e2fsck -f -n disk/nbd >check.txt 2>&1; echo "status $?"
mount -o loop disk/nbd mnt
cat mnt/synced
cat mnt/linux/*.h | cmp - mnt/all3 && echo the same
umount mnt; umount disk; wait
W
say '
## Drained: then the origin alone is the file system'
set_up <<'W'
wbmeta writeback "$table" | sed 's/[0-9][0-9]*/N/'
wbmeta check "$table" | cut -d' ' -f1,3,5
e2fsck -f -n o.img >check.txt 2>&1; echo "status $?"
mount -o loop,ro o.img mnt
cat mnt/synced
umount mnt
W
