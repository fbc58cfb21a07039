#!/bin/sh
# Scripts that ask clients beside the first: many lines of eight on one target, too few threads or descriptors, more than may wait for a join,
# a writer that fails, and a reader that does. It prints what failed, and at the end 'N passed, N failed'; its status is 0 where nothing failed.
#
#     sh scripts/check-clients.sh WBCACHE
set -u
top=$(cd "$(dirname "$0")/.." && pwd)
cache=$(cd "$(dirname "$1")" && pwd)/$(basename "$1")
. "$top/scripts/checks.sh"
work=$(mktemp -d)
trap 'rm -rf "$work"' EXIT
chmod 755 "$work"
cd "$work" || exit 1

table='cache m.img c.img o.img 64 0 tinylfu 0'
fresh() { # files of zeros, formatted
  rm -f m.img c.img o.img
  truncate -s 2048 m.img
  truncate -s 131072 c.img
  truncate -s 327680 o.img
  "$cache" format "$table" >/dev/null 2>&1
}
play() { # the script stands in script.txt: told.txt has its answers, status.txt its exit status
  timeout 60 "$@" "$cache" run "$table" <script.txt >told.txt 2>reason.txt
  echo $? >status.txt
}
lines() { grep -c "$1" told.txt; }

# --- Eight clients with 10,000 lines each, while the first carries orders out: each line is answered once, and counted once.
fresh
awk 'BEGIN {
  for (i = 0; i < 10000; i++) {
    for (k = 1; k <= 8; k++) {
      s = (i * 7 + k * 61) % 640
      if (i % 3) print "@" k " r " s " 1"; else printf "@%d w %d 1 %02x\n", k, s, k
    }
    if (i % 100 == 0) print "work"
  }
  print "join"
  print "status"
}' >script.txt
play
check 'eight clients with 10,000 lines each' "$(cat status.txt) $(lines '^@') $(lines '^@. ok$')" '0 80000 26672'
check 'are counted line by line' "$(awk '/ rw -$/ { print $5 + $6, $7 + $8 }' told.txt)" '53328 26672'
check 'and answered client by client' "$(awk '/^@/ && $1 != last { print last = $1 }' told.txt | tr '\n' ' ')" '@1 @2 @3 @4 @5 @6 @7 @8 '

# --- Too few threads: the script does the lines itself. Root has no limit of threads.
as_somebody() { if test "$(id -u)" = 0; then setpriv --reuid=65534 --regid=65534 --clear-groups "$@"; else "$@"; fi; }
cp "$cache" few
chmod 755 few
printf '@1 w 0 1 11\n@2 w 64 1 22\n@1 r 0 1\njoin\nr 64 1\n@2 r 64 1\n' >script.txt
for threads in 1 2 3; do
  fresh
  chmod 666 ./*.img
  # shellcheck disable=SC2016 # it is the text of a script
  as_somebody sh -c 'ulimit -u "$1"; exec timeout 30 ./few run "$2" <script.txt' few "$threads" "$table" >told.txt 2>reason.txt
  check "no more than $threads threads" "$? $(tr '\n' '/' <told.txt)" '0 @1 ok/@1 0 11/@2 ok/64 22/@2 64 22/'
done

# --- Few descriptors: the files are opened once, whatever clients there are; with too few, the run is refused.
printf '@1 r 0 1\nr 0 1\n@1 r 1 1\njoin\nw 0 1 11\n' >script.txt
fresh
# shellcheck disable=SC2016 # it is the text of a script
sh -c 'ulimit -n "$1"; exec timeout 30 "$2" run "$3"' few 6 "$cache" "$table" <script.txt >told.txt 2>reason.txt
check 'a client with six descriptors' "$? $(tr '\n' '/' <told.txt)" '0 0 00/@1 0 00/@1 1 00/ok/'
# shellcheck disable=SC2016 # it is the text of a script
sh -c 'ulimit -n "$1"; exec timeout 30 "$2" -v run "$3"' few 5 "$cache" "$table" <script.txt >told.txt 2>reason.txt
check 'too few descriptors' "$? $(tr '\n' '/' <told.txt) $(grep -c 'origin file o.img: Too many open files' reason.txt)" '3 refused 5 Io origin/ 1'

# --- More than may wait for a join: 1,048,576 lines of answers of a client.
fresh
awk 'BEGIN { for (i = 0; i < 1640; i++) print "@1 r 0 640"; print "@2 r 0 1"; print "join"; print "@1 r 5 1" }' >script.txt
play
check 'more answers than may wait for a join' "$(cat status.txt) $(lines '^@1 [0-9]') $(lines '^@1 refused 7 Memory$') $(tail -n 2 told.txt | tr '\n' '/')" '1 1048321 2 @2 0 00/@1 5 00/'

# --- A writer that fails while clients have lines to do: all of them end.
fresh
printf '@1 w 0 1 11\n@2 w 64 1 22\nr 128 1\n@1 r 0 1\n' >script.txt
timeout 60 "$cache" -v run "$table" <script.txt >/dev/full 2>reason.txt
check 'a writer that fails beside clients' "$? $(tail -n 1 reason.txt)" '4 wbcache: an answer cannot be written'

# --- A reader that fails beside them: a terminal that is gone once its lines are read. What they answered is printed.
if command -v python3 >/dev/null; then
  fresh
  timeout 60 python3 -c 'import os, pty, subprocess, sys, tty
reader, writer = pty.openpty()
tty.setraw(writer)
os.write(writer, b"@1 w 0 1 11\n@2 w 64 1 22\nr 128 1\n@1 r 0 1\n")
os.close(writer)
sys.exit(subprocess.run(sys.argv[1:], stdin=reader).returncode)' "$cache" -v run "$table" >told.txt 2>reason.txt
  check 'a reader that fails beside clients' "$? $(tr '\n' '/' <told.txt) $(tail -n 1 reason.txt)" \
    '4 128 00/@1 ok/@1 0 11/@2 ok/ wbcache: the script cannot be read further'
else
  echo 'not tried: there is no python3, by which a reader fails'
fi

tell
