#!/bin/sh
# wbnbd in bad weather, by bytes that a client sends: how a connection ends, a device that fails, files that are held, too few threads, descriptors
# or memory, streams that do not wait, and what it tells. It prints what failed, and at the end 'N passed, N failed'; its status is 0 where
# nothing failed.
#
#     sh scripts/check-nbd.sh WBCACHE WBNBD
set -u
top=$(cd "$(dirname "$0")/.." && pwd)
whole() { echo "$(cd "$(dirname "$1")" && pwd)/$(basename "$1")"; }
cache=$(whole "$1")
server=$(whole "$2")
. "$top/scripts/checks.sh"
work=$(mktemp -d)
trap 'rm -rf "$work"' EXIT
chmod 755 "$work"
cd "$work" || exit 1

table='cache m.img c.img o.img 64 0 tinylfu 0'
fresh() { # files of zeros, formatted
  rm -f m.img c.img o.img
  truncate -s 2048 m.img
  truncate -s 131072 c.img
  truncate -s 327680 o.img
  "$cache" format "$table" >/dev/null 2>&1
}
bytes() { # a number, how many bytes it has: these, the highest first
  number=$1 width=$2 spelled=''
  while test "$width" -gt 0; do
    spelled="\\0$(printf '%o' $((number % 256)))$spelled"
    number=$((number / 256))
    width=$((width - 1))
  done
  printf '%b' "$spelled"
}
hello_to() { # a name: the export of this name
  printf '\000\000\000\003IHAVEOPT\000\000\000\007'
  bytes $((6 + ${#1})) 4
  bytes ${#1} 4
  printf '%s\000\000' "$1"
}
start_at() { # a name: the same, by the option that is answered with the size alone
  printf '\000\000\000\003IHAVEOPT\000\000\000\001'
  bytes ${#1} 4
  printf '%s' "$1"
}
hello() { printf '\000\000\000\003IHAVEOPT\000\000\000\007\000\000\000\006\000\000\000\000\000\000'; }
request() { # command, cookie, first byte, how many
  printf '\045\140\225\023\000\000'
  bytes "$1" 2
  bytes "$2" 8
  bytes "$3" 8
  bytes "$4" 4
}
read_of() { request 0 "$@"; }
write_of() { # cookie, first byte, how many: of zeros
  request 1 "$@"
  head -c "$3" /dev/zero
}
flush_of() { request 3 "$1" 0 0; }
goodbye() { request 2 99 0 0; }
serve() { # arguments: what comes from standard input is sent; out.bin and told.txt have what it answers and tells, status.txt its status
  timeout 30 "$server" "$@" >out.bin 2>told.txt
  echo $? >status.txt
}
status() { cat status.txt; }
replies() { # the errors and the cookies of the replies without data, behind the handshake
  tail -c +105 out.bin | od -An -v -tx1 -w16 | awk '$1 $2 $3 $4 == "67446698" { print $8 ":" $16 }' | sort | tr '\n' ' '
}

# --- How a connection ends.
fresh
{ hello; write_of 1 0 512; flush_of 2; goodbye; } | serve "$table"
check 'a client that ends the connection' "$(status) $(replies)" '0 00:01 00:02 '
clean() { # whether the newest root says that the cache was left clean
  first=$(od -An -t u8 -j 8 -N 8 m.img | tr -d ' ')
  second=$(od -An -t u8 -j 520 -N 8 m.img | tr -d ' ')
  if test "$first" -gt "$second"; then at=20; else at=532; fi
  od -An -t u1 -j $at -N 1 m.img | tr -d ' '
}
check 'and leaves the cache clean' "$(clean)" 1
{ hello; write_of 1 0 512; flush_of 2; } | serve "$table"
check 'a client that goes between two requests' "$(status) $(replies)" '0 00:01 00:02 '
{ hello; write_of 1 0 512; request 3 2 0 0 | head -c 20; } | serve "$table"
check 'a client that goes in the middle of one' "$(status) $(replies)" '4 00:01 '
has 'and why' "$(cat told.txt)" "wbnbd: the client's end is gone"
hello | head -c 10 | serve "$table"
check 'a client that goes before the first request' "$(status)" 4
{ hello; request 3 1 512 0; request 3 2 0 512; flush_of 3; goodbye; } | serve "$table"
check 'a flush of a part is invalid' "$(replies)" '00:03 16:01 16:02 '

# --- By which name a client asks, and where it writes past the end.
for name in disk2 a/long/name/with/many/words/in/it; do
  { hello_to "$name"; write_of 1 0 512; goodbye; } | serve "$table"
  check "an export of the name $name" "$(status) $(wc -c <out.bin) $(replies)" "0 $((104 + 16)) 00:01 "
  { start_at "$name"; write_of 1 0 512; goodbye; } | serve "$table"
  check "the same by the other option" "$(status) $(wc -c <out.bin)" "0 $((18 + 10 + 16))"
done
{ hello; write_of 1 327680 512; write_of 2 327168 1024; read_of 3 327680 512; write_of 4 327168 512; goodbye; } | serve "$table"
check 'a write past the end finds no room, and a read is invalid' "$(status) $(replies)" '0 00:04 16:03 1c:01 1c:02 '

# --- Zeros: where they are asked for and nowhere else, in sectors of the cache too, any number of them, and durable where that is wanted.
fresh
full_of() { # a byte, how many
  head -c "$2" /dev/zero | tr '\0' "$1"
}
{ hello; request 1 1 0 2048; full_of x 2048; request 6 2 512 1024; read_of 3 0 2048; goodbye; } | serve "$table"
{ full_of x 512; full_of '\000' 1024; full_of x 512; } >wanted.bin
check 'zeros within what was written' "$(status) $(tail -c 2048 out.bin | cmp - wanted.bin 2>&1)." '0 .'
fresh
printf 'w 0 4 22\nr 0 4\nwork\nw 0 4 33\nsuspend\n' | "$cache" run "$table" >/dev/null
{ hello; request 6 1 512 1024; read_of 2 0 2048; goodbye; } | serve "$table"
{ full_of 3 512; full_of '\000' 1024; full_of 3 512; } >wanted.bin
check 'what was opened over a cached block' "$(head -n 1 told.txt)" 'wbnbd: opened 640 sectors; 1 of 4 cache blocks mapped, 1 dirty'
check 'zeros in a block that is cached' "$(status) $(tail -c 2048 out.bin | cmp - wanted.bin 2>&1). $(head -c 512 o.img | tr -d '"' | wc -c)" '0 . 0'
{ hello; request 6 1 0 327680; request 6 2 0 4294966784; request 6 3 327680 512; flush_of 4; goodbye; } | serve "$table"
check 'zeros all over the origin, and past its end' "$(status) $(replies)" '0 00:01 00:04 1c:02 1c:03 '
check 'and then it reads as zeros' "$(printf 'r 0 640\n' | "$cache" run "$table" | cut -d' ' -f2 | sort -u)" 00
fresh

# --- The policy of the table, and what a server leaves to the next opening. Block 0 is read thrice and another one once behind it, so that the worker
# has had an order of a policy that gives any; the status line at the end says how many blocks came.
for policy in default cleaner; do
  fresh
  mkfifo sends
  timeout 30 "$server" "cache m.img c.img o.img 64 1 writeback $policy 0" <sends >out.bin 2>told.txt &
  running=$!
  exec 3>sends
  { hello; read_of 1 0 512; read_of 2 0 512; read_of 3 0 512; read_of 4 32768 512; } >&3
  sleep 1
  goodbye >&3
  exec 3>&-
  wait "$running"
  rm -f sends
  echo "$? $(tail -n 1 told.txt | cut -d' ' -f5,11,18)"
done >policies.txt
check 'the policy that the table names' "$(tr '\n' '/' <policies.txt)" '0 1/4 1 tinylfu/0 0/4 0 cleaner/'
fresh
for block in 0 64 128 192; do printf 'r %s 1\nr %s 1\nwork\n' $block $block; done >fill.txt
{ cat fill.txt; echo suspend; } | "$cache" run "$table" >/dev/null
{ hello; read_of 1 0 512; read_of 2 65536 512; read_of 3 98304 512; goodbye; } | serve "$table"
check 'a block that no client asked for is the next to leave' "$(status) $(printf 'r 256 1\nr 256 1\nwork\n' | "$cache" run "$table" | tail -n 1)" '0 replaced 1 by 4 at 1'
fresh

# --- What is told.
{ hello; goodbye; } | serve "$table"
check 'what was opened, and how it stands at the end' "$(sed 's/ [0-9]*\/4 64 .*/ ../' told.txt)" 'wbnbd: opened 640 sectors; 0 of 4 cache blocks mapped, 0 dirty
wbnbd: 1 ..'
{ hello; goodbye; } | serve -q "$table"
check 'nothing is told where that is asked' "$(status)$(cat told.txt)" 0
said=$("$server" --help)
has 'help tells of signals' "$said" 'A signal ends it at once, and what was not
flushed is lost then'
has 'and of locks' "$said" 'are locked as long as it runs'
has 'and of ends' "$said" 'To stop it in order, end the client.'
echo | serve --wait x "$table"
check 'a wait of no number' "$(status) $(cat told.txt)" '2 usage: wbnbd [-q] [--wait SECONDS] [--control FILE] [--no-verify] [--accept-older] TABLE'

# --- Files that cannot serve.
truncate -s 0 n.img
truncate -s 2048 n.img
hello | serve 'cache n.img c.img o.img 64 0 tinylfu 0'
check 'files that are not formatted' "$(status) $(grep -c 'NotFormatted: the metadata file has no valid root' told.txt)" '1 1'
fresh
truncate -s 163840 c.img
hello | serve "$table"
check 'a file of another size' "$(status) $(cat told.txt)" '1 wbnbd: 12 Mismatch: the metadata were formatted for a cache of 256 sectors, and it has 320'
fresh
hello | serve 'cache m.img c.img o.img 128 0 tinylfu 0'
check 'another block size' "$(status) $(cat told.txt)" '1 wbnbd: 12 Mismatch: the metadata were formatted for blocks of 64 sectors, and not of 128'
fresh
few() { # so many descriptors
  # shellcheck disable=SC2016 # it is the text of a script
  sh -c 'ulimit -n "$1"; exec timeout 30 "$2" "$3"' few "$1" "$server" "$table" >out.bin 2>told.txt
  echo $? >status.txt
}
{ hello; write_of 1 0 512; flush_of 2; goodbye; } | few 7
check 'seven descriptors' "$(status) $(replies)" '0 00:01 00:02 '
{ hello; goodbye; } | few 5
check 'too few descriptors' "$(status) $(grep -c 'origin file o.img: Too many open files' told.txt)" '3 1'

# --- Files that another program holds.
fresh
mkfifo script answers
"$cache" run "$table" <script >answers &
holder=$!
exec 3>script 4<answers
echo 'r 0 1' >&3
read -r _ <&4
{ hello; goodbye; } | serve --wait 0 "$table"
check 'a wait that runs out' "$(status) $(cat told.txt)" "3 wbnbd: metadata file m.img: locked, by another program or as another device of the table"
check 'and then nothing is served beside the program that holds them' "$(wc -c <out.bin)" 0
(exec 3>&- 4<&-; { hello; goodbye; } | serve --wait 20 "$table") &
waiting=$!
exec 3>&- 4<&-
wait "$holder"
wait "$waiting"
check 'a wait that is over in time' "$(status) $(grep -c opened told.txt)" '0 1'

# --- A device that fails: a shell ignores the signal of the limit of the file size.
fresh
# The flush is sent once the failure was told: before that it may succeed, since no write was answered.
told() { until grep -q 'file:' told.txt; do sleep 0.1; done; sleep 0.5; }
rm -f told.txt
(trap '' XFSZ; ulimit -f 100; { hello; write_of 1 199680 512; write_of 2 0 512; told 2>/dev/null; flush_of 3; goodbye; } | serve "$table")
check 'a device that fails ends it with 3' "$(status)" 3
check 'and which is told, with the reason, once' "$(grep 'file:' told.txt)" 'wbnbd: origin file: a write failed at sector 390: File too large (os error 27)'
has 'and what it came to' "$(cat told.txt)" 'wbnbd: the last flush was refused'
check 'no reply without an error for a step that failed' "$(replies | tr ' ' '\n' | grep -c '^00:0[13]')" 0
has 'a file that may not grow has no room' "$(replies)" '1c:01'

# The same where the file system is full, in a mount of its own, where such can be had.
cat >full.sh <<'SCRIPT'
mount -t tmpfs -o size=1m none mnt || exit 77
cd mnt || exit 1
truncate -s 2048 m.img
truncate -s 131072 c.img
truncate -s 327680 o.img
"$1" format "$3" >/dev/null || exit 1
head -c 2000000 /dev/zero >rest 2>/dev/null
timeout 30 "$2" "$3" <../sent >../out.bin 2>../told.txt
SCRIPT
mkdir mnt
{ hello; write_of 1 0 512; goodbye; } >sent
case $(id -u) in 0) alone='unshare -m' ;; *) alone='unshare -rm' ;; esac
if $alone sh -c 'mount -t tmpfs none mnt' 2>/dev/null; then
  $alone sh full.sh "$cache" "$server" "$table"
  check 'a full file system' "$? $(replies) $(grep 'file:' told.txt)" '3 1c:01  wbnbd: origin file: a write failed at sector 0: No space left on device (os error 28)'
else
  echo 'not tried: a full file system, since nothing can be mounted here'
fi

# A worker that fails beside: it is told at once, and the flush at the end is none.
fresh
mkfifo sends tells
(trap '' XFSZ; ulimit -f 8; exec timeout 30 "$server" "$table" <sends >out.bin 2>tells) &
running=$!
exec 3>sends 4<tells
{ hello; read_of 1 32768 512; read_of 2 32768 512; } >&3
read -r _ <&4
read -r told <&4
check 'what the worker beside met is told at once' "$told" 'wbnbd: cache file: a write failed at sector 8: File too large (os error 27)'
goodbye >&3
exec 3>&-
cat <&4 >told.txt
exec 4<&-
wait "$running"
check 'a server whose last flush is refused does not end with 0' "$? $(tail -n 1 told.txt)" '3 wbnbd: the last flush was refused: what was written since the flush before may be lost'
rm -f sends tells

# --- A client that does not listen: what it asks for is not done, once a reply could not be written.
fresh
(trap '' PIPE; { hello; for cookie in 1 2 3 4 5 6 7 8; do read_of $cookie 0 65536; done; } 2>/dev/null | timeout 30 "$server" "$table" 2>told.txt >/dev/full; echo $? >status.txt)
check 'a client that cannot be told anything' "$(status) $(grep -c 'a reply cannot be written' told.txt)" '4 1'

# --- Closed descriptors: none of the files takes their numbers.
fresh
data() { cksum c.img o.img | cut -d' ' -f1 | tr '\n' ' '; }
before=$(data)
{ hello; goodbye; } >sent
timeout 30 "$server" "$table" <&- >out.bin 2>told.txt
check 'a server without a standard input' "$? $(wc -c <out.bin) $(tail -n 1 told.txt)" "4 18 wbnbd: the client's end is gone"
timeout 30 "$server" "$table" <sent >&- 2>told.txt
check 'a server without a standard output' "$? $(tail -n 1 told.txt)" '4 wbnbd: a reply cannot be written'
timeout 30 "$server" "$table" <sent 2>&- >out.bin
check 'a server without a standard error serves' "$? $(wc -c <out.bin)" '0 104'
timeout 30 "$server" "$table" <&- >&- 2>&-
check 'a server without any, which leaves the files' "$? $(data)" "4 $before"

# --- Streams that do not wait: whoever starts the programs may have made them so.
if command -v python3 >/dev/null; then
  fresh
  cat >unwaiting.py <<'SCRIPT'
import os, subprocess, sys, time
program, sent = sys.argv[1:-1], sys.argv[-1].encode().decode("unicode_escape").encode("latin-1")
(their_input, our_input), (our_output, their_output) = os.pipe(), os.pipe()
os.set_blocking(their_input, False)
os.set_blocking(their_output, False)
with subprocess.Popen(program, stdin=their_input, stdout=their_output) as process:
    os.close(their_input)
    os.close(their_output)
    # so that it finds nothing to read at first
    time.sleep(0.3)
    os.write(our_input, sent)
    os.close(our_input)
    data = b""
    while more := os.read(our_output, 65536):
        data += more
print(process.returncode, len(data))
SCRIPT
  check 'a server over streams that do not wait' "$(timeout 30 python3 unwaiting.py "$server" -q "$table" \
    '\0\0\0\3IHAVEOPT\0\0\0\7\0\0\0\6\0\0\0\0\0\0\x25\x60\x95\x13\0\0\0\0\0\0\0\0\0\0\0\1\0\0\0\0\0\0\0\0\0\4\0\0\x25\x60\x95\x13\0\0\0\2\0\0\0\0\0\0\0\2\0\0\0\0\0\0\0\0\0\0\0\0')" "0 $((104 + 16 + 262144))"
  check 'a script over streams that do not wait' "$(timeout 30 python3 unwaiting.py "$cache" run "$table" 'w 0 1 11\nr 0 1\n')" '0 8'
else
  echo 'not tried: there is no python3, by which streams are made that do not wait'
fi

# --- Too few threads, and too little address space: it serves, and ends. Root has no limit of threads.
as_somebody() { if test "$(id -u)" = 0; then setpriv --reuid=65534 --regid=65534 --clear-groups "$@"; else "$@"; fi; }
cp "$server" few
chmod 755 few
for threads in 1 2 5 9; do
  fresh
  chmod 666 ./*.img
  { hello; write_of 1 0 512; read_of 2 512 512; flush_of 3; goodbye; } >sent
  # shellcheck disable=SC2016 # it is the text of a script
  as_somebody sh -c 'ulimit -u "$1"; exec timeout 30 "$2" "$3" <sent' few "$threads" ./few "$table" >out.bin 2>told.txt
  check "no more than $threads threads" "$? $(wc -c <out.bin)" "0 $((104 + 16 + 16 + 512 + 16))"
done
fresh
{ hello; write_of 1 0 512; flush_of 2; goodbye; } >sent
for space in 20000 40000 60000 90000; do
  # shellcheck disable=SC3045 # where the shell has it
  (ulimit -v "$space" && exec timeout 30 "$server" "$table") <sent >out.bin 2>told.txt
  ended=$?
  check "$space KB of address space" "$(test "$ended" = 0 || test "$ended" = 1 && echo ends)" ends
done

# --- An idle server: it wakes seldom, and writes back what is dirty. Nothing but time tells.
fresh
mkfifo sends
timeout 30 "$server" "$table" <sends >out.bin 2>told.txt &
running=$!
exec 3>sends
{ hello; read_of 1 32768 512; read_of 2 32768 512; } >&3
sleep 1
write_of 3 32768 512 >&3
sleep 3
switches() { awk '/^voluntary_ctxt_switches/ { count += $2 } END { print count }' /proc/"$(pgrep -P "$running" || echo "$running")"/task/*/status; }
before=$(switches)
sleep 1
after=$(switches)
check 'an idle server wakes seldom' "$(test $((after - before)) -lt 60 && echo yes || echo $((after - before)))" yes
exec 3>&-
wait "$running"
check 'and has nothing dirty' "$(tail -n 1 told.txt | cut -d" " -f12)" 0

# --- Lines of a control file: those that it had are passed over, and each is answered as it ends.
fresh
echo flush >control
timeout 30 "$server" --control control "$table" <sends >out.bin 2>told.txt &
running=$!
exec 3>sends
hello >&3
sleep 1
printf '# a comment\n\nstatus\nflush\ntick\nmessage promote_min 18\nmessage promote_min 3\nmessage invalidate_cblocks 0-1\nnonsense\nsta' >>control
sleep 1
printf 'tus\n' >>control
sleep 1
exec 3>&-
wait "$running"
figures='1 2/4 64 0/4 0 0 0 0 0 0 0 1 writeback 2 migration_threshold 2048 tinylfu 2 promote_min'
check 'lines of a control file' "$(sed '1d;$d;s/^wbnbd: //' told.txt | tr '\n' '/')" \
  "$figures 2 rw -/ok/ok/refused 14 BadMessage/ok/refused 15 WrongMode/bad line/$figures 3 rw -/"
mkfifo pipe
hello | serve --control pipe "$table"
check 'a FIFO is no control file' "$(status) $(cat told.txt)" '1 wbnbd: control file pipe: invalid input parameter'

tell
