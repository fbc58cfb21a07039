#!/bin/sh
# The programs and the scripts, from outside: the rows of scripts/cases, what formatting leaves, builds (scripts/check-build.sh),
# closed descriptors, files that another program holds, a limit of the file size, help and version. It prints what
# failed, and at the end 'N passed, N failed'; its status is 0 where nothing failed.
#
#     sh scripts/check-program.sh [WBCACHE WB_BENCH WBNBD WBMETA]
#
# tries these programs, as the gate built them, or else those that scripts/build.sh leaves.
set -u
top=$(cd "$(dirname "$0")/.." && pwd)
whole() { echo "$(cd "$(dirname "$1")" && pwd)/$(basename "$1")"; }
if test $# = 4; then
  cache=$(whole "$1")
  bench=$(whole "$2")
  server=$(whole "$3")
  meta=$(whole "$4")
else
  cache=$top/bin/wbcache
  bench=$top/bin/wb_bench
  server=$top/bin/wbnbd
  meta=$top/bin/wbmeta
fi
. "$top/scripts/checks.sh"
work=$(mktemp -d)
trap 'rm -rf "$work"' EXIT

call "$top/scripts/check-build.sh"

# --- The programs.
if test $# != 4; then
  for program in wbcache wb_bench wbnbd wbmeta; do
    if ! sh "$top/scripts/build.sh" "$program"; then
      echo "failed: $program cannot be built"
      failed=$((failed + 1))
      tell
      exit 1
    fi
  done
fi
call "$top/scripts/check-nbd.sh" "$cache" "$server"
call "$top/scripts/check-replays.sh" "$cache"
call "$top/scripts/check-clients.sh" "$cache"
if command -v python3 >/dev/null; then
  call "$top/scripts/memory.py"
  call "$top/scripts/every_step.py" "$cache"
  call "$top/scripts/every_opening.py" "$cache"
  call "$top/scripts/lives.py" "$cache"
  call "$top/scripts/lives_files.py" "$cache" "$server"
  call "$top/scripts/images.py" "$bench"
  call "$top/scripts/twin.py" "$cache"
  call "$top/scripts/weather.py" "$cache" "$server"
  call "$top/scripts/syncs.py" "$cache"
  call "$top/scripts/large.py" "$cache" "$meta" "$bench"
  call "$top/scripts/check-operator.py" "$cache" "$server" "$meta"
  call "$top/scripts/real_faults.py" "$cache" "$server" "$meta" 10
  call "$top/scripts/check-meta.py" "$meta" "$cache"
  call "$top/scripts/power.py" "$cache" "$server" "$meta"
  call "$top/scripts/manual.py" "$cache" "$server" "$meta"
  call "$top/scripts/commands.py" "$cache" "$server" "$meta"
  call "$top/scripts/guide.py" "$cache" "$server" "$meta"
  call "$top/scripts/errors.py"
  call "$top/scripts/prose.py"
else
  echo 'not tried: there is no python3, by which stops, faults, lives, images and bad weather are played'
fi
cd "$work" || exit 1
blank() { # files of zeros
  rm -f m.img c.img o.img
  truncate -s 2048 m.img
  head -c 131072 /dev/zero >c.img # with all its bytes allocated
  truncate -s 327680 o.img
}
fresh() { # the same, formatted
  blank
  cp formatted.img m.img
}
wide() { # features: files with a sector of metadata more, formatted by a table with these
  blank
  truncate -s 2560 m.img
  "$cache" format "cache m.img c.img o.img 64 $1 tinylfu 0" >out.txt
}
table='cache m.img c.img o.img 64 0 tinylfu 0'
second='cache m.img c.img o.img 64 1 metadata2 tinylfu 0'
sums() { cksum m.img c.img o.img | cut -d' ' -f1 | tr '\n' ' '; }
# --- A release: its files are those that it lists, and its programs run where nothing else is.
release=$(sh "$top/scripts/package.sh" "$work/raistobe.tar.gz" "$cache" "$server" "$meta")
tar -xzf "$release"
check 'the files of a release' "$(cd raistobe && sha256sum --quiet -c SHA256SUMS 2>&1; find . -type f | wc -l)" "$(($(wc -l <raistobe/SHA256SUMS) + 1))"
blank
check 'its programs run' "$(env -i raistobe/bin/wbcache format "$table") $(env -i raistobe/bin/wbmeta check "$table") $(env -i raistobe/bin/wbnbd --version)" \
  "formatted 4 10 ok 0 clean 0 0 $("$server" --version)"
check 'and its manual is read' "$(for name in wbcache wbnbd wbmeta; do grep -c '^.SH DESCRIPTION' raistobe/share/man/man1/$name.1; done | tr '\n' ' ')" '1 1 1 '

blank
check 'a run over files that are not formatted' "$(echo 'r 0 1' | "$cache" -v run "$table" 2>&1; echo $?) $(sums)" "refused 10 NotFormatted
wbcache: 10 NotFormatted: the metadata file has no valid root; if it was a cache's, look by 'wbmeta check' first: 'wbcache format' with the same table makes it that of an empty cache, and loses blocks that are not on the origin
1 $(sums)"
check 'a formatting' "$("$cache" format "$table")" 'formatted 4 10'
cp m.img formatted.img

# --- The rows of scripts/cases.
filled() { # bytes, octal value: so many bytes of this value
  head -c "$1" /dev/zero | tr '\0' "\\$2"
}
rows() { # file: its rows, less the lines that explain them
  grep -v '^#' "$top/scripts/cases/$1"
}
told() { # words of the program: the exit status, the answers, and the reason, each between dots
  "$cache" -v "$@" >out.txt 2>reason.txt
  echo "$? .$(cat out.txt)$(tail -c 1 out.txt | tr -c '\n' '!').$(cat reason.txt)."
}
wanted() { # exit status, answers, reason as `told` says them
  if test -n "$2"; then printf '%s .%b.%b.\n' "$1" "$2" "$3"; else printf '%s ..%b.\n' "$1" "$3"; fi
}

rows scripts.txt >rows.txt
while IFS='|' read -r script printed status <&4; do
  fresh
  printf '%b' "$script" >lines
  "$cache" run "$table" <lines >out.txt
  found=$?
  printf '%b' "$printed" >wanted.txt
  check "the script '$script'" "$found $(cmp out.txt wanted.txt 2>&1)" "$status "
done 4<rows.txt

rows stories.txt >rows.txt
while IFS='|' read -r does one two three four five <&4; do
  case $does in
    story)
      story=$one
      if test -n "$two"; then wide "$two"; else fresh; fi
      ;;
    run)
      for file in m.img c.img o.img; do cp $file $file.before; done
      printf '%b' "$two" >lines
      "$cache" -v run "cache m.img c.img o.img 64 $one" <lines >out.txt 2>reason.txt
      found=$?
      printf '%b' "$three" >wanted.txt
      check "$story: '$two' with $one" "$found $(cmp out.txt wanted.txt 2>&1). $(grep -v '^wbcache: opened' reason.txt)" \
        "$four . ${five:+wbcache: $five}"
      ;;
    bytes)
      begin=${two% *}
      many=${two#* }
      check "$story: bytes of $one" "$(tail -c +$((begin + 1)) "$one" | head -c "$many" | tr -d "\\$three" | wc -c) $((begin + many <= $(wc -c <"$one")))" '0 1'
      ;;
    same) check "$story: what a run leaves of $one" "$(cmp "$one" "$one.before" 2>&1)" '' ;;
    *) check "$story: a row" "$does" 'story, run, bytes or same' ;;
  esac
done 4<rows.txt

# Metadata that others changed. A refusal leaves all files as they are.
fresh
printf 'w 0 1 11\nr 0 1\nwork\nr 0 1\nflush\nr 64 1\nr 64 1\nwork\nflush\n' | "$cache" run "$table" >out.txt
for file in m c o; do cp $file.img $file.kept; done
changed() { # a change of the metadata file: it is made
  case $1 in
    put) printf '%b' "$(printf '%s' "$3" | sed 's/\\/\\0/g')" | dd of=m.img bs=1 seek="$2" conv=notrunc 2>/dev/null ;;
    copy) dd if=m.kept of=m.img bs=512 skip="$2" seek="$3" count=1 conv=notrunc 2>/dev/null ;;
    size) truncate -s "$2" m.img ;;
  esac
}
told_of_metadata() { # what a run over the same files printed, and its exit status, once it has written the next root: what wbmeta says of them
  case $1 in
    refused*) echo "$1 $2" ;;
    *) echo "$1" | awk -v after="$(newest_generation)" '{ split($4, mapped, "/"); print "ok", after - 1, "unclean", mapped[1], $11, 0 }' ;;
  esac
}
newest_generation() { # the greater generation of the two slots
  for at in 8 520; do tail -c +$((at + 1)) m.img | head -c 8 | od -An -tu8; done | sort -n | tail -n 1
}
rows foreign.txt >rows.txt
while IFS='|' read -r changes printed status reason <&4; do
  for file in m c o; do cp $file.kept $file.img; done
  printf '%s\n' "$changes" | tr ',' '\n' >changes.txt
  while read -r one two three; do changed "$one" "$two" "$three"; done <changes.txt
  before=$(sums)
  says=$("$meta" check "$table" 2>/dev/null)
  says="$says $? $(sums)"
  echo status | "$cache" -v run "$table" >out.txt 2>reason.txt
  check "metadata after $changes" "$? $(cat out.txt) $(grep -v '^wbcache: opened\|^wbcache: an older state may be opened' reason.txt)" "$status $printed ${reason:+wbcache: $reason}"
  check "what wbmeta tells of metadata after $changes" "$says" "$(told_of_metadata "$printed" "$status") $before"
  if test "$status" != 0; then check "files after $changes" "$(sums)" "$before"; fi
done 4<rows.txt

# All that is dirty is written home, and the cache is left clean; the table's mode and policy do not matter, nor that it was clean.
fresh
check 'nothing dirty' "$("$meta" writeback "$table" 2>&1) $("$meta" check "$table")" 'ok 0 ok 2 clean 0 0'
printf 'w 0 1 11\nr 0 1\nwork\nw 0 1 22\nw 70 1 33\nr 70 1\nwork\nw 70 1 44\nflush\n' | "$cache" run "$table" >out.txt
check 'what is dirty before' "$("$meta" check "$table" | cut -d' ' -f1,3-)" 'ok unclean 2 2'
check 'what was written home' "$("$meta" writeback 'cache m.img c.img o.img 64 1 passthrough tinylfu 2 promote_min 3' 2>/dev/null)" 'ok 2'
check 'the cache is clean then' "$("$meta" check "$table" | cut -d' ' -f1,3-)" 'ok clean 2 0'
check 'and the origin has it' "$(for at in 0 35840; do tail -c +$((at + 1)) o.img | head -c 512 | od -An -v -tx1 -w1 | sort -u | tr -d ' \n'; done)" 2244
# The same of metadata of version 2, whose dirty bits stand beside the mapping.
wide '1 metadata2'
printf 'w 0 1 11\nr 0 1\nwork\nr 0 1\nflush\nw 0 1 22\nsuspend\n' | "$cache" run "$second" >out.txt
cp m.img m.kept
check 'what is dirty in version 2' "$("$meta" check "$second") $("$meta" dump "$second")" 'ok 3 clean 1 1 0 0 dirty 4'
check 'and what a formatting of it gives up' "$("$cache" format "$second" 2>&1)" 'wbcache: formatting gives up a cache: 1 of 4 cache blocks mapped, 1 dirty
formatted 4 10'
cp m.kept m.img
check 'what was written home there' "$("$meta" writeback "$second" 2>/dev/null) $("$meta" check "$second" | cut -d' ' -f1,3-)" 'ok 1 ok clean 1 0'
check 'and the origin has it there' "$(head -c 512 o.img | tr -d '\042' | wc -c)" 0
check 'a table without metadata2 over it' "$("$meta" check "$table" | cut -d' ' -f1,3-)" 'ok clean 1 0'
# What is told of metadata of version 1 does not hang on the version that the table asks for; an opening converts them.
wide 0
printf 'w 0 1 11\nr 0 1\nwork\nw 0 1 22\nsuspend\n' | "$cache" run "$table" >out.txt
cp m.img m.kept
check 'a table with metadata2 over version 1' "$("$meta" check "$second") $("$meta" dump "$second") $(cmp m.img m.kept 2>&1)" "$("$meta" check "$table") 0 0 dirty 3 "
check 'what was written home in the other version' "$("$meta" writeback "$second" 2>/dev/null) $("$meta" check "$second" | cut -d' ' -f1,3-) $(echo status | "$cache" run "$table" | cut -d' ' -f4,11-14)" \
  'ok 1 ok clean 1 0 1/4 0 2 metadata2 writeback'
fresh
check 'nothing is shown to who does not look on' "$("$meta" writeback "$table" 2>&1 >/dev/null)" ''
check 'and what is no table' "$("$meta" writeback 'cache m.img' 2>/dev/null; echo $?)" 'refused 16 BadTable
1'
check 'and other files' "$("$meta" writeback 'cache o.img c.img m.img 64 0 tinylfu 0' 2>/dev/null; echo $?)" 'refused 9 Geometry
1'

rows tables.txt >rows.txt
while IFS='|' read -r words reason <&4; do
  words=$(printf '%b.' "$words")
  words=${words%.}
  for call in run format; do
    check "$call '$words'" "$(echo 'r 0 1' | told $call "$words")" \
      "$(wanted 1 'refused 16 BadTable' "wbcache: $reason")"
  done
done 4<rows.txt

for bytes in 0 1536 2047 2048 2559 130560 131072 131583 131584 327679 327680 328191; do
  filled $bytes 245 >$bytes.img
done
rows files.txt >rows.txt
while IFS='|' read -r files printed status reason <&4; do
  for call in run format; do
    check "$call over $files" "$(echo 'r 0 1' | told $call "cache $files 64 0 tinylfu 0")" \
      "$(wanted "$status" "$printed" "wbcache: $reason")"
  done
done 4<rows.txt
check 'a refusal writes nothing' "$(tr -d '\245' <2048.img | wc -c)" 0
printf 'r 639 1\nr 640 1\n' >lines
odd='  cache 2559.img  131583.img 328191.img 00064 0   tinylfu 0 '
check 'files with a part of a sector are formatted' "$("$cache" format --force "$odd" 2>/dev/null)" 'formatted 4 10'
said=$("$cache" run "$odd" <lines; echo $?)
check 'a part of a sector at the end is passed over' "$said" '639 a5
refused 1 Range
1'

# --- What stays in the files.
fresh
printf 'w 63 2 5a\n' | "$cache" run "$table" >out.txt
{ filled 32256 000; filled 1024 132; filled 294400 000; } >wanted.img
check 'a write stays in the origin' "$(cat out.txt) $(cmp o.img wanted.img 2>&1)" 'ok '
check 'a write of a block that is not cached leaves the cache' "$(tr -d '\0' <c.img | wc -c)" 0
check 'and is read again' "$(printf 'r 62 4\n' | "$cache" run "$table" | tr '\n' ' ')" '62 00 63 5a 64 5a 65 00 '

# A block that is cached is written there, found again after a flush, and after a run that ended without one.
fresh
printf 'w 70 1 11\nr 70 1\nwork\nw 70 1 22\nflush\n' | "$cache" run "$table" >out.txt
check 'a block is cached' "$(tr '\n' ' ' <out.txt)" 'ok 70 11 promoted 1 to 0 ok ok '
check 'and written there alone' "$(tr -d '\0' <c.img | tr -d '\042' | wc -c) $(tr -d '\0' <c.img | wc -c) $(tr -d '\0\021' <o.img | wc -c)" '0 512 0'
check 'and found again' "$(printf 'r 70 1\nw 70 1 33\nr 70 1\n' | "$cache" run "$table" | tr '\n' ' ')" '70 22 ok 70 33 '
check 'and once more, without a flush' "$(printf 'r 70 1\nwork\n' | "$cache" run "$table" | tr '\n' ' ')" '70 33 idle '
# The newest tree is damaged: the older root is not taken, though its tree is whole.
fresh
printf 'r 0 1\nr 0 1\nwork\nflush\nr 64 1\nr 64 1\nwork\nflush\n' | "$cache" run "$table" >out.txt
printf '\001' | dd of=m.img bs=1 seek=1556 conv=notrunc 2>/dev/null
check 'a tree that is damaged' "$(tr '\n' ' ' <out.txt)$(echo status | "$cache" run "$table"; echo $?)" \
  '0 00 0 00 promoted 0 to 0 ok 64 00 64 00 promoted 1 to 1 ok refused 11 Damaged 3
1'
fresh
for at in 512 2047 2048; do
  printf '\001' | dd of=o.img bs=1 seek=$at conv=notrunc 2>/dev/null
done
check 'sectors whose bytes differ' "$(printf 'r 0 6\nw 4 1 0f\nr 4 1\n' | "$cache" run "$table" | tr '\n' ' ')" \
  '0 00 1 mixed 2 00 3 mixed 4 mixed 5 00 ok 4 0f '

# Formatting writes the two slots of the root, and nothing else.
filled 2048 245 >m.img
filled 131072 132 >c.img
filled 327680 074 >o.img
before=$(cksum c.img o.img)
{
  printf 'WBCROOT1\0\0\0\0\0\0\0\0\001\0\0\0\001\0\0\0\100\0\0\0\004\0\0\0\012\0\0\0\004\0\0\0\0\0\0\0'
  filled 980 000
  filled 1024 245
} >wanted.img
for time in once twice; do
  check "formatted $time" "$("$cache" format --force "$table" 2>/dev/null) $(cmp m.img wanted.img 2>&1)" 'formatted 4 10 '
done
filled 2560 245 >m.img
{
  printf 'WBCROOT1\0\0\0\0\0\0\0\0\002\0\0\0\001\0\0\0\100\0\0\0\004\0\0\0\012\0\0\0\005\0\0\0\0\0\0\0'
  filled 980 000
  filled 1536 245
} >wanted.img
check 'formatted in version 2' "$("$cache" format --force "$second" 2>/dev/null) $(cmp m.img wanted.img 2>&1)" 'formatted 4 10 '
check 'formatting writes no other file' "$(cksum c.img o.img)" "$before"
fresh
for bytes in 0 1024 2047; do
  filled $bytes 001 >m.img
  said=$("$cache" format "$table")
  check "formatting $bytes bytes" "$? $said $(wc -c <m.img) $(tr -d '\001' <m.img | wc -c)" "1 refused 9 Geometry $bytes 0"
done
fresh
check 'a refused formatting can be repeated' "$("$cache" format "$table")" 'formatted 4 10'

# Descriptors 0 to 2. An opening writes its root; the other two files are left.
data() { cksum c.img o.img | cut -d' ' -f1 | tr '\n' ' '; }
fresh
before=$(data)
"$cache" format "$table" >&-
check 'format without a standard output ends with 4' $? 4
fresh
printf 'r 0 1\n' | "$cache" run "$table" >&-
check 'run without a standard output ends with 4' $? 4
check 'run without a standard output leaves the files' "$(data)" "$before"
"$cache" run "$table" <&- >out.txt
check 'run without a standard input ends with 4' "$? $(cat out.txt)" '4 '
printf 'x\n' | "$cache" -v run "$table" 2>&- >out.txt
check 'run without a standard error answers' "$? $(cat out.txt)" '1 bad line 1'
printf 'r 0 1\n' | "$cache" run "$table" >&- 2>&-
check 'run without both outputs ends with 4' $? 4
check 'the files are left' "$(data)" "$before"
"$bench" o.img read 8 16 >&- 2>/dev/null
check 'wb_bench without a standard output ends with 4' $? 4
check 'wb_bench without a standard output leaves its file' "$(data)" "$before"
"$bench" o.img read 8 16 <&- >&- 2>&-
check 'wb_bench without any ends with 4' "$? $(data)" "4 $before"

# A file that another program holds.
fresh
mkfifo script
"$cache" run "$table" <script >first.txt &
first=$!
exec 3>script
printf 'r 0 1\n' >&3
tries=0
while ! test -s first.txt && test $tries -lt 100; do
  sleep 0.1
  tries=$((tries + 1))
done
said=$("$cache" -v format "$table" 2>&1)
check 'a format over files that a run holds' "$? $said" '3 refused 5 Io metadata
wbcache: metadata file m.img: locked, by another program or as another device of the table'
said=$(printf 'r 0 1\n' | "$cache" run "$table" 2>/dev/null)
check 'a run over files that a run holds' "$? $said" '3 refused 5 Io metadata'
truncate -s 2048 n.img
for held in c o; do
  case $held in
    c) other='cache n.img c.img o.img 64 0 tinylfu 0' device=cache ;;
    o) truncate -s 131072 d.img; other='cache n.img d.img o.img 64 0 tinylfu 0' device=origin ;;
  esac
  said=$("$cache" format "$other" 2>/dev/null)
  check "a format over the $device that a run holds" "$? $said" "3 refused 5 Io $device"
done
exec 3>&-
wait "$first"
check 'the first run ends well' "$? $(cat first.txt)" '0 0 00'
said=$("$cache" format "$table" 2>&1)
check 'a format after the run ended' "$? $said" '0 formatted 4 10'

# One file named twice.
said=$("$cache" -v format 'cache m.img o.img o.img 64 0 tinylfu 0' 2>&1)
check 'one file named twice' "$? $said" '3 refused 5 Io origin
wbcache: origin file o.img: locked, by another program or as another device of the table'

# Reasons.
reason() { # script, arguments: the standard error and the status
  printf '%s' "$1" >lines
  shift
  said=$("$cache" "$@" <lines 2>&1 >/dev/null)
  echo "$? $said"
}
check 'a reason without -v, too' "$(reason '' run "${table% 0}")" '1 wbcache: the table ends before word 8, the number of policy arguments, two for each key'
check 'a word of the table' "$(reason '' -v run "cache m.img c.img o.img 96 0 tinylfu 0")" \
  "1 wbcache: word 5 of the table is '96', and has to be the sectors of a block, 64 to 2097152, a multiple of 64"
check 'a short table' "$(reason '' run -v "cache m.img c.img")" '1 wbcache: the table ends before word 4, the origin file'
check 'a long table' "$(reason '' run --verbose "$table 0")" "1 wbcache: the table goes on after its last word, with '0'"
has 'a file that is not there' "$(reason '' -v run 'cache no.img c.img o.img 64 0 tinylfu 0')" '3 wbcache: metadata file no.img: No such file or directory'
has 'a folder' "$(reason '' -v run 'cache . c.img o.img 64 0 tinylfu 0')" 's a directory'
truncate -s 1536 short.img
check 'a size' "$(reason '' -v run 'cache short.img c.img o.img 64 0 tinylfu 0')" \
  '1 wbcache: metadata: it has 3 sectors, and takes 4 to 4294967295 for this cache'
check 'a part of a block' "$(reason '' -v run 'cache m.img short.img o.img 64 0 tinylfu 0')" \
  '1 wbcache: cache: 3 sectors are no whole number of blocks of 64'
opened='wbcache: opened 640 sectors; 0 of 4 cache blocks mapped, 0 dirty'
check 'refused lines' "$(reason 'r 0 1
r 640 1
r 641 1
x
' -v run "$table")" "1 $opened
wbcache: 3 lines were refused, the first at line 2: 1 Range"
check 'one refused line' "$(reason 'w 0 641 11
' -v run "$table")" "1 $opened
wbcache: 1 line was refused, the first at line 1: 1 Range"
check 'a write that was not flushed' "$(reason 'w 0 1 11
' -v run "$table")" "0 $opened
wbcache: 1 write was not flushed, and may be lost"
check 'one that was' "$(reason 'w 0 1 11
flush
' -v run "$table")" "0 $opened"
check 'is told where nobody asked, too' "$(reason 'w 0 1 11
' run "$table")" '0 wbcache: 1 write was not flushed, and may be lost'
fresh
printf 'r 70 1\nr 70 1\nwork\nflush\n' | "$cache" run "$table" >out.txt
check 'a formatting that gives up a cache' "$("$cache" format "$table" 2>&1; echo $?)" 'wbcache: formatting gives up a cache: 1 of 4 cache blocks mapped, 1 dirty
formatted 4 10
0'
check 'and one that gives up nothing' "$("$cache" format "$table" 2>&1; echo $?)" 'formatted 4 10
0'
# What is not to be written over.
kept() { cksum m.img | cut -d' ' -f1; }
fresh
printf 'r 70 1\nr 70 1\nwork\nflush\n' | "$cache" run "$table" >out.txt
before=$(kept)
check 'with care a cache stays that has a dirty block' "$("$cache" format --careful "$table" 2>&1; echo $?) $(kept)" "wbcache: formatting gives up a cache: 1 of 4 cache blocks mapped, 1 dirty; --careful keeps it: 'wbmeta writeback' with the same table writes home what is dirty
1 $before"
for at in 0 1024 4000; do
  blank
  truncate -s 8192 m.img
  printf '\123' | dd of=m.img bs=1 seek=$at conv=notrunc 2>/dev/null
  before=$(kept)
  check "what is no cache's stays, byte $at" "$("$cache" format "$table" 2>&1; echo $?) $(kept)" "wbcache: m.img: its first sectors hold something else than a cache's metadata; --force formats it all the same
1 $before"
  check "and is written over by force, byte $at" "$("$cache" format --force "$table" 2>/dev/null; echo $?)" 'formatted 4 10
0'
done
blank
rm c.img
truncate -s 131072 c.img
check 'a cache file with holes is told' "$("$cache" format "$table" 2>&1 | sort)" 'formatted 4 10
wbcache: cache file c.img is sparse: 131072 of 131072 bytes are not allocated; on a full file system requests fail: fallocate -l 131072 c.img'
blank
check 'a threshold under which nothing is replaced is told' "$("$cache" format "${table% 0} 2 migration_threshold 127" 2>&1 | grep -v sparse | sort)" "formatted 4 10
wbcache: with migration_threshold 127 no block of 64 sectors is replaced once the cache is full: give the table 'migration_threshold 128' or more"
check 'and one under which nothing is cached' "$("$cache" format "${table% 0} 2 migration_threshold 63" 2>&1 | grep -v sparse | sort)" "formatted 4 10
wbcache: with migration_threshold 63 no block of 64 sectors is cached: give the table 'migration_threshold 128' or more"
if command -v python3 >/dev/null; then
  for answer in n y; do
    fresh
    printf 'r 70 1\nr 70 1\nwork\nflush\n' | "$cache" run "$table" >out.txt
    # On a terminal: what is typed there, and the exit status.
    said=$(echo "$answer" | python3 -c 'import os, pty, sys
status = pty.spawn(sys.argv[1:])
sys.exit(os.waitstatus_to_exitcode(status))' "$cache" format "$table"; echo "status $?")
    case $answer in
      n) has 'on a terminal it is asked, and a no is one' "$said" 'status 1' ;;
      y) has 'and a yes is one' "$said" 'formatted 4 10' ;;
    esac
  done
  fresh
  printf 'r 70 1\nr 70 1\nwork\nflush\n' | "$cache" run "$table" >out.txt
  said=$(python3 -c 'import os, pty, sys
sys.exit(os.waitstatus_to_exitcode(pty.spawn(sys.argv[1:])))' "$cache" format --yes "$table" </dev/null; echo "status $?")
  has 'a yes before it is asked is one' "$said" 'status 0'
  check 'and then it is not asked' "$(echo "$said" | grep -c 'y/N')" 0
else
  echo 'not tried: there is no python3, by which a terminal is made'
fi
fresh
truncate -s 163840 c.img
check 'a file of another size' "$(reason '' -v run "$table")" '1 wbcache: 12 Mismatch: the metadata were formatted for a cache of 256 sectors, and it has 320'
fresh
check 'a writer that fails' "$( (printf 'r 0 1\n' | "$cache" -v run "$table" >/dev/full) 2>&1; echo $?)" "$opened
wbcache: an answer cannot be written
4"
if test "$(id -u)" != 0; then
  chmod 000 c.img
  has 'no permission' "$(reason '' -v run "$table")" '3 wbcache: cache file c.img: Permission denied'
  chmod 600 c.img
fi

# Lines past their limit.
awk 'BEGIN { for (i = 0; i < 1048575; i++) printf " "; print ""; print "r 0 1" }' >long
check 'a line of 1 MiB with its end' "$("$cache" run "$table" <long)" '0 00'
awk 'BEGIN { for (i = 0; i < 1048576; i++) printf " "; print ""; print "r 0 1" }' >long
check 'a line of 1 MiB without its end' "$("$cache" run "$table" <long; echo $?)" 'bad line 1
1'
check 'a line without an end takes no memory' "$(
  (ulimit -v 65536; head -c 1000000000 /dev/zero | "$cache" run "$table" 2>/dev/null; echo $?)
)" 'bad line 1
1'

# A dialogue: lines go in one at a time, each once the answer of the one before is out.
open_dialogue() { # what the program runs with: the program begins, its input is descriptor 3 and its output 4
  rm -f to from told
  mkfifo to from
  (trap '' PIPE; "$cache" "$@" <to >from 2>told; echo $? >>told) &
  exec 3>to 4<from
}
ask() { # line, number of answer lines: the answers
  printf '%s\n' "$1" >&3
  hear "$2"
}
hear() { # number of answer lines: these, or nothing after 10 seconds
  lines=$1
  while test "$lines" -gt 0; do
    timeout 10 sh -c 'IFS= read -r line && printf "%s\n" "$line"' <&4
    lines=$((lines - 1))
  done
}
close_dialogue() {
  exec 3>&- 4<&-
  wait
}
fresh
open_dialogue -v run "$table"
said=$(ask 'w 60 8 ab' 1; ask 'r 63 2' 2; ask 'r 640 1' 1; ask 'r 67 2' 2)
close_dialogue
check 'an answer is out before the next line is read' "$said" 'ok
63 ab
64 ab
refused 1 Range
67 ab
68 00'
check 'a dialogue that ends' "$(cat told)" "$opened
wbcache: 1 line was refused, the first at line 3: 1 Range
1"
fresh
open_dialogue run "$table"
printf 'w 60 8 ab\nr 63 1\nr 6' >&3
said=$(hear 2; printf '7 1\n' >&3; hear 1)
close_dialogue
check 'answers are out while a line is not whole' "$said $(cat told)" 'ok
63 ab
67 ab wbcache: 1 write was not flushed, and may be lost
0'
fresh
open_dialogue -v run "$table"
said=$(ask 'w 60 8 ab' 1; ask 'r 640 1' 1)
exec 4<&-
printf 'r 63 2\n' >&3 2>/dev/null
close_dialogue
check 'a writer that fails after two answers' "$said $(cat told)" "ok
refused 1 Range $opened
wbcache: an answer cannot be written
4"
check 'a reader that fails' "$( ("$cache" -v run "$table" <.) 2>&1; echo $?)" "$opened
wbcache: the script cannot be read further
4"

# A device that fails: a file cut short while it is open no longer has the sector, and has it once it is written.
fresh
open_dialogue -v run "$table"
said=$(ask 'r 63 1' 1; truncate -s 35840 o.img; for line in 'r 63 9' 'r 70 1' 'r 69 1' 'w 70 1 11' 'r 70 1' 'r 71 1'; do ask "$line" 1; done)
close_dialogue
check 'a read that fails is answered, and the script goes on' "$said" '63 00
refused 5 Io origin
refused 5 Io origin
69 00
ok
70 11
refused 5 Io origin'
check 'reads that failed' "$(cat told)" "$opened
wbcache: origin file: a read failed at sector 70: unexpected end of file
wbcache: 3 lines were refused, the first at line 2: 5 Io origin
3"

# Past the limit of the file size: the kit cannot ignore the signal, a shell can (docs/DECISIONS.md). What is answered is read apart from what
# is said of the device, since answers may come after that.
fresh
said=$( (trap '' XFSZ; ulimit -f 100; printf 'w 0 1 11\nw 390 20 22\nr 0 1\nw 0 1 33\nr 640 1\nstatus\n' | "$cache" -v run "$table") 2>reason.txt)
check 'a write that fails leaves the target failed' "$? $said" '3 ok
refused 5 Io origin
refused 6 Failed
refused 6 Failed
refused 1 Range
Fail'
check 'and is told' "$(cat reason.txt)" "$opened
wbcache: origin file: a write failed at sector 390: File too large (os error 27)
wbcache: 4 lines were refused, the first at line 2: 5 Io origin"

fresh
said=$( (trap '' XFSZ; ulimit -f 0; "$cache" format "$table" 2>&1) | sort)
check 'a device that fails while it is formatted' "$said" 'refused 5 Io metadata
wbcache: metadata file: a write failed at sector 0: File too large (os error 27)'

# Help, version and what is not read.
for words in -h --help 'run --help' 'format -h'; do
  # shellcheck disable=SC2086 # the words are apart
  said=$("$cache" $words 2>&1)
  has "status of $words" "$? $said" '0 '
  has "$words explains the table" "$said" 'cache <metadata> <cache> <origin> <block size> <features> <policy> <keys>'
  has "$words explains the script" "$said" 'w S N hh'
  has "$words tells of signals" "$said" 'a signal ends it at once: what was not flushed may be lost then'
  has "$words tells of locks" "$said" 'are locked as long as it runs'
done
check 'help is for standard output' "$("$cache" --help 2>&1 >/dev/null)" ''
check 'the version' "$("$cache" --version)" 'wbcache 0.1.0'
"$cache" --help >/dev/full 2>&1
check 'help that cannot be written ends with 4' $? 4
for words in '' 'run' 'format' 'help' 'run a b' 'replay x' '-x' 'run -x a'; do
  # shellcheck disable=SC2086 # the words are apart
  said=$("$cache" $words 2>&1)
  status=$?
  has "what is wrong with '$words'" "$said" 'wbcache: '
  check "the usage for '$words'" "$status $(printf '%s\n' "$said" | tail -n 1)" '2 usage: wbcache format [--force] [--careful] TABLE | run TABLE | replay'
done

# --- Replays.
replayed() { # lines, parted by slashes: what is printed, parted by slashes, and the status
  said=$(printf '%s\n' "$1" | tr '/' '\n' | sed 's/^ *//; s/ *$//' | "$cache" replay)
  status=$?
  printf '%s: %s' "$(printf '%s' "$said" | tr '\n' '/')" "$status"
}
failed_write='setup writeback 64 4 10 4 / start 0 w 0 1 11 / step 0 5 / fault 0 new / end 0 / start 0 r 0 1 / end 0'
check 'a write that failed and landed is lost with the power' \
  "$(replayed "$failed_write / stop old / open writeback / view 0 1")" '0 refused 5 Io origin/0 refused 6 Failed/open 2 0 0/0 00: 0'
check 'or kept' "$(replayed "$failed_write / stop new / open writeback / view 0 1")" '0 refused 5 Io origin/0 refused 6 Failed/open 2 0 0/0 11: 0'
check 'what was flushed survives' \
  "$(replayed 'setup writeback 64 4 10 4 / start 0 w 0 2 22 / end 0 / start 0 flush / end 0 / stop old / open writeback / view 0 2')" \
  '0 done/0 done/open 3 0 0/0 22/1 22: 0'
cached='setup writeback 64 4 10 4 / start 0 w 0 1 11 / end 0 / start 0 promote 0 0 / end 0 / start 0 flush / end 0'
written_again="$cached / start 0 w 0 2 22 / end 0"
check 'of a promoted block each sector of the cache keeps what the crash chose' \
  "$(replayed "$written_again / stop old c:1:1 / open writeback / view 0 2")" '0 done/0 done/0 done/0 done/open 3 1 1/0 11/1 22: 0'
check 'or what was flushed' "$(replayed "$written_again / stop old / open writeback / view 0 2")" '0 done/0 done/0 done/0 done/open 3 1 1/0 11/1 00: 0'
check 'or what was written last' "$(replayed "$written_again / stop new / open writeback / view 0 2")" '0 done/0 done/0 done/0 done/open 3 1 1/0 22/1 22: 0'
check 'or the second of three' "$(replayed "$written_again / stop old c:0:1 / open writeback / view 0 2")" '0 done/0 done/0 done/0 done/open 3 1 1/0 22/1 00: 0'
flushed='start 0 flush / end 0'
root_unsynced="$cached / $flushed / $flushed / $flushed / $flushed / $flushed / start 0 promote 5 1 / end 0 / start 0 flush / step 0 7"
dones='0 done/0 done/0 done/0 done/0 done/0 done/0 done/0 done/0 done'
check 'a root that was written and not synced is not found' "$(replayed "$root_unsynced / stop old / open writeback")" "$dones/open 8 1 1: 0"
check 'or is' "$(replayed "$root_unsynced / stop new / open writeback")" "$dones/open 9 2 2: 0"
half_demoted="$cached / start 0 w 0 1 22 / end 0 / start 0 flush / end 0 / start 0 w 0 1 33 / end 0 / start 1 demote 0 / step 1 7"
check 'a half-done demotion may lose what was not flushed' "$(replayed "$half_demoted / stop old / open writeback / view 0 1")" '0 done/0 done/0 done/0 done/0 done/0 done/open 4 1 1/0 22: 0'
check 'or keep it' "$(replayed "$half_demoted / stop new / open writeback / view 0 1")" '0 done/0 done/0 done/0 done/0 done/0 done/open 4 1 1/0 33: 0'
check 'a cache block is in quarantine until a later commit has ended' \
  "$(replayed "$cached / start 1 flush / step 1 2 / start 0 demote 0 / end 0 / end 1 / start 0 promote 5 0 / start 0 promote 5 1 / end 0 / start 0 flush / end 0 / start 0 promote 6 0 / end 0")" \
  '0 done/0 done/0 done/0 done/1 done/0 refused 3 Busy/0 done/0 done/0 done: 0'
check 'a block that was written back stays cached' "$(replayed "$cached / start 0 w 0 1 22 / end 0 / start 0 clean 0 / end 0 / stop old / open writeback / view 0 1")" '0 done/0 done/0 done/0 done/0 done/open 3 1 1/0 11: 0'
replaced="$cached / start 0 replace 0 5 / end 0 / start 0 promote 5 0 / start 0 flush / end 0 / start 1 promote 6 0 / start 0 promote 5 0 / end 0"
check 'a block follows one that it replaces, after a flush' "$(replayed "$replaced / stop old / open writeback / view 0 1")" \
  '0 done/0 done/0 done/0 done/0 refused 3 Busy/0 done/1 refused 3 Busy/0 done/open 4 0 0/0 11: 0'
# Replays that end early: lines|what is printed.
while IFS='|' read -r lines prints; do
  check "the replay '$lines' ends early" "$(replayed "$lines")" "$prints: 1"
done <<'ROWS'
open writeback|bad line 1
 / setup writeback 63 4 10 4 / open writeback|refused 9 Geometry
setup writeback 64 4 10 4 / open writeback / replay / view 0 1|skipped/bad line 3
setup writeback 64 4 10 4 / start 64 flush|bad line 2
setup writeback 64 4 10 4 / start 0 suspend 0|bad line 2
setup writeback 64 4 10 4 / start 0 invalidate 0|bad line 2
ROWS
check 'a replay of no line' "$("$cache" replay </dev/null; echo $?)" 0
has 'help explains replays' "$("$cache" replay --help)" 'setup <mode> <block>'
printf 'setup writeback 64 4 10 4\nview 0 1\n' | "$cache" replay >/dev/full
check 'a replay that cannot be written ends with 4' $? 4

tell
