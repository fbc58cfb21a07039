# Jobs side by side, and what the machine has for them. Read by build.sh, bugs.sh and first-script.sh, which set `top` to the
# repository's folder and `script` to their own name, and stand in `top`; they call `look_at_machine` first.
# shellcheck shell=sh
# shellcheck disable=SC2154 # `top` and `script` are the reader's

say() { printf '%s\n' "$*" >&2; }
fail() {
  say "$script: $*"
  exit 1
}

# --- The machine

# Processors: those that this process may run on, or fewer by the quota of its control group.
processors() {
  found=$(nproc 2>/dev/null || getconf _NPROCESSORS_ONLN)
  quota=max
  test ! -r /sys/fs/cgroup/cpu.max || read -r quota period </sys/fs/cgroup/cpu.max
  if test "$quota" != max && test $((quota / period)) -lt "$found"; then
    found=$((quota / period))
    test "$found" -ge 1 || found=1
  fi
  echo "$found"
}

# Free memory in MB, under the limit of the control group too.
free_memory() {
  {
    cat /proc/meminfo
    test ! -r /sys/fs/cgroup/memory.max || echo "limit $(cat /sys/fs/cgroup/memory.max)"
    test ! -r /sys/fs/cgroup/memory.stat || cat /sys/fs/cgroup/memory.stat
  } | awk '
    $1 == "MemAvailable:" { free = $2 / 1024 }
    $1 == "limit" && $2 != "max" { limit = $2 / 1048576 }
    $1 == "anon" { taken = $2 / 1048576 }
    END { printf "%d\n", limit && limit - taken < free ? limit - taken : free }'
}

# Free disk in MB where the repository lies.
free_disk() { df -Pm "$top" | awk 'NR == 2 { print $4 }'; }

# What is missing on this machine, before anything begins. Without the kit nothing can be done; with little memory or disk much can.
look_at_machine() { # MB of memory and of disk that are wanted
  command -v rt >/dev/null || fail "rt is not on the path. It is the command of the Rattle kit, which proves and builds \
the crates: put the kit's folder bin on PATH (export PATH=KIT/bin:\$PATH) and call this again"
  for tool in setsid flock; do
    command -v "$tool" >/dev/null || fail "there is no $tool: it comes with util-linux"
  done
  kit=$(rt version)
  memory=$(free_memory)
  disk=$(free_disk)
  test "$memory" -ge "$1" || say "$script: only $memory MB of memory are free, and $1 are wanted: close what uses it, or it may take long"
  test "$disk" -ge "$2" || say "$script: only $disk MB of disk are free under $top, and $2 are wanted"
}

# A check takes a processor and 1 to 4 GB. JOBS, where it is set, is how many run at once.
lanes() {
  found=${JOBS:-$(processors)}
  test -n "${JOBS:-}" || test "$found" -le $(($(free_memory) / 2500)) || found=$(($(free_memory) / 2500))
  test "$found" -ge 1 || found=1
  echo "$found"
}

# --- Crates

# These crates with all that they stand on, each after those that it stands on itself.
with_those_below() {
  awk -v names="$*" '
    /^[a-z]/ { name = $1; sub(/:$/, "", name); line = $0; sub(/^[^:]*:/, "", line); needs[name] = line }
    function visit(name, list, count, i) {
      if (!(name in needs) || name in seen) return
      seen[name] = 1
      count = split(needs[name], list, " ")
      for (i = 1; i <= count; i++) visit(list[i])
      print name
    }
    END { count = split(names, list, " "); for (i = 1; i <= count; i++) visit(list[i]) }' crates.txt
}

# A line for each of these crates: its name, the seconds that it is known to take, and which of these crates it stands on.
planned() {
  printf '%s\n' "$@" | awk '
    FILENAME == "scripts/crate-seconds.txt" { if (!/^#/) seconds[$1] = $2; next }
    FILENAME == "crates.txt" { if (/^[a-z]/) { name = $1; sub(/:$/, "", name); line = $0; sub(/^[^:]*:/, "", line); needs[name] = line }; next }
    { names[++count] = $1; is_one[$1] = 1 }
    END {
      for (i = 1; i <= count; i++) {
        line = names[i] " " (names[i] in seconds ? seconds[names[i]] : 60)
        found = split(needs[names[i]], list, " ")
        for (j = 1; j <= found; j++) if (list[j] in is_one) line = line " " list[j]
        print line
      }
    }' scripts/crate-seconds.txt crates.txt -
}

# The lines of crates.txt of these crates.
lines_of() {
  awk -v names="$*" '
    BEGIN { count = split(names, list, " "); for (i = 1; i <= count; i++) is_one[list[i]] = 1 }
    { name = $1; sub(/:$/, "", name) }
    name in is_one' crates.txt
}

# A number for a crate: its sources, its line of crates.txt, the kit, and the same of all that it stands on.
sum_of() {
  below=$(with_those_below "$1" | tr '\n' ' ')
  {
    echo "$kit"
    lines_of "$below"
    # shellcheck disable=SC2046 # names are words
    find $(for crate in $below; do printf 'crates/%s/src crates/%s/specs crates/%s/proofs ' "$crate" "$crate" "$crate"; done) \
      -type f \( -name '*.rt' -o -name '*.antt' \) -exec cksum {} + 2>/dev/null | LC_ALL=C sort -k 3
  } | cksum
}

# Whether bin/ has this program, proved and built from these very sources by this very kit.
is_built() { test -x "bin/$1" && test "$(sum_of "$1")" = "$(cat "bin/$1.sources" 2>/dev/null)"; }

# Whether out/ has this library, of which a build leaves rlib/stamp at its end and nothing at its beginning.
is_kept() { test -e "crates/$1/out/rlib/stamp" && test "$(sum_of "$1")" = "$(cat "crates/$1/out/rlib/sources" 2>/dev/null)"; }

# The sources of a crate, in a copy of the repository.
copy_crate() { # crate, folder of the copy
  mkdir -p "$2/crates/$1/out"
  for part in src specs proofs; do
    test ! -d "crates/$1/$part" || cp -R "crates/$1/$part" "$2/crates/$1/"
  done
}

# A folder of its own in which rt works on one crate: rt locks the folder of each crate that it reads, so two crates are not proved
# side by side in one. It has the crate's sources and those below it, with the libraries of these, by links.
make_room() { # crate
  room=$work/$1
  mkdir -p "$room/crates"
  test ! -e HANDLES || cp HANDLES "$room/"
  below=$(with_those_below "$1" | tr '\n' ' ')
  lines_of "$below" >"$room/crates.txt"
  for crate in $below; do
    copy_crate "$crate" "$room"
    test ! -d "crates/$crate/out/rlib" || test "$crate" = "$1" || cp -Rl "crates/$crate/out/rlib" "$room/crates/$crate/out/"
  done
  rmdir "$room/crates/$1/out"
}

# Run in a process of its own: takes what an earlier run kept of the crate into the room, calls rt there, and brings back what there
# is then. Who is cut off brings nothing back.
# shellcheck disable=SC2016 # it is the text of a script
in_room='
  main=$1 room=$2
  shift 2
  test ! -d "$main/out" || mv "$main/out" "$room/out"
  cd "$room" || exit 1
  "$@"
  status=$?
  cd "$main" || exit 1
  if test -d "$room/out"; then
    rm -rf "$main/out"
    mv "$room/out" "$main/out"
  fi
  exit "$status"'

# Proves crates with all that they stand on, where that is not done yet; a program is built, too. The words that a program is called
# with are those of `trial_of`. A library that was made without its proofs fits those alone that it was proved over, so what stands on one that is
# proved anew is proved anew.
prove() { # crates
  : >"$work/plan"
  for name in $(with_those_below "$@"); do
    if is_kept "$name" && ! lines_of "$name" | tr ' ' '\n' | grep -qxFf "$work/plan"; then continue; fi
    echo "$name" >>"$work/plan"
  done
  # shellcheck disable=SC2046 # names are words
  test ! -s "$work/plan" || planned $(cat "$work/plan") >"$work/plan.crates"
  test ! -s "$work/plan" || side_by_side "$work/plan.crates" begin_proof end_proof
}
begin_proof() { # crate, how many jobs it may take, how much it gives way
  sum_of "$1" >"$work/$1.sum"
  make_room "$1"
  if test -e "crates/$1/src/main.rt"; then
    # shellcheck disable=SC2046 # the words of the trial are apart
    set -- "$1" "$2" "$3" python3 "$top/scripts/prove_crate.py" program --jobs "$2" -- $(trial_of "$1")
  elif test -d "crates/$1/out/incremental"; then
    # (rt has proved it here, and keeps that by function)
    set -- "$1" "$2" "$3" rt lib --jobs "$2"
  else
    set -- "$1" "$2" "$3" python3 "$top/scripts/prove_crate.py" library --jobs "$2"
  fi
  crate=$1 may_use=$2 gives_way=$3
  shift 3
  start "$crate" "$may_use" "$gives_way" flock "$top/crates/$crate" sh -c "$in_room" in_room "$top/crates/$crate" "$work/$crate/crates/$crate" "$@"
}
end_proof() { # crate, status
  rm -rf "${work:?}/$1"
  if test "$2" != 0; then
    grep -vE '^(so far: )?(checked|statements|library|logic|rt: chose|[a-z]+ [A-Za-z_:]+: proved)' "$work/$1.log" | tail -n 30 >&2
    fail "$1 is not proved and built (see above)${left_out:+; $left_out}"
  fi
  test "$(sum_of "$1")" = "$(cat "$work/$1.sum")" || fail "the sources of $1, or of what it stands on, changed while they were proved: call this again"
  test ! -d "crates/$1/out/rlib" || cp "$work/$1.sum" "crates/$1/out/rlib/sources"
}

# --- Jobs side by side

# `work` is a folder of this run's own. However the script ends, all that it started is ended first, and then the folder goes.
work_in() { # folder
  work=$1
  caught='' busy=''
  mkdir -p "$work"
  : >"$work/running"
  trap 'end_all; rm -rf "$work"' EXIT
  trap 'catch 129' HUP
  trap 'catch 130' INT
  trap 'catch 143' TERM
}

# The folder of one script that proves: in the repository, so that what is kept moves there and back without a copy. What was cut off
# goes with it. One script at a time has it, and another waits.
work_alone() {
  exec 9<crates
  flock -n 9 || {
    say "$script: another script proves here; waiting for it"
    flock 9
  }
  rm -rf "$top/.work"
  work_in "$top/.work"
}
catch() {
  say "$script: interrupted; what runs is ended"
  caught=$1
  test -n "$busy" || exit "$caught"
}

# Starts a command in a session of its own, so that all that it starts can be found again. At its end a line comes through the pipe.
# Who is to end it may wait for the shell beside it, which ends once the command has. Where the kernel shares its time out by sessions, what a
# session gives way is told to it; between processes of several sessions nice says nothing there.
# shellcheck disable=SC2016 # it is the text of a script
in_session='
  trap : TERM
  log=$1 job=$2 gives_way=$3
  shift 3
  test ! -w /proc/self/autogroup || echo "$gives_way" >/proc/self/autogroup
  nice -n "$gives_way" "$@" >"$log" 2>&1 </dev/null 3>&- 9<&-
  echo "$job $?" >&3'
start() { # job, how many processors it may use, how much it gives way, command
  job=$1 may_use=$2 gives_way=$3
  shift 3
  busy=yes
  setsid sh -c "$in_session" start "$work/$job.log" "$job" "$gives_way" "$@" &
  echo "$job $! $(date +%s) $may_use" >>"$work/running"
  busy=
  test -z "$caught" || exit "$caught"
}

# The processes of a session that have not ended.
of_session() {
  cat /proc/[0-9]*/stat 2>/dev/null | awk -v session="$1" '{ number = $1; sub(/^.*\) /, ""); if ($4 == session && $1 != "Z") print number }'
}

# Ends all that runs: asks first, waits for whom it asked, and then kills what these had started and left behind.
end_all() {
  trap '' HUP INT TERM
  test -e "$work/running" || return 0
  while read -r _ process _; do
    kill -s TERM -- "-$process" 2>/dev/null || kill -s TERM "$process" 2>/dev/null || true
  done <"$work/running"
  while read -r _ process _; do
    wait "$process" 2>/dev/null || true
    for _ in 1 2 3 4 5 6 7 8 9; do
      others=$(of_session "$process")
      test -n "$others" || break
      # shellcheck disable=SC2086 # numbers are words
      kill -s KILL $others 2>/dev/null || true
    done
  done <"$work/running"
  : >"$work/running"
}

# The lines of a plan, those first that most waits for: name, the seconds of the longest chain from there on, its own, what it waits for.
in_order() {
  awk '
    { name[NR] = $1; seconds[$1] = $2; line[$1] = $0; for (i = 3; i <= NF; i++) users[$i] = users[$i] " " $1 }
    function behind(one, list, count, i, most) {
      if (one in known) return known[one]
      count = split(users[one], list, " ")
      most = 0
      for (i = 1; i <= count; i++) if (behind(list[i]) > most) most = behind(list[i])
      return known[one] = seconds[one] + most
    }
    END { for (i = 1; i <= NR; i++) { rest = line[name[i]]; sub(/^[^ ]+ /, "", rest); print name[i], behind(name[i]), rest } }' |
    sort -s -k 2,2nr
}

# Runs one command as a job, and gives its status. What it says is in the job's log.
one_job() { # job, command
  rm -f "$work/ends"
  mkfifo "$work/ends"
  exec 3<>"$work/ends"
  job=$1
  shift
  start "$job" "$(processors)" 0 "$@"
  read -r _ status <&3
  : >"$work/running"
  exec 3<&-
  return "$status"
}

# Runs the jobs of a plan, a line each: its name, the seconds that it is known to take, and the jobs that it waits for. Those that the
# longest chain of others waits for begin first. BEGIN is called with a name, with how many processors the job may use, and with how much it
# is to give way, and calls `start`; END with a name and the job's status. Where the chain is what is waited for, its job may use all processors, and the
# others give way to it: so it goes on as fast as it can, and they fill what it leaves. The two behind it that run or can begin may use half of them then, since each is the
# longest once those before it have gone faster than was known, or as many as the others leave. Where there is more to do than processors can do in
# the time of the chain, each job takes one.
side_by_side() { # plan, BEGIN, END
  in_order <"$1" >"$work/order"
  : >"$work/ended"
  rm -f "$work/ends"
  mkfifo "$work/ends"
  exec 3<>"$work/ends"
  at_once=$(lanes)
  say "$script: $(wc -l <"$work/order") to do, $at_once at once; $(what_is_left)"
  while :; do
    while next=$(next_job) && test -n "$next"; do
      # shellcheck disable=SC2086 # a name, a number and a number
      "$2" $next
    done
    test -s "$work/running" || break
    read -r job status <&3
    begun=$(awk -v job="$job" '$1 == job { print $3 }' "$work/running")
    may_use=$(awk -v job="$job" '$1 == job { print $4 }' "$work/running")
    awk -v job="$job" '$1 != job' "$work/running" >"$work/running.new"
    mv "$work/running.new" "$work/running"
    seconds=$(($(date +%s) - begun))
    echo "$job $seconds $may_use" >>"$work/ended"
    "$3" "$job" "$status"
    say "$job: $seconds s; $(what_is_left)"
  done
  exec 3<&-
  test "$(wc -l <"$work/ended")" = "$(wc -l <"$work/order")" || fail 'jobs wait for one another in a circle'
}

# The job to begin now, with the processors that it may use and how much it gives way, or nothing. A check of several jobs takes a quarter to a third more
# processor time, and a short one ends no sooner for it. So a job may use several where its chain takes longer than all the rest would take on all
# processors, or where nobody else has a use for them.
next_job() {
  # shellcheck disable=SC2046 # two numbers
  set -- $(for_the_chains)
  awk -v lanes="$at_once" -v most="$1" -v half="$2" -v short=60 '
    FILENAME ~ /ended$/ { ended[$1] = 1; next }
    FILENAME ~ /running$/ { running[$1] = 1; taken++; used += $4; next }
    $1 in ended { next }
    {
      left += $3
      if (!($1 in running)) for (i = 4; i <= NF; i++) if (!($i in ended)) next
      rank++
      if ($1 in running) next
      wanted++
      if (!first) { first = rank; name = $1; chain = $2; alone = $3 }
    }
    END {
      if (taken >= lanes || !first) exit
      free = most - taken - (wanted - 1)
      if (first <= 3 && chain > left / lanes && alone >= short) free = first == 1 ? most : most - used > half ? most - used : half
      if (free < 1) free = 1
      gives_way = first == 1 ? 0 : first <= 3 ? 5 : 10
      print name, free, gives_way
    }' "$work/ended" "$work/running" "$work/order"
}

# How many processors the job with the longest chain may use, and each of the two behind it: all, and half of them, where there is memory for as
# many of their proofs beside the other jobs.
for_the_chains() {
  room=$((1 + ($(free_memory) - 2500 * at_once) / 1500))
  most=$room
  test "$most" -le "$(processors)" || most=$(processors)
  test "$most" -ge 1 || most=1
  half=$((1 + (room - most) / 2))
  test "$half" -le $((most / 2)) || half=$((most / 2))
  test "$half" -ge 1 || half=1
  echo "$most $half"
}

# How long a program is likely to take from nothing, by what is known of its crates, and of the machine where it is given: by how much it is slower
# than the one that these seconds were taken on.
machine=1
how_long() { # program, by how much
  machine=${2:-1}
  # shellcheck disable=SC2046 # names are words
  planned $(with_those_below "$1") | in_order >"$work/order"
  : >"$work/ended"
  at_once=$(lanes)
  echo "$(what_is_left | sed 's/^[0-9]* left, //') on $(processors) processors where nothing is kept"
}

# How many jobs are left and how long they are likely to take: all of them by the lanes, or the longest chain, whichever is more. The pace is that of
# the jobs that have ended, apart for those that might use several processors, which go faster by a third until one of them has ended.
what_is_left() {
  awk -v lanes="$at_once" -v machine="$machine" -v gain=1.3 -v now="$(date +%s)" -v most="$(for_the_chains | cut -d ' ' -f 1)" '
    function pace(many) { return known[many] > 0 ? took[many] / known[many] : many && !known[0] ? machine / gain : many ? took[0] / known[0] / gain : machine }
    FILENAME ~ /ended$/ { ended[$1] = $2; many[$1] = $3 > 1; next }
    FILENAME ~ /running$/ { since[$1] = now - $3; many[$1] = $4 > 1; next }
    # (what took next to nothing was kept by rt)
    $1 in ended { if (ended[$1] > $3 / 20) { took[many[$1]] += ended[$1]; known[many[$1]] += $3 }; next }
    { left++; name[left] = $1; chain[left] = $2; alone[left] = $3 }
    END {
      if (!left) { print "nothing is left"; exit }
      for (i = 1; i <= left; i++) {
        lasts = alone[i] * pace(0)
        done = since[name[i]] / pace(many[name[i]]) * pace(0)
        all += lasts > done ? lasts - done : 0
        done = since[name[i]] / pace(many[name[i]]) * pace(most > 1)
        lasts = chain[i] * pace(most > 1) - (done < alone[i] * pace(most > 1) ? done : alone[i] * pace(most > 1))
        if (lasts > longest) longest = lasts
      }
      all /= lanes
      if (longest > all) all = longest
      printf "%d left, about %s\n", left, all < 90 ? int(all + 0.5) " s" : int(all / 60 + 0.5) " minutes"
    }' "$work/ended" "$work/running" "$work/order"
}
