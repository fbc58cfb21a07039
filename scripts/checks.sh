# What the scripts that check something count with. Read by check-program.sh and by those that it calls.
# shellcheck shell=sh
passed=0
failed=0

check() { # name, what was found, what is wanted
  if test "$2" = "$3"; then
    passed=$((passed + 1))
  else
    failed=$((failed + 1))
    printf 'failed: %s\n  wanted: %s\n  found:  %s\n' "$1" "$3" "$2"
  fi
}
has() { # name, text, part of it
  case $2 in
    *"$3"*) check "$1" yes yes ;;
    *) check "$1" "$2" "..$3.." ;;
  esac
}
# Another script of this kind: what failed there is told here, and its counts are added.
call() { # script, arguments
  case $1 in *.py) said=$(python3 "$@") ;; *) said=$(sh "$@") ;; esac
  printf '%s\n' "$said" | sed '$d'
  counts=$(printf '%s\n' "$said" | tail -n 1)
  case $counts in
    *' passed, '*' failed')
      passed=$((passed + ${counts%% *}))
      counts=${counts#* passed, }
      failed=$((failed + ${counts%% *}))
      ;;
    *) check "$1 tells its counts" "$counts" 'N passed, N failed' ;;
  esac
}
tell() {
  echo "$passed passed, $failed failed"
  test "$failed" = 0
}
