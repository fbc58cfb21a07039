#!/bin/sh
# Which proofs of a crate take longest: checks it from nothing, and lists the seconds before each of its twenty slowest
# functions was done. What a function's types bring is counted with the first function that needs it.
#
#     sh scripts/slowest.sh CRATE [--test]
set -eu
cd "$(dirname "$0")/../crates/$1"
shift
rm -rf out/incremental
last=$(date +%s)
rt check "$@" --jobs 1 --progress 2>&1 | while IFS= read -r line; do
  now=$(date +%s)
  case $line in
    'checked '*) echo "$((now - last)) ${line#checked }" ;;
    *error*) echo "$line" >&2 ;;
  esac
  last=$now
done | sort -rn | head -n 20
