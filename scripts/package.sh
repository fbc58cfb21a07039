#!/bin/sh
# A release: a tar of the proved programs with their manual pages and documents, and the checksums of all. It runs on a machine of the same kind
# without the kit.
#
#     sh scripts/package.sh [FILE [WBCACHE WBNBD WBMETA]]
#
# FILE is bin/raistobe.tar.gz where none is said; the programs are those that scripts/build.sh leaves, which it calls for each, where none
# are said. In the tar SHA256SUMS lists every other file: sha256sum -c SHA256SUMS.
set -eu
top=$(cd "$(dirname "$0")/.." && pwd)
whole() { echo "$(cd "$(dirname "$1")" && pwd)/$(basename "$1")"; }
mkdir -p "$top/bin"
file=$(whole "${1:-$top/bin/raistobe.tar.gz}")
if test $# = 4; then
  shift
  programs="$(whole "$1") $(whole "$2") $(whole "$3")"
else
  for program in wbcache wbnbd wbmeta; do sh "$top/scripts/build.sh" "$program"; done
  programs="$top/bin/wbcache $top/bin/wbnbd $top/bin/wbmeta"
fi
work=$(mktemp -d)
trap 'rm -rf "$work"' EXIT
release=$work/raistobe
mkdir -p "$release/bin" "$release/share/man/man1" "$release/share/doc/raistobe/docs/systemd"
# shellcheck disable=SC2086 # several words
install -m 755 $programs "$release/bin/"
install -m 644 "$top"/docs/man/*.1 "$release/share/man/man1/"
install -m 644 "$top/README.md" "$top/CHANGELOG.md" "$release/share/doc/raistobe/"
install -m 644 "$top"/docs/*.md "$top"/docs/*.svg "$release/share/doc/raistobe/docs/"
install -m 644 "$top"/docs/systemd/* "$release/share/doc/raistobe/docs/systemd/"
cd "$release"
find . -type f ! -name SHA256SUMS | sort | sed 's/^\.\///' | xargs sha256sum >SHA256SUMS
# Whatever the machine and the day: the same files make the same tar.
tar -C "$work" --sort=name --owner=0 --group=0 --numeric-owner --mtime='2000-01-01 00:00:00Z' -cf - raistobe | gzip -n >"$file"
echo "$file"
