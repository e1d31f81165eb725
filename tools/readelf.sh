#!/usr/bin/env bash
# Shows that the usual tools read the ELF files that `paradyn asm` writes: makes the file of each text of examples/ and of
# the folders that are given, and prints what `readelf -a` warns of. Skipped where readelf is missing. The program is
# crates/paradyn/out/paradyn, or what PARADYN names.
set -eu
top=$(cd "$(dirname "$0")/.." && pwd)
paradyn=${PARADYN:-$top/crates/paradyn/out/paradyn}
command -v readelf >/dev/null || { echo "skipped: no readelf"; exit 0; }
file=$(mktemp)
trap 'rm -f "$file"' EXIT
read=0
warned=0
for text in "$top"/examples/*.s $(for folder in "$@"; do ls -d "$folder"/*; done); do
  [ -f "$text" ] && "$paradyn" asm "$text" >"$file" || continue
  read=$((read + 1))
  warnings=$(readelf -a "$file" 2>&1 >/dev/null)
  warnings+=$(readelf -a "$file" 2>/dev/null | grep -i "warning\|error" || true)
  if [ -n "$warnings" ]; then
    warned=$((warned + 1))
    echo "$text: $warnings"
  fi
done
echo "files: $read, with warnings: $warned"
