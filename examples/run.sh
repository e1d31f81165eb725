#!/usr/bin/env bash
# Makes the ELF file of each example anew, runs it, and compares both, and a plan, with what stands here. The program is
# ../crates/paradyn/out/paradyn, or what PARADYN names. The C programs are built and compared where the compiler that made
# their ELF files is installed; another one, or another version, makes other bytes.
set -u
cd "$(dirname "$0")"
paradyn=${PARADYN:-../crates/paradyn/out/paradyn}
made=$(mktemp)
trap 'rm -f "$made"' EXIT
failed=0
check() {
  name=$1
  shift
  "$paradyn" asm "$name.s" >"$made" && cmp "$made" "$name.elf" || failed=1
  "$paradyn" run "$name.elf" "$name.conf" "$@" >"$made" && cmp "$made" "$name.report" || failed=1
}
check_search() {
  name=$1
  shift
  "$paradyn" run "$name.elf" search.conf "$@" >"$made" && cmp "$made" "${name}_search.report" || failed=1
}
check_advice() {
  name=$1
  shift
  "$paradyn" run "$name.elf" narrow.conf "$@" >"$made" && cmp "$made" "${name}_narrow.report" || failed=1
  "$paradyn" advise "${name}_narrow.report" >"$made" && cmp "$made" "$name.directives" || failed=1
  "$paradyn" direct "$name.elf" narrow.conf "$name.directives" "$@" >"$made" && cmp "$made" "${name}_directed.report" || failed=1
}
check_views() {
  name=$1
  shift
  "$paradyn" visi "$name.elf" "$name.conf" "$@" >"$made" && cmp "$made" "$name.views" || failed=1
}
check_blocks() {
  name=$1
  shift
  "$paradyn" blocks "$name.elf" "$@" >"$made" && cmp "$made" "$name.blocks" || failed=1
}
check_plan() {
  name=$1
  shift
  "$paradyn" plan "$name.elf" metrics.conf "$@" >"$made" && cmp "$made" "$name.plan" || failed=1
}
compiler=riscv64-unknown-elf-gcc
version=$("$compiler" --version 2>/dev/null | sed -n '1s/^[^(]*/GCC: /p')
check_build() {
  folder=$1
  shift
  for name; do
    if [ -z "$version" ] || ! grep -aqF "$version" "$folder/$name.elf"; then
      echo "$folder/$name.elf: not built anew: the $compiler that made it isn't installed"
    elif said=$(cd "$folder" && CC=$compiler ../runtime/pdcc -o "$made" "$name.c" 2>&1); then
      cmp "$made" "$folder/$name.elf" || failed=1
    else
      echo "$said"
      failed=1
    fi
  done
}
check crc --width 500
check tickets --harts 4 --width 10000
check rounds --harts 4 --quantum 25 --width 5000
check_search tickets --harts 4 --width 5000
check_search rounds --harts 4 --quantum 25 --width 1000
check_blocks crc
check_views tickets --harts 4 --width 10000
check_advice tickets --harts 4 --width 5000
check_plan tickets sync_wait /SyncObject/lock_tickets
check_build words words words2 words3
check_build recipes sorts
[ "$failed" = 0 ] && echo "all examples print what they should"
exit "$failed"
