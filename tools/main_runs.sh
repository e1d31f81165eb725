#!/usr/bin/env bash
# Runs the built program as `main` makes real files and sinks of its words, and compares statuses, output and logs:
#
#     tools/main_runs.sh
#
# The program is crates/paradyn/out/paradyn, or what PARADYN names. What is expected of a run with a log is made by the reference; of
# the other runs it stands here. Each run that ends otherwise is told, and the status is 1 where there are some.
set -u
top=$(cd "$(dirname "$0")/.." && pwd)
paradyn=$(realpath "${PARADYN:-$top/crates/paradyn/out/paradyn}")
folder=$(mktemp -d)
trap 'rm -rf "$folder"' EXIT
cp "$top"/examples/*.elf "$top"/examples/*.conf "$folder"
cd "$folder" || exit 1
runs=0
failed=0

# The status and the output of the program under these words. A log is the file `log`.
check() {
  local status=$1 text=$2
  shift 2
  runs=$((runs + 1))
  "$paradyn" "$@" >out 2>err
  local got=$?
  printf '%b' "$text" >expected
  if [ "$got" != "$status" ] || ! cmp -s out expected || [ -s err ]; then
    printf 'differs: status %s, not %s, of' "$got" "$status"
    printf ' %q' "$@"
    printf '\n'
    failed=1
  fi
}

# The output and the log of a run, and the log read again. The log takes the place of a longer file.
check_log() {
  runs=$((runs + 1))
  head -c 100000 /dev/zero >log
  PYTHONDONTWRITEBYTECODE=1 PYTHONPATH="$top/reference" python3 -m paradyn "$@" --log expected_log >expected &&
    "$paradyn" "$@" --log log >out && cmp out expected && cmp log expected_log && "$paradyn" relog log | cmp - log && return
  echo "differs: $* --log log"
  failed=1
}

check_log run crc.elf crc.conf --width 500
check_log run tickets.elf tickets.conf --harts 4 --width 10000
check_log run rounds.elf search.conf --harts 4 --quantum 25 --width 1000
check_log live rounds.elf rounds.conf --harts 4 --workers 1 --quantum 25
# Words that are no text are no command, wherever they stand.
check 2 'paradyn: usage\n' $'\xff'
check 2 'paradyn: usage\n' run $'\xff' crc.conf
check 2 'paradyn: usage\n' run crc.elf $'crc\xff.conf'
check 2 'paradyn: usage\n' run crc.elf crc.conf --log $'\xff'
check 2 'paradyn: usage\n' run crc.elf crc.conf --log log $'\xc3'
check 2 'paradyn: usage\n'
check 2 'paradyn: usage\n' ''
# A log that can't be made comes before the output; one isn't asked for where the words are none of a run.
check 7 '' run crc.elf crc.conf --log ''
check 7 '' run crc.elf crc.conf --log none/log
check 7 '' run crc.elf crc.conf --log /dev/full
rm -f log
check 2 'paradyn: usage\n' points crc.elf --log log
check 3 'paradyn: cannot read none\n' run none crc.conf --log log
if [ -e log ]; then
  echo 'differs: a log is left by a run that was refused'
  failed=1
fi
# An output that takes nothing.
runs=$((runs + 1))
"$paradyn" points crc.elf >/dev/full 2>err
[ $? = 7 ] || {
  echo 'differs: points with a full output'
  failed=1
}
echo "$runs runs$([ "$failed" = 0 ] || echo ', of which some differ')"
exit "$failed"
