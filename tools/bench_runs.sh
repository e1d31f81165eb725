#!/usr/bin/env bash
# Notes what a run costs beside the unpatched machine, in one go: for each case the host's instructions a tick (callgrind's, the
# same from run to run; what a run of fewer ticks takes is taken off) and the ticks a second, the best of five. Then what a node of
# the search costs where its nodes double, and where nodes and procedures double. Run it at the top of the repository, on a machine
# with the Rattle kit and valgrind, where `rt run` built crates/paradyn; tools/turns.rs is built in a clone, by build_in_clone.sh.
set -eu
top=$(cd "$(dirname "$0")/.." && pwd)
paradyn=$top/crates/paradyn/out/paradyn
folder=$(mktemp -d)
trap 'rm -rf "$folder"' EXIT
"$top/tools/build_in_clone.sh" "$folder/repository" turns
plain=$folder/repository/crates/turns/out/turns
cd "$folder"

cat >loop.s <<'TEXT'
.proc main
l: ld a1, 0(a2)
addi a1, a1, 1
sd a1, 0(a2)
addi a0, a0, 1
j l
.end
TEXT
cat >call.s <<'TEXT'
.proc main
l: call f
j l
.end
.proc f
nop
ret
.end
TEXT
: >none.conf
echo 'include metrics; at 0 show procedure_calls /Code/program/f;' >counter.conf
echo 'include metrics; at 0 show cpu_inclusive /Code/program/f;' >timer.conf
echo 'include metrics; at 0 show procedure_calls /Code/program/f; at 0 show cpu_inclusive /Code/program/f;' >both.conf

instructions() { valgrind --tool=callgrind --callgrind-out-file=/dev/null "$@" 2>&1 >/dev/null | sed -n 's/.*Collected : //p'; }
nanoseconds() {
  local least=0 start each
  for _ in 1 2 3 4 5; do
    start=$(date +%s%N)
    "$@" >/dev/null
    each=$(($(date +%s%N) - start))
    if [ "$least" = 0 ] || [ "$each" -lt "$least" ]; then least=$each; fi
  done
  echo "$least"
}
# note NAME FEW MANY COMMAND..: the command is given FEW and 3 times FEW ticks to count, and MANY to time.
note() {
  local name=$1 few=$2 many=$3
  shift 3
  local less more time
  less=$(instructions "$@" "$few")
  more=$(instructions "$@" "$((3 * few))")
  time=$(nanoseconds "$@" "$many")
  awk -v name="$name" -v less="$less" -v more="$more" -v few="$few" -v many="$many" -v time="$time" \
    'BEGIN { printf "| %s | %.1f | %.1f million |\n", name, (more - less) / (2 * few), many * 1000 / time }'
}
echo "cores: $(nproc)"
note 'the unpatched machine' 100000 100000000 "$plain"
for quantum in 50 1000; do
  note "the same loop under run, quanta of $quantum" 100000 100000000 "$paradyn" run loop.s none.conf --quantum "$quantum" --budget
done
note 'a loop that calls, nothing patched' 100000 50000000 "$paradyn" run call.s none.conf --budget
for conf in counter timer both; do
  note "the same with $conf" 20000 2000000 "$paradyn" run call.s "$conf.conf" --budget
done
for harts in 2 8 32; do
  note "the loop on $harts harts, ticks of one" 20000 2000000 "$paradyn" run loop.s none.conf --harts "$harts" --budget
done

# What a run of three words takes, all but the turns: host instructions and page faults.
cat >three.s <<'TEXT'
.proc main
li a0, 0
li a7, 93
ecall
.end
TEXT
faults() { python3 -c 'import os, sys; os.posix_spawn(sys.argv[1], sys.argv[1:], os.environ); print(os.wait4(-1, 0)[2].ru_minflt)' "$@" | tail -1; }
echo "| a run of three words | $(instructions "$paradyn" run three.s none.conf) host instructions | $(faults "$paradyn" run three.s none.conf) page faults |"

# nodes PROCEDURES BUDGET: what the search costs a node, over the same run without it.
nodes() {
  local procedures=$1 budget=$2 count without with
  "$top/tools/search_nodes.py" . "$procedures"
  count=$("$paradyn" run nodes.s nodes.conf --width 1000 --budget "$budget" | grep -c '^node ')
  without=$(instructions "$paradyn" run nodes.s none.conf --width 1000 --budget "$budget")
  with=$(instructions "$paradyn" run nodes.s nodes.conf --width 1000 --budget "$budget")
  awk -v procedures="$procedures" -v count="$count" -v less="$without" -v more="$with" \
    'BEGIN { printf "| %d | %d | %.0f million | %.3f million |\n", procedures, count, (more - less) / 1e6, (more - less) / count / 1e6 }'
}
nodes 500 100000
nodes 1000 200000
nodes 2000 100000
nodes 2000 200000
nodes 2000 400000
