#!/usr/bin/env bash
# Builds programs that measure and prove nothing of the subject, so that they are no crates of the repository, in a clone of it:
#
#     tools/build_in_clone.sh CLONE NAME..
#
# A NAME is turns, patched_turns or logs, and its program is CLONE/crates/NAME/out/NAME then. It is proved before it is built; what
# earlier runs of rt left in the repository's crates is taken along.
set -eu
top=$(cd "$(dirname "$0")/.." && pwd)
clone=$1
shift
git clone -q "$top" "$clone"
for out in "$top"/crates/*/out; do
  if [ -d "$out" ]; then cp -r "$out" "$clone/crates/$(basename "$(dirname "$out")")/"; fi
done
cat >>"$clone/crates.txt" <<'TEXT'
turns: pn_types plain_run
patched_turns: pn_types rv_word tramp_spec prim_code tramp_build frame_walk machine test_examples
logs: pn_types quanta_log
TEXT
for name in turns patched_turns logs; do
  crate=$clone/crates/$name
  mkdir -p "$crate/src"
  cp "$top/tools/$name.rs" "$crate/src/main.rt"
  file=
  if [ -f "$top/tools/$name.proofs" ]; then
    while IFS= read -r line; do
      case $line in
        '== '*)
          file=$crate/${line#== }
          mkdir -p "$(dirname "$file")"
          : >"$file"
          ;;
        *) if [ -n "$file" ]; then printf '%s\n' "$line" >>"$file"; fi ;;
      esac
    done <"$top/tools/$name.proofs"
  fi
done
for name in "$@"; do
  (cd "$clone/crates/$name" && rt run -- 1000 1 >&2)
done
