#!/usr/bin/env bash
# Runs programs on the unpatched and on the patched machine side by side, while blocks are written, linked, unlinked and freed at
# random moments, and compares the harts behind each turn:
#
#     tools/random_patches.sh ROUNDS SEEDS ELF..
#
# A round is up to 29 turns of one hart and one thing that the tool does. Seed 0 has one hart, 1 two, up to four. Nothing of
# this is proved, so it isn't a crate of the repository: it is run in a copy, by `rt try`.
set -eu
top=$(cd "$(dirname "$0")/.." && pwd)
copy=$(mktemp -d)
trap 'rm -rf "$copy"' EXIT
git clone -q "$top" "$copy/repository"
cd "$copy/repository"
mkdir -p crates/random_patches/src
cp "$top/tools/random_patches.rs" crates/random_patches/src/main.rt
echo "random_patches: pn_types rv_word rv_mem rv_exec tramp_spec relocate tramp_build prim_code code_store tool_space elf_form elf_load plain_run machine" >> crates.txt
cd crates/random_patches
rt try --seconds 100000 -- "$@"
