#!/usr/bin/env bash
# Tries wrong bodies of crates, each of which the prover must refuse: the edits in tools/wrong_bodies/CRATE, one after another.
#
#     tools/wrong_bodies.sh CRATE..
#
# It works on what is committed, in a clone of the repository, and takes over what was proved here of the crates' libraries. It is no
# gate: run it before a change of a crate's code or contracts lands. An edit whose old text no longer stands is told only here.
set -eu
[ $# -gt 0 ] || { echo "usage: tools/wrong_bodies.sh CRATE.." >&2; exit 2; }
top=$(cd "$(dirname "$0")/.." && pwd)
for crate in "$@"; do
  [ -d "$top/tools/wrong_bodies/$crate" ] || { echo "no wrong bodies of $crate" >&2; exit 2; }
done
copy=$(mktemp -d)
trap 'rm -rf "$copy"' EXIT
git clone -q "$top" "$copy/repository"
cd "$copy/repository"
for proved in "$top"/crates/*/out/rlib; do
  crate=crates/$(basename "$(dirname "$(dirname "$proved")")")
  if [ -d "$crate" ]; then
    mkdir -p "$crate/out"
    cp -r "$proved" "$crate/out/"
  fi
done
for crate in "$@"; do
  mkdir -p "crates/$crate/must-fail"
  cp "tools/wrong_bodies/$crate"/*.edit "crates/$crate/must-fail/"
done
rt must-fail "$@"
