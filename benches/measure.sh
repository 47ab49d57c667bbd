#!/usr/bin/env bash
# Builds the program that run.sh and decks.sh time, where it isn't built, and prints its path. Its sources in benches/measure/
# are no crate of the repository, so that the gate needn't prove them: out/measure is the repository with them as one more.
set -eu
cd "$(dirname "$0")/.."
whole=$PWD/out/measure
own=$whole/crates/measure
program=$own/out/measure
uses="solve_workers book_core first_plan gates lock_io instance_text berth_place chamber_place spot_place mooring_rules ship_shapes flow_bounds master_branch deck_laws lock_model search_book price_bound price_terms place_refute deck_cuts refute_rules"

if [ ! -x "$program" ]; then
  rm -rf "$whole"
  mkdir -p "$own"
  git archive HEAD crates | tar -x -C "$whole"
  cp HANDLES "$whole"
  { cat crates.txt; echo "measure: $uses"; } >"$whole/crates.txt"
  (cd benches/measure && find src proofs -type f) | while read -r file; do
    mkdir -p "$own/$(dirname "$file")"
    cp "benches/measure/$file" "$own/${file%.txt}"
  done
  touch "$own/stdin" "$own/stdout"
  (cd "$own" && rt run -- none >/dev/null)
fi
echo "$program"
