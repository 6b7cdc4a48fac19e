#!/bin/sh
# A guard that has its condition itself instead of a copy. No run shows it, so the stored cases of lowering must: they are replayed in a
# copy without proofs, first as all stands, then with the edit, which the prover refuses. Both must build and run to their end; only with
# the edit may they write something else than is stored.
set -eu
cd "$(dirname "$0")/.."
new=$(mktemp -d)
trap 'rm -rf "$new"' EXIT

cp -R crates crates.txt "$new"
rm -rf "$new"/crates/*/out
replay() { # OUT
    (cd "$new/crates/vectors_lower" && rt try <stdin) >"$1" 2>"$new/log" && grep -q '^run=ended status=0' "$new/log" ||
        { tail -n 20 "$new/log"; echo "shared condition: the stored cases of lowering were not replayed"; exit 1; }
}

replay "$new/as_it_stands"
cmp "$new/as_it_stands" crates/vectors_lower/stdout
sh tools/apply_edit.sh crates/rl_context/must-fail/shared_condition.edit "$new/crates/rl_context"
replay "$new/edited"
if cmp -s "$new/edited" crates/vectors_lower/stdout; then
    echo "shared condition: NOT SEEN by the stored cases of lowering"
    exit 1
fi
echo "shared condition: seen by the stored cases of lowering"
