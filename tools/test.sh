#!/bin/sh
# The whole test: the gate, and what is compared beside it on the libraries, built of what the gate has proved. The last line is
# the gate's own, the line before it says whether the original was compared.
set -eu
cd "$(dirname "$0")/.."

log=$(mktemp)
new=$(mktemp -d)
trap 'rm -rf "$log" "$new"' EXIT
trap 'exit 1' HUP INT TERM
began=$(date +%s)
phase() { echo "seconds: $1 $(($(date +%s) - began))"; began=$(date +%s); }

(cd tools && cargo fmt --check)

# the gate, which refuses what is not laid out too: a pipe would lose its status. An edit that no longer fits is named bad, and fails here
rt ci >"$log" 2>&1 || { cat "$log"; exit 1; }
sed '$d' "$log"
last=$(tail -n 1 "$log")
if grep '^rt: ok.*, [1-9][0-9]* bad' "$log"; then exit 1; fi
case "$last" in
*" passed, 0 failed") ;;
*) echo "$last"; exit 1 ;;
esac
phase gate

# wrong definitions are refused by the closed examples or the theorems, and what no run shows by the stored cases
sh tools/definition_edits.sh
sh tools/shared_condition.sh
phase definitions

# the library, compared with an independent reader, folder, prover, printing of pages, runner and lowering and, where it is here, with
# the original; both forms of comparing texts; the stack that it takes; the printer too
sh tools/build.sh rl_abi bench_texts rl_printer >"$new/library" 2>&1 || { cat "$new/library"; exit 1; }
(cd tools && cargo test --quiet -p rlimg -p oracle >"$new/tests" 2>&1) || { cat "$new/tests"; exit 1; }
(cd tools && cargo build --quiet --release)
tools/target/release/compare_read
tools/target/release/compare_words
tools/target/release/compare_prove 100000
tools/target/release/compare_pages 20000
tools/target/release/compare_run 200000
tools/target/release/run_limits
tools/target/release/compare_lower 100000
tools/target/release/compare_lowered 10000
tools/target/release/compare_reading 100000
tools/target/release/lower_limits
tools/target/release/stack_limits
tools/target/release/compare_print
tools/target/release/replay_goes_on

# the example in C on the samples, which are what rlimg makes of their texts
sh tools/examples_test.sh target/staticlib/librl_abi.a

# the stored cases are what the tools make, and the printer's own is the sample
tools/target/release/vectors "$new"
cmp "$new/stdin" crates/vectors_read/stdin
cmp "$new/stdout" crates/vectors_read/stdout
tools/target/release/vectors_run "$new/run"
cmp "$new/run/stdin" crates/vectors_run/stdin
cmp "$new/run/stdout" crates/vectors_run/stdout
tools/target/release/vectors_lower "$new/lower"
cmp "$new/lower/stdin" crates/vectors_lower/stdin
cmp "$new/lower/stdout" crates/vectors_lower/stdout
tools/target/release/vectors_pages "$new/pages"
cmp "$new/pages/stdin" crates/vectors_pages/stdin
cmp "$new/pages/stdout" crates/vectors_pages/stdout
cmp samples/flow.img crates/rl_printer/stdin
tools/target/release/vectors_prove "$new/prove"
cmp "$new/prove/stdin" crates/vectors_prove/stdin
cmp "$new/prove/stdout" crates/vectors_prove/stdout
phase comparisons

tools/target/release/original
echo "$last"
