#!/bin/sh
# build.sh NAME..: proves and builds rl_abi (target/staticlib/librl_abi.a, of the crate rl_abi_c), bench_texts
# (target/staticlib/libbench_texts.a) or rl_printer (target/bin/rl_printer). What has not changed since is not proved again.
set -eu
cd "$(dirname "$0")/.."
mkdir -p target/staticlib target/bin
for name in "$@"; do
    case "$name" in
    rl_abi)
        (cd crates/rl_abi_c && rt lib)
        cp crates/rl_abi_c/out/librl_abi_c.a target/staticlib/librl_abi.a
        ;;
    bench_texts)
        (cd crates/bench_texts && rt lib)
        cp crates/bench_texts/out/libbench_texts.a target/staticlib/
        ;;
    rl_printer)
        (cd crates/rl_printer && rt run <stdin)
        cp crates/rl_printer/out/rl_printer target/bin/
        ;;
    *)
        echo "build.sh: no $name" >&2
        exit 2
        ;;
    esac
done
