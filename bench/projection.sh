#!/bin/sh
# Measures projection against a plain loop of the same rules on machine integers, in one run.
# Calls model_project_rounds of crates/bench_calls/out/libbench_calls.a.
set -e
top=$(cd "$(dirname "$0")/.." && pwd)
kit=$(dirname "$(dirname "$(readlink -f "$(command -v rt)")")")
calls=$top/crates/bench_calls/out/libbench_calls.a
(cd "$top/crates/bench_calls" && rt lib >/dev/null)
work=$(mktemp -d)
trap 'rm -rf "$work"' EXIT
rustc -O -o "$work/projection" "$top/bench/projection.rs" \
    -C link-arg="$calls" -C link-arg="$kit/c/liblibc_c.a" -C link-arg="$kit/c/libos_c.a"
"$work/projection"
