#!/bin/sh
# Measures the simplex against a plain one over checked fractions under the same rule, in one run.
# Calls simplex_core_feasible of crates/bench_calls/out/libbench_calls.a.
set -e
top=$(cd "$(dirname "$0")/.." && pwd)
kit=$(dirname "$(dirname "$(readlink -f "$(command -v rt)")")")
calls=$top/crates/bench_calls/out/libbench_calls.a
(cd "$top/crates/bench_calls" && rt lib >/dev/null)
work=$(mktemp -d)
trap 'rm -rf "$work"' EXIT
rustc -O -o "$work/simplex" "$top/bench/simplex.rs" \
    -C link-arg="$calls" -C link-arg="$kit/c/liblibc_c.a" -C link-arg="$kit/c/libos_c.a"
"$work/simplex"
