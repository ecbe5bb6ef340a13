#!/bin/sh
# Measures the integer solver against z3 on the same queries, and against a search of all points, in one run.
# Calls lia_cases_decide of crates/bench_calls/out/libbench_calls.a.
set -e
top=$(cd "$(dirname "$0")/.." && pwd)
kit=$(dirname "$(dirname "$(readlink -f "$(command -v rt)")")")
calls=$top/crates/bench_calls/out/libbench_calls.a
(cd "$top/crates/bench_calls" && rt lib >/dev/null)
work=$(mktemp -d)
trap 'rm -rf "$work"' EXIT
rustc -O -o "$work/solver" "$top/bench/solver.rs" \
    -C link-arg="$calls" -C link-arg="$kit/c/liblibc_c.a" -C link-arg="$kit/c/libos_c.a"
"$work/solver" "$@"
