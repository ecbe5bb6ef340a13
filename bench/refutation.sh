#!/bin/sh
# Measures the checker of refutations against a walk that only counts their nodes, in one run.
# Calls farkas_proof_checked and farkas_proof_counted of crates/bench_calls/out/libbench_calls.a.
set -e
top=$(cd "$(dirname "$0")/.." && pwd)
kit=$(dirname "$(dirname "$(readlink -f "$(command -v rt)")")")
calls=$top/crates/bench_calls/out/libbench_calls.a
(cd "$top/crates/bench_calls" && rt lib >/dev/null)
work=$(mktemp -d)
trap 'rm -rf "$work"' EXIT
cc -O2 -o "$work/refutation" "$top/bench/refutation.c" "$calls" "$kit/c/liblibc_c.a" "$kit/c/libos_c.a"
"$work/refutation"
