#!/bin/sh
# Measures the reader of texts against a loop that counts brackets, in one run.
# Calls sexp_read_trees, sexp_read_brackets and sexp_read_depth of crates/bench_calls/out/libbench_calls.a.
set -e
top=$(cd "$(dirname "$0")/.." && pwd)
kit=$(dirname "$(dirname "$(readlink -f "$(command -v rt)")")")
calls=$top/crates/bench_calls/out/libbench_calls.a
(cd "$top/crates/bench_calls" && rt lib >/dev/null)
work=$(mktemp -d)
trap 'rm -rf "$work"' EXIT
cc -O2 -o "$work/sexp_read" "$top/bench/sexp_read.c" "$calls" "$kit/c/liblibc_c.a" "$kit/c/libos_c.a"
for kind in commands comment nested; do
    "$work/sexp_read" "$kind"
done
