#!/bin/sh
# Measures tables with versions against vectors that are cloned, in one run.
# Calls cube_forms_pushes of crates/bench_calls/out/libbench_calls.a.
set -e
top=$(cd "$(dirname "$0")/.." && pwd)
kit=$(dirname "$(dirname "$(readlink -f "$(command -v rt)")")")
calls=$top/crates/bench_calls/out/libbench_calls.a
(cd "$top/crates/bench_calls" && rt lib >/dev/null)
work=$(mktemp -d)
trap 'rm -rf "$work"' EXIT
rustc -O -o "$work/tables" "$top/bench/tables.rs" \
    -C link-arg="$calls" -C link-arg="$kit/c/liblibc_c.a" -C link-arg="$kit/c/libos_c.a"
"$work/tables"
