#!/bin/sh
# Measures the sign of a scalar product against a plain loop in 128 bits, in one run.
# Calls lin_atoms_sign_of_dot of crates/bench_calls/out/libbench_calls.a.
set -e
top=$(cd "$(dirname "$0")/.." && pwd)
kit=$(dirname "$(dirname "$(readlink -f "$(command -v rt)")")")
calls=$top/crates/bench_calls/out/libbench_calls.a
(cd "$top/crates/bench_calls" && rt lib >/dev/null)
work=$(mktemp -d)
trap 'rm -rf "$work"' EXIT
rustc -O -o "$work/sign_of_dot" "$top/bench/sign_of_dot.rs" \
    -C link-arg="$calls" -C link-arg="$kit/c/liblibc_c.a" -C link-arg="$kit/c/libos_c.a"
"$work/sign_of_dot"
