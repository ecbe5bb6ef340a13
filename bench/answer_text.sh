#!/bin/sh
# Measures printing and reading back a derivation, at 50,000 and at 100,000 steps, in one run.
# Calls answer_text_printed and answer_text_read_back of crates/bench_calls/out/libbench_calls.a.
set -e
top=$(cd "$(dirname "$0")/.." && pwd)
kit=$(dirname "$(dirname "$(readlink -f "$(command -v rt)")")")
calls=$top/crates/bench_calls/out/libbench_calls.a
(cd "$top/crates/bench_calls" && rt lib >/dev/null)
work=$(mktemp -d)
trap 'rm -rf "$work"' EXIT
cc -O2 -o "$work/answer_text" "$top/bench/answer_text.c" "$calls" "$kit/c/liblibc_c.a" "$kit/c/libos_c.a"
"$work/answer_text"
