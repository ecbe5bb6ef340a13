#!/bin/sh
# Refuses each request for memory of a whole run of the program in turn, one a run, for each script given, or for
# the examples, with a search that is short (5 units of work and 3 nodes of a query, or as UNITS and NODES
# say) and by one worker, or by WORKERS. Each run must end in one of three ways: as it does when none is
# refused; with status 5 and the error line, where there was no book; or with status 5 and `unknown` with the
# level that was closed, at most LEVEL where that is given. How many runs ended in each way is printed, and
# how many answered as ever although a request was refused: fewer than LEAST of these are a fault.
#
# Several workers ask for memory in another order each time, and not equally often, so how many requests there are
# is taken from each run: with one worker the first run that has fewer is the end, with several the tenth
# in a row. The scripts that several are given must have one answer.
# WORDS are other words, as `check`, for inputs of such a call, or `gen --depth 1 --seed 1`, which reads none.
# CHC names a program to be run in place of the one that ./chc builds.
set -e
top=$(cd "$(dirname "$0")/.." && pwd)
program=${CHC:-$top/crates/chc/out/chc}
units=${UNITS:-5}
nodes=${NODES:-3}
workers=${WORKERS:-1}
level=${LEVEL:-}
least=${LEAST:-0}
last=1
[ "$workers" -eq 1 ] || last=10
words=${WORDS:-solve --workers $workers --units $units --nodes $nodes}
[ -x "$program" ] || "$top/chc" solve </dev/null >/dev/null || [ -x "$program" ]
work=$(mktemp -d)
trap 'rm -rf "$work"' EXIT
cc -O2 -shared -fPIC -o "$work/refuse.so" "$top/bench/allocations.c" -ldl
[ $# -gt 0 ] || set -- "$top"/examples/*.smt2

# Runs the program on the script with that request refused, and keeps its output, status and requests.
run() {
    status=0
    rm -f "$work/count"
    LD_PRELOAD=$work/refuse.so REFUSED=$2 COUNTED=$work/count \
        "$program" $words <"$1" >"$work/$3" || status=$?
    requests=$(cat "$work/count" 2>/dev/null || echo 0)
}

# Counts in which way a run with status 5 ended.
count_wanting() {
    if printf '(error "out of memory")\n' | cmp -s - "$work/part"; then
        lines=$((lines + 1))
        return
    fi
    told=$(sed -n 's/^; level \([0-9][0-9]*\) memory$/\1/p' "$work/part")
    printf 'unknown\n; level %s memory\n' "$told" | cmp -s - "$work/part" || return 1
    [ -z "$level" ] || [ "$told" -le "$level" ] || return 1
    levels=$((levels + 1))
}

for script in "$@"; do
    run "$script" 0 whole
    wanted=$status
    number=1
    row=0
    lines=0
    levels=0
    answers=0
    unrefused=0
    while [ "$row" -lt "$last" ]; do
        run "$script" "$number" part
        row=$((row + 1))
        [ "$requests" -lt "$number" ] || row=0
        if [ "$status" -eq 5 ]; then
            count_wanting || { echo "$script: request $number: status 5 with another text"; exit 1; }
        elif [ "$status" -ne "$wanted" ] || ! cmp -s "$work/part" "$work/whole"; then
            echo "$script: request $number: status $status"
            exit 1
        elif [ "$requests" -lt "$number" ]; then
            unrefused=$((unrefused + 1))
        else
            answers=$((answers + 1))
        fi
        number=$((number + 1))
    done
    echo "$script: $((number - 1 - unrefused)) requests refused in turn: $lines times the error line, $levels times a level, $answers times status $wanted as ever although one was refused, and $unrefused runs without so many"
    [ "$answers" -ge "$least" ] || { echo "$script: fewer than $least answers"; exit 1; }
done
