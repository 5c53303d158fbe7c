#!/usr/bin/env sh
# Builds the benchmark and prints how many goals a second are proved over chains of variables, with one pool and one buffer for all, and how
# long a round of about a million pairs takes. Where z3 is installed the same goals go through one process of it, for comparison.
set -e
cd "$(dirname "$0")/.."
mkdir -p bin
(cd crates/bench_parts && rt run -- chain 8 3 >/dev/null)
cp crates/bench_parts/out/bench_parts bin/

# nanoseconds that a command takes
nanoseconds() {
    start=$(date +%s%N)
    "$@" >/dev/null
    end=$(date +%s%N)
    echo $((end - start))
}

# the goal over a chain of so many variables, so many times, as z3 reads it
chain_for_z3() {
    awk -v vars="$1" -v times="$2" 'BEGIN {
        print "(set-logic QF_LIA)"
        for (i = 0; i < vars; i++) print "(declare-const v" i " Int)"
        goal = "(push)"
        for (i = 1; i < vars; i++) goal = goal "(assert (>= v" i - 1 " v" i "))"
        goal = goal "(assert (not (>= v0 v" vars - 1 ")))(check-sat)(pop)"
        for (i = 0; i < times; i++) print goal
    }'
}

z3_reads() {
    z3 -in <bin/chain.smt2
}

for run in "8 20000 2000" "16 8000 1000" "32 2000 500" "64 500 200"; do
    set -- $run
    line="chain of $1 variables: $(($2 * 1000000000 / $(nanoseconds bin/bench_parts chain "$1" "$2"))) goals a second"
    if command -v z3 >/dev/null; then
        chain_for_z3 "$1" "$3" >bin/chain.smt2
        line="$line, $(($3 * 1000000000 / $(nanoseconds z3_reads))) by z3"
    fi
    echo "$line"
done
echo "45 rows of each sign, up to 980100 pairs in one round: $(($(nanoseconds bin/bench_parts curve 45 1) / 1000000)) ms"
