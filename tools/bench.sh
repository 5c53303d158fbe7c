#!/usr/bin/env sh
# Builds bench_parts and prints how many proof lines a second are checked, beside a plain loop in C that does the same sums; how many megabytes a
# second of two sources of a mebibyte are lexed and parsed; how many goals a second are proved; and, with bin/xanadu and bin/dtal of tools/try.sh, how
# long the goals of whole sources take, a loop of ten million turns, and the steps of the machine.
set -e
cd "$(dirname "$0")/.."
mkdir -p bin
(cd crates/bench_parts && rt run -- chain 8 3 >/dev/null)
cp crates/bench_parts/out/bench_parts bin/
cc -O2 -o bin/lines_in_c tools/bench_lines.c

# nanoseconds that a command takes
took() {
    start=$(date +%s%N)
    "$@" >/dev/null
    end=$(date +%s%N)
    echo $((end - start))
}

LINES_OF_A_PROOF=100000
CHECKS=20

# lines a second of a program that checks a proof of this kind
lines_a_second() {
    echo $((LINES_OF_A_PROOF * CHECKS * 1000000000 / $(took "$1" "$2" "$LINES_OF_A_PROOF" "$CHECKS")))
}

for kind in combs cuts; do
    echo "$kind: $(lines_a_second bin/bench_parts $kind) lines a second checked, $(lines_a_second bin/lines_in_c $kind) by the loop in C"
done

READINGS=10
SOURCE_BYTES=1048000

# functions of sums, until they fill the source
functions_of_sums() {
    awk -v most=$SOURCE_BYTES 'BEGIN {
        while (size < most) {
            line = "fun f" made++ "(x: int, y: int): int { return x + y - " made "; }\n"
            size += length(line)
            printf "%s", line
        }
    }'
}

# one function of statements of four hundred operators, until they fill the source
long_statements() {
    awk -v most=$((SOURCE_BYTES - 4000)) 'BEGIN {
        print "fun main(x: int): int {"
        while (size < most) {
            line = "    x = x"
            for (i = 0; i < 100; i++) line = line " + x * " i " - (x + " i ")"
            line = line ";\n"
            size += length(line)
            printf "%s", line
        }
        print "    return x;\n}"
    }'
}

# megabytes a second, in tenths, of a source that is read in the way of this kind
tenths_of_megabytes() {
    echo $(($(wc -c <"$2") * READINGS * 10000 / $(took bin/bench_parts "$1" "$2" "$READINGS")))
}

for source in functions_of_sums long_statements; do
    $source >"bin/$source.xan"
    for kind in tokens trees; do
        speed=$(tenths_of_megabytes $kind "bin/$source.xan")
        echo "$source: $((speed / 10)).$((speed % 10)) MB a second, $kind"
    done
done

# so many functions, each with a loop that sums an array
functions_of_loops() {
    awk -v functions="$1" 'BEGIN {
        for (made = 0; made < functions; made++) {
            print "fun f" made "{n: nat}(a: int[n]): int {\n  var i = 0;\n  var s = 0;"
            print "  while (i < len(a)) with {k: int | 0 <= k, k <= n} (i: int(k)) {\n    s = s + a[i];\n    i = i + 1;\n  }\n  return s;\n}"
        }
        print "fun main(): int { return 0; }"
    }'
}

# a function that begins so, with this line until it fills the source
filled_with() {
    awk -v first="$1" -v line="$2" -v most=$((SOURCE_BYTES - 4000)) 'BEGIN {
        print first
        for (size = 0; size < most; size += length(line) + 1) print line
        print "return v0;\n}"
    }'
}

twenty_variables() {
    awk 'BEGIN { for (i = 0; i < 20; i++) printf "var v%d = %d; ", i, i }'
}

# milliseconds that the goals of this source take, whatever they come to
goals_of() {
    echo "goals of $1: $(($(took sh -c "bin/xanadu goals $2 || true") / 1000000)) ms"
}

if [ -x bin/xanadu ]; then
    for functions in 250 500 1000; do
        functions_of_loops $functions >bin/loops.xan
        goals_of "$functions functions with a loop" bin/loops.xan
    done
    filled_with "fun main(): int { var v0 = 0;" "v0 = v0 + 1;" >bin/statements.xan
    goals_of "a mebibyte of statements" bin/statements.xan
    filled_with "fun main(): int { $(twenty_variables)" "if (v0 < v1) { v2 = v3 + 1; } else { v4 = v5; }" >bin/branches.xan
    goals_of "a mebibyte of branches with 20 variables in scope, up to the limit of index variables" bin/branches.xan
    filled_with "fun g(x: int): int { return x; } fun main(): int { var v0 = 0;" "v0 = g(v0);" >bin/calls.xan
    goals_of "a mebibyte of calls, up to the limit of index variables" bin/calls.xan
fi

EVAL_TURNS=10000000

# the same loop as `eval` runs it and as the machine runs its text
if [ -x bin/xanadu ] && [ -x bin/dtal ]; then
    echo "fun main(n: int): int { var i = 0; var s = 0; while (i < n) { s = s + i; i = i + 1; } return s; }" >bin/turns.xan
    bin/xanadu build bin/turns.xan bin/turns.dtal >/dev/null
    evaluated=$(took bin/xanadu eval bin/turns.xan int=$EVAL_TURNS)
    run=$(took bin/dtal run bin/turns.dtal int=$EVAL_TURNS)
    echo "a loop of $EVAL_TURNS turns: eval $((evaluated / 1000000)) ms, the run of its text $((run / 1000000)) ms"
fi

sh tools/bench_solver.sh

TURNS=20000000
STEPS_OF_A_TURN=5

# a loop of five instructions a turn, which sums the numbers below its argument
if [ -x bin/dtal ]; then
    cat >bin/loop.dtal <<END
dtal 1
fun main {1|} (int(+1v0+0)) {1|} int(+1v1+0)
li r1 0
li r2 0
jmp 1 {v1=+0,v2=+0}
label 1 {3|} [r0:int(+1v0+0) r1:int(+1v1+0) r2:int(+1v2+0)]
br le r0 r1 2 {}
add r2 r2 r1
li r3 1
add r1 r1 r3
jmp 1 {v1=+1v1+1,v2=+1v1+1v2+0}
label 2 {3|} [r2:int(+1v2+0)]
ret r2
end
END
    echo "machine: $((TURNS * STEPS_OF_A_TURN * 1000000000 / $(took bin/dtal run bin/loop.dtal int=$TURNS))) steps a second"
fi

# the same loop beside it, where wabt is there
if command -v wasm-interp >/dev/null && [ -x bin/dtal ]; then
    WASM_TURNS=2000000
    cat >bin/loop.wat <<END
(module (func (export "main") (result i64) (local \$i i64) (local \$s i64)
  (block \$out (loop \$top
    (br_if \$out (i64.le_s (i64.const $WASM_TURNS) (local.get \$i)))
    (local.set \$s (i64.add (local.get \$s) (local.get \$i)))
    (local.set \$i (i64.add (local.get \$i) (i64.const 1)))
    (br \$top)))
  (local.get \$s)))
END
    wat2wasm bin/loop.wat -o bin/loop.wasm
    echo "wasm-interp: $((WASM_TURNS * 1000000000 / $(took wasm-interp bin/loop.wasm --run-all-exports))) turns a second, the machine $((TURNS * 1000000000 / $(took bin/dtal run bin/loop.dtal int=$TURNS)))"
fi

# the machine takes no memory behind its loading: as many allocations for a short run as for a long one
if command -v valgrind >/dev/null && [ -x bin/dtal ]; then
    for turns in 1000 100000; do
        echo "$turns turns: $(valgrind bin/dtal run bin/loop.dtal int=$turns 2>&1 | grep -o '[0-9,]* allocs') in all"
    done
fi
