#!/usr/bin/env sh
# Prints how long bin/dtal of tools/try.sh takes to read and verify texts of so many functions with a loop over an array, and how many nanoseconds
# that is for each instruction. Where wabt is installed, wasm-validate reads a module of the same loops, for comparison.
set -e
cd "$(dirname "$0")/.."
mkdir -p bin

# nanoseconds that a command takes
nanoseconds() {
    start=$(date +%s%N)
    "$@" >/dev/null
    end=$(date +%s%N)
    echo $((end - start))
}

# the least of five
best() {
    least=
    for _ in 1 2 3 4 5; do
        now=$(nanoseconds "$@")
        if [ -z "$least" ] || [ "$now" -lt "$least" ]; then least=$now; fi
    done
    echo "$least"
}

# a text: so many functions of 13 instructions each, and `main` of 2
loops_as_text() {
    awk -v functions="$1" 'BEGIN {
        print "dtal 1"
        for (made = 0; made < functions; made++) {
            print "fun f" made " {1|+1v0+0} (arr(0,+1v0+0)) {1|} int(+1v1+0)\nli r1 0\nli r2 0\njmp 1 {v1=+0,v2=+0}"
            print "label 1 {3|+1v0+0;+1v1+0;+1v0-1v1+0} [r0:arr(0,+1v0+0) r1:int(+1v1+0) r2:int(+1v2+0)]"
            print "len r3 r0\nbr le r3 r1 2 {}\nld r3 r0 r1\nadd r2 r2 r3\nli r3 1\nadd r1 r1 r3\nmv r4 r1\nmv r1 r4\njmp 1 {v1=+1v1+1,v2=+1v2+1v3+0}"
            print "by h +1v1+0;g;c 1 0 1 1\nlabel 2 {4|+1v0+0;+1v1+0;+1v0-1v1+0;-1v0+1v1+0} [r2:int(+1v2+0)]\nret r2\nend"
        }
        print "fun main {0|} () {1|} int(+1v0+0)\nli r0 0\nret r0\nend"
    }'
}

# the same loops as a module: 23 instructions each
loops_as_module() {
    awk -v functions="$1" 'BEGIN {
        print "(module (memory 1)"
        for (made = 0; made < functions; made++) {
            print "(func (param $a i32) (param $n i32) (result i64) (local $i i32) (local $s i64)"
            print "(block $out (loop $top local.get $i local.get $n i32.ge_s br_if $out"
            print "local.get $s local.get $a local.get $i i32.const 3 i32.shl i32.add i64.load i64.add local.set $s"
            print "local.get $i i32.const 1 i32.add local.set $i br $top)) local.get $s)"
        }
        print ")"
    }'
}

for functions in 1000 100000; do
    loops_as_text $functions >bin/loops.dtal
    took=$(best bin/dtal verify bin/loops.dtal)
    count=$((functions * 13 + 2))
    bytes=$(wc -c <bin/loops.dtal)
    line="$count instructions, $bytes bytes: $((took / 1000000)) ms, $((took / count)) ns an instruction, $((bytes * 1000 / took)) MB a second"
    if command -v wasm-validate >/dev/null; then
        loops_as_module $functions >bin/loops.wat
        wat2wasm bin/loops.wat -o bin/loops.wasm
        took=$(best wasm-validate bin/loops.wasm)
        count=$((functions * 23))
        line="$line; by wasm-validate $count instructions: $((took / 1000000)) ms, $((took / count)) ns an instruction"
    fi
    echo "$line"
done
