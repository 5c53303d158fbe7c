#!/usr/bin/env sh
# Prints how long bin/xanadu of tools/try.sh takes to build 250, 500 and 1,000 functions with a loop over an array, how much memory it takes, and how
# much of the time one more function costs. Where ATS2 is installed (Debian's ats2-lang), its type check of the same functions stands beside it.
set -e
cd "$(dirname "$0")/.."
mkdir -p bin
PATSHOME=${PATSHOME:-$(ls -d /usr/lib/ats2-postiats-* 2>/dev/null | head -1)}
export PATSHOME

# so many functions, each with a loop that sums an array
in_xanadu() {
    awk -v functions="$1" 'BEGIN {
        for (made = 0; made < functions; made++) {
            print "fun f" made "{n: nat}(a: int[n]): int {\n  var i = 0;\n  var s = 0;"
            print "  while (i < len(a)) with {k: int | 0 <= k, k <= n} (i: int(k)) {\n    s = s + a[i];\n    i = i + 1;\n  }\n  return s;\n}"
        }
        print "fun main(): int { return 0; }"
    }'
}

in_ats() {
    awk -v functions="$1" 'BEGIN {
        print "#include \"share/atspre_staload.hats\""
        for (made = 0; made < functions; made++) {
            print "fun f" made " {n:nat} (a: arrayref(int, n), n: int n): int = let\n  fun loop {k:nat | k <= n} (i: int k, s: int): int ="
            print "    if i < n then loop (i + 1, s + a[i]) else s\nin loop (0, 0) end"
        }
    }'
}

# nanoseconds by the clock, the least of five
nanoseconds() {
    least=
    for _ in 1 2 3 4 5; do
        start=$(date +%s%N)
        "$@" >/dev/null
        now=$(($(date +%s%N) - start))
        if [ -z "$least" ] || [ "$now" -lt "$least" ]; then least=$now; fi
    done
    echo "$least"
}

for functions in 250 500 1000; do
    in_xanadu $functions >bin/loops.xan
    took=$(nanoseconds bin/xanadu build bin/loops.xan bin/loops.dtal)
    memory=$(/usr/bin/time -f %M bin/xanadu build bin/loops.xan bin/loops.dtal 2>&1 >/dev/null)
    line="$functions functions: built in $((took / 1000)) us and $memory kB, $(wc -c <bin/loops.dtal) bytes"
    if command -v patsopt >/dev/null; then
        in_ats $functions >bin/loops.dats
        theirs=$(nanoseconds patsopt --typecheck --dynamic bin/loops.dats)
        line="$line; checked by patsopt in $((theirs / 1000)) us"
    fi
    echo "$line"
    if [ $functions = 250 ]; then took_before=$took theirs_before=$theirs; fi
done
line="a function more: $(((took - took_before) / 750000)) us"
if [ -n "$theirs" ]; then line="$line; of patsopt $(((theirs - theirs_before) / 750000)) us"; fi
echo "$line; from 250 to 1000 the time grows $((took * 100 / took_before)) hundredths"
