#!/usr/bin/env sh
# Proves and builds both programs into bin/, crate by crate; then builds examples/sum.xan with the one, and verifies and runs the text with the other.
# A crate that has not changed since takes about a second. What the prover says goes to bin/try.log.
set -eu
cd "$(dirname "$0")/.."
mkdir -p bin
: > bin/try.log
begun=$(date +%s)

# The crates that the two programs stand on, in the order of crates.txt, in which each stands behind those that it uses.
crates=$(awk -F '[: ]+' '
    !/^#/ { row[++rows] = $0; name[rows] = $1 }
    END {
        needed["xanadu"]; needed["dtal"]
        for (at = rows; at > 0; at--)
            if (name[at] in needed)
                for (word = split(row[at], used); word > 1; word--)
                    needed[used[word]]
        for (at = 1; at <= rows; at++)
            if (name[at] in needed)
                print name[at]
    }' crates.txt)
count=$(echo "$crates" | wc -l)
number=0

time_so_far() {
    seconds=$(($(date +%s) - begun))
    echo "$((seconds / 60)) min $((seconds % 60)) s so far"
}

for crate in $crates; do
    number=$((number + 1))
    printf '%2d of %d: proving %s ... ' "$number" "$count" "$crate"
    case $crate in
    xanadu) words="run -- build ../../examples/sum.xan ../../bin/sum.dtal" ;;
    dtal) words="run -- verify ../../bin/sum.dtal" ;;
    *) words=lib ;;
    esac
    if ! (cd "crates/$crate" && rt $words) >> bin/try.log 2>&1; then
        echo "no. The end of bin/try.log:"
        tail -n 20 bin/try.log
        exit 1
    fi
    echo "done, $(time_so_far)"
done
cp crates/xanadu/out/xanadu crates/dtal/out/dtal bin/

show() {
    echo "\$ $*"
    "$@"
}

show cat examples/sum.xan
show bin/xanadu build examples/sum.xan bin/sum.dtal
show cat bin/sum.dtal
show bin/dtal verify bin/sum.dtal
show bin/dtal run bin/sum.dtal int=2 int=3
