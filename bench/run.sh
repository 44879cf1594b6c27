#!/bin/sh
# Measures los and the calls against plain C: run.sh BUILD LOS PLAIN..., at the project's root. `make bench` calls it.
set -eu
build=$1 los=$2
shift 2
runs=${RUNS:-7}
before=${BEFORE:-} # another los to run beside this one, as that of an earlier tree
lines=$build/lines.tsv
few=$build/few.tsv
count=$(wc -l <"$lines")

# Every program prints the same.
check() { # PROGRAM
    "$1" <"$lines" | cmp - "$build/answers.tsv"
    "$1" <crates/los/stdin | cmp - crates/los/stdout
}

# Instructions a line, with what starting takes.
instructions() { # PROGRAM
    total=$(valgrind --tool=callgrind --callgrind-out-file="$build/callgrind.out" "$1" <"$few" 2>&1 >"$build/few.out" | sed -n 's/.*Collected : //p')
    printf '%-24s %17d\n' "$1" $((total / $(wc -l <"$few")))
}

"$los" <"$lines" >"$build/answers.tsv"
for program in "$los" "$@" ${before:+"$before"}; do check "$program"; done
# Plain C's calls are compared on the vectors too, which have weather; the made lines have none.
"$build/calls" crates/los/stdin 1 >"$build/vectors.out"
"$build/days" crates/los/stdin 1 >>"$build/vectors.out"
echo "$count lines: los and plain C print the same bytes. Best of $runs runs, in turn; ratio: the first over the row's."
for program in "$@"; do echo "$program: $("${program##*-}" --version | head -n 1), -O3"; done
echo
"$build/race" "$lines" "$count" "$runs" "$los" "$@" ${before:+"$before"}
echo
"$build/calls" "$lines" "$runs"
echo
"$build/days" "$lines" "$runs"
echo
if command -v valgrind >/dev/null; then
    head -n 20000 "$lines" >"$few"
    printf '%-24s %17s\n' program instructions/line
    for program in "$los" "$@"; do instructions "$program"; done
else
    echo "valgrind is not installed: instructions are not counted."
fi
