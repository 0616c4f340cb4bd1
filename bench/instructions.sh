#!/bin/sh
# Instructions per call of side, circle, a flip, a face split, per point put in and per place looked up: two runs of different length, less what the generator and the counting take.
# Wants valgrind.
set -eu
cd "$(dirname "$0")/.."
for program in bench_exact bench_delaunay; do
    (cd crates/$program && rt run -- $(cat args)) >/dev/null 2>&1 || { echo "$program does not check" >&2; exit 1; }
done
# refs PROGRAM N WHAT: instructions of one run
refs() {
    valgrind --tool=callgrind --callgrind-out-file=/dev/null "crates/$1/out/$1" "$2" "$3" 2>&1 >/dev/null |
        sed -n 's/.*I *refs: *//p' | tr -d ,
}
# each PROGRAM WHAT SHORT LONG: instructions of one turn
each() {
    echo "$(refs "$1" "$4" "$2") $(refs "$1" "$3" "$2")" | awk -v n=$(($4 - $3)) '{ printf "%.1f", ($1 - $2) / n }'
}
rest=$(each bench_exact places 100000 200000)
for test in side circle; do
    echo "$(each bench_exact $test 100000 200000) $rest" | awk -v name=$test '{ printf "%s: %.1f instructions a call\n", name, $1 - $2 }'
done
for part in flip split; do
    echo "$part: $(each bench_delaunay $part 5000 10000) instructions a call"
done
for order in insert grid; do
    echo "$order: $(each bench_delaunay $order 0 16384) instructions a point, over 16,384 points"
done
for question in locate nearest; do
    echo "$question: $(each bench_delaunay $question 0 16384) instructions a place, over 16,384 places among 16,384 points"
done
