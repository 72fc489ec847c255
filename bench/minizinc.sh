#!/bin/sh
# Times MiniZinc with Gecode on the papers' decomposition (focus.mzn), on requests of the bench: minizinc.sh BENCH
#
# It answers two questions: is there a plan, and how few windows do. The filter answers more: the least covered count
# and all cuts. "solve" is Gecode's own time, as MiniZinc reports it; "whole" has the process start and the translation
# of the model as well, to which the filter has no counterpart.
set -eu
bench=$1
model=$(dirname "$0")/focus.mzn
limit=5000

if ! minizinc --solvers 2>/dev/null | grep -qi gecode; then
    echo "MiniZinc with Gecode: not installed, skipped"
    exit 0
fi
work=$(mktemp -d)
trap 'rm -rf "$work"' EXIT
echo "solve satisfy;" >"$work/plan.mzn"
echo "solve minimize y;" >"$work/windows.mzn"

echo "MiniZinc with Gecode, milliseconds; - is no answer within $limit"
printf '%-12s %5s %-8s %10s %10s\n' request slots question solve whole
for kind in few many open alternating; do
    for n in 8 16 32; do
        "$bench" data $kind $n >"$work/data.dzn"
        for question in plan windows; do
            start=$(date +%s%N)
            minizinc --solver gecode --statistics --time-limit $limit "$model" "$work/$question.mzn" "$work/data.dzn" \
                >"$work/out" 2>"$work/errors" || grep -q 'time limit' "$work/errors" || { cat "$work/errors"; exit 1; }
            whole=$((($(date +%s%N) - start) / 1000000))
            # An answer is a plan (----------), for the second question one that is shown to be the least (==========).
            [ $question = plan ] && answer='----------' || answer='=========='
            if grep -q -e "^$answer" "$work/out"; then
                solve=$(sed -n 's/^%%%mzn-stat: solveTime=//p' "$work/out" | awk 'END { printf "%.2f", $1 * 1000 }')
            else
                solve=-
            fi
            printf '%-12s %5s %-8s %10s %10s\n' $kind $n $question "$solve" "$whole"
        done
    done
done
