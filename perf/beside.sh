#!/bin/sh
# An earlier library and this one, shape by shape, in one run: the two benchmark programs are run in turn, and the best of each counts.
#
#   beside.sh BEFORE AFTER [ROUNDS]
set -eu
cd "$(dirname "$0")/.."
before=$1 after=$2 rounds=${3:-5}
run=$(sh mk/toolchain.sh run)
times=build/beside.txt
: >"$times"
round=0
while [ "$round" -lt "$rounds" ]; do
    $run "$before" --shapes | sed -n 's/^/before|/p' >>"$times"
    $run "$after" --shapes | sed -n 's/^/after|/p' >>"$times"
    round=$((round + 1))
done
awk -F'|' '
    function library(text, words, count) { count = split(text, words, " "); return words[count - 2] + 0 }
    NF == 6 && $2 !~ /^shape/ {
        name = substr($2, 1, 37)
        if (!(name in rows)) { rows[name] = ++count; names[count] = name }
        for (k = 4; k <= 6; k++) {
            time = library($k)
            key = $1 rows[name] k
            if (!(key in best) || time < best[key]) best[key] = time
        }
    }
    END {
        printf "Milliseconds of the library before and after: a step; an input change by a unit run, and by a ternary run.\n"
        for (row = 1; row <= count; row++) {
            printf "%s", names[row]
            for (k = 4; k <= 6; k++)
                printf " | %9.4f %9.4f %6.3f", best["before" row k], best["after" row k], best["after" row k] / best["before" row k]
            printf "\n"
        }
    }' "$times"
