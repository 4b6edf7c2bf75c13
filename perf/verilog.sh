#!/bin/sh
# The same shapes in Icarus Verilog: the time of an input change, and how many nodes end in the same
# state. Skipped in one line where Icarus cannot be had. perf/verilog.c says what differs in meaning.
#
#   verilog.sh TRANSLATOR
set -u
cd "$(dirname "$0")/.." || exit 2
translator=$1
run=$(sh mk/toolchain.sh run) || exit 2
if ! sh mk/toolchain.sh need iverilog iverilog 2>/dev/null; then
    echo 'Icarus Verilog: skipped (no iverilog here; Debian package iverilog)'
    exit 0
fi
mkdir -p build/verilog
now() { date +%s%N; }

# simulate SHAPE CHANGES: compiles and runs it; microseconds of the run in $taken
simulate() {
    $run "$translator" "$1" "$2" >"build/verilog/$1.v" \
        && iverilog -o "build/verilog/$1.vvp" "build/verilog/$1.v" || return 1
    began=$(now)
    timeout 60 vvp "build/verilog/$1.vvp" >"build/verilog/$1.out" || return 1
    taken=$((($(now) - began) / 1000))
}

echo
echo "$(iverilog -V 2>/dev/null | head -1): an input change, by the clock on the wall"
printf '%-14s %12s   %s\n' shape 'ms a change' 'final states'
for shape in inverters nor-decoder pass-tree row-decoder adder; do
    if ! simulate $shape 1; then
        printf '%-14s %12s\n' $shape 'failed'
        continue
    fi
    few=$taken
    # enough changes that starting up no longer matters
    simulate $shape 501 || { printf '%-14s %12s\n' $shape 'above 100' && continue; }
    awk -v shape=$shape -v micros=$(((taken - few) / 500)) '
        FNR == 1 && NR == 1 { wanted = substr($0, 4) }
        NR != FNR && FNR == 1 { got = $0 }
        END {
            for (i = 1; i <= length(wanted); i++) {
                w = substr(wanted, i, 1); g = substr(got, i, 1)
                if (w == g) same++; else if (g == "z") undriven++; else other++
            }
            printf "%-14s %12.3f   %d the same, %d undriven, %d other\n", shape, micros / 1000, same, undriven, other
        }' "build/verilog/$shape.v" "build/verilog/$shape.out"
done
