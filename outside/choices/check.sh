#!/bin/sh
# Compares the outside program with the bench set and with the kept samples, a line each; status 1 if anything differs.
#   check.sh --self-test   plants faults in it and in a copy of the samples, and expects that each is noticed
set -u
cd "$(dirname "$0")/../.." || exit 1
samples=crates/samples/specs/Samples.antt

if ! command -v python3 >/dev/null 2>&1; then
    [ "$(id -u)" = 0 ] && command -v apt-get >/dev/null 2>&1 && apt-get install -y python3 >/dev/null 2>&1
    command -v python3 >/dev/null 2>&1 || { echo "outside: python3 is missing, nothing was compared"; exit 1; }
fi

failed=0
# compare WHAT GOOD BAD PROGRAM ARGUMENT..: one line, after what the program has to say
compare() {
    what=$1 good=$2 bad=$3
    shift 3
    if python3 -B outside/choices/"$@"; then
        echo "outside: $what $good"
    else
        echo "outside: $what $bad"
        failed=1
    fi
}

if [ "${1:-}" = --self-test ]; then
    compare "planted faults" "are noticed" "are NOT ALL NOTICED" faults.py "$samples"
else
    compare "bench set K1 to K14" "agrees" "DIFFERS" choices.py bench
    compare "samples" "are as the outside program makes them" "DIFFER" choices.py check "$samples"
fi
exit $failed
