#!/bin/sh
# Compares the outside program that reads texts with the texts worked out by hand, and the claim about the definitions with the one that it
# writes; status 1 if anything differs.
#   check.sh --self-test   plants faults in it, and expects that each is noticed
#   check.sh --claims SEED COUNT FILE   writes what it finds of these texts and of random ones, for the host to try
set -u
cd "$(dirname "$0")/../.." || exit 1
sh mk/toolchain.sh need python3 python3 || exit 1

case ${1:-} in
--self-test)
    if python3 -B outside/texts/faults.py; then
        echo "outside: faults planted in the reading of texts are noticed"
    else
        echo "outside: faults planted in the reading of texts are NOT ALL NOTICED"
        exit 1
    fi
    ;;
--claims) python3 -B outside/texts/texts.py claim "$2" "$3" >"$4" ;;
*)
    python3 -B outside/texts/texts.py check || exit 1
    if python3 -B outside/texts/texts.py same crates/excerpts/specs/Excerpts.antt; then
        echo "outside: excerpts are as the outside program writes them"
    else
        echo "outside: excerpts DIFFER"
        exit 1
    fi
    ;;
esac
