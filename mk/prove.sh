#!/bin/sh
# prove.sh run NAME   proves the program NAME and the crates that it stands on, builds it, and runs it
# prove.sh lib NAME   proves the static library NAME and the crates that it stands on, and builds it: crates/NAME/out/libNAME.a
#
# It tells on standard error how far it is: a line a crate, with its seconds. All that was said is in build/NAME.log; where something is not
# proved, the end of it is shown. On standard output stands what the program writes, and nothing else.
set -u
verb=$1 name=$2
mkdir -p build
log=$PWD/build/$name.log status=$PWD/build/$name.status

# rt tells of its proofs on standard error where it runs a program, and on standard output where it builds a library
prove() {
    case $verb in
    run) (cd "crates/$name" && rt run 2>&1 >&3) ;;
    lib) (cd "crates/$name" && rt lib 2>&1) ;;
    *) echo 'usage: prove.sh run | lib NAME' && false ;;
    esac
    echo $? >"$status"
}

tell() {
    from=$(date +%s)
    while read -r word rest; do
        case $word in
        crate) crate=${rest%%:*} ;;
        logic=proved) to=$(date +%s) && echo "  $crate proved, $((to - from)) s" && from=$to ;;
        esac
    done
}

echo "proving $name and what it stands on; from nothing this takes some minutes" >&2
{ prove | tee "$log" | tell >&2; } 3>&1
[ "$(cat "$status")" = 0 ] || { tail -n 20 "$log" >&2; exit 1; }
