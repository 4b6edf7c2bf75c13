#!/bin/sh
# Plants each fault of list.txt in a copy of its file, builds the outside check with it and shows
# which checks catch it.
#
#   plant.sh LIBRARY [quick]
#
# LIBRARY is the archive on which the comparators' and the shims' faults are tried. With `quick` a
# fault is left as soon as one check has caught it. Exit status: 0 if every fault is caught.
# Faults of the calls about a network are tried by the checks of these, and faults of the calls
# about a text by theirs.
set -u
cd "$(dirname "$0")/../.." || exit 2
library=$1 quick=${2:-}
here=outside/faults
cc=$(sh mk/toolchain.sh cc) && run=$(sh mk/toolchain.sh run) || exit 2
flags='-std=c11 -O2 -Wall -Wextra -Werror -Iinclude -Icompare'
room=$(mktemp -d) || exit 2
trap 'rm -rf "$room"' EXIT

# build NAME SOURCE: compiles a file of the repository, or its copy with the fault in it.
build() { # shellcheck disable=SC2086
    $cc $flags -c -o "$room/$1.o" "$2"
}

door='door guard lend' text_door='text_door'
checks='check_bench_set check_refusals check_full_size check_small check_random check_texts check_claims'
compare='network brute' text_compare='texts reader'
for part in host $checks arrivals $door $text_door standin standin_text; do
    build "$part" "outside/$part.c" || exit 2
done
for part in $compare $text_compare plain hashed; do build "$part" "compare/$part.c" || exit 2; done
for part in shim shim_text; do build "$part" "$here/$part.c" || exit 2; done
sh outside/texts/check.sh --claims 1 300 "$room/claims" || exit 2

objects() { for part in "$@"; do printf '%s/%s.o ' "$room" "$part"; done; }

# link the two programs with or without the shim, over the stand-in or the library
link() { # WITH...
    # shellcheck disable=SC2046,SC2086
    $cc -o "$room/host" $(objects host $checks $door $text_door $compare $text_compare) "$@" \
        && $cc -o "$room/arrivals" $(objects arrivals $door $compare) "$@"
}

# says which of the checks named end with status 1
caught_by() { # CHECK...
    for check in "$@"; do
        case $check in
        arrivals) words="--networks 20000 --enough 1" ;;
        *) words="$check --networks 1500 --texts 1500 --small-part 3000 --patience 5 --enough 1" ;;
        esac
        [ "$check" = claims ] && words="$words --claims $room/claims"
        program=$room/host
        [ "$check" = arrivals ] && program=$room/arrivals
        # shellcheck disable=SC2086
        $run "$program" $words >"$room/said" 2>&1
        status=$?
        if [ $status -eq 1 ]; then
            kind=$(sed -n 's/^\(DIFFERENCE\|TRAP\|STRAY WRITE\).*/\1/p' "$room/said" | sort -u | tr '\n' ',')
            printf '%s (%s) ' "$check" "$(printf '%s' "${kind%,}" | tr 'A-Z' 'a-z' | sed 's/,/, /g')"
            [ -n "$quick" ] && break
        elif [ $status -ne 0 ]; then
            printf '%s (ended with status %s) ' "$check" "$status"
        fi
    done
}

text_wraps=-Wl,--wrap=twistdory_read_sim,--wrap=twistdory_node_name,--wrap=twistdory_node_names
planted=0 caught=0
while IFS= read -r name; do
    case $name in '' | '#'*) continue ;; esac
    IFS= read -r file
    IFS= read -r edit
    planted=$((planted + 1))
    sed -e "$edit" "$file" >"$room/fault.c"
    if cmp -s "$file" "$room/fault.c"; then
        echo "NOT PLANTED: $name (the edit alters nothing in $file)"
        continue
    fi
    part=$(basename "$file" .c)
    cp "$room/$part.o" "$room/sound.o"
    # shellcheck disable=SC2086
    if ! $cc $flags -Wno-error -w -c -o "$room/$part.o" "$room/fault.c"; then
        echo "NOT BUILT: $name"
        cp "$room/sound.o" "$room/$part.o"
        continue
    fi
    case $part in
    plain | standin | hashed | standin_text)
        # shellcheck disable=SC2046
        link $(objects standin standin_text plain hashed) ;;
    brute | reader) link "$library" ;;
    shim) link -Wl,--wrap=twistdory_step,--wrap=twistdory_unit_run,--wrap=twistdory_ternary_run \
        "$room/shim.o" "$library" ;;
    shim_text) link "$text_wraps" "$room/shim_text.o" "$library" ;;
    esac || exit 2
    case $part in
    hashed | standin_text | reader | shim_text) by=$(caught_by texts claims) ;;
    *) by=$(caught_by bench random refusals full small arrivals) ;;
    esac
    case $by in
    *difference* | *trap* | *stray*) caught=$((caught + 1)) && echo "caught: $name: $by" ;;
    *) echo "NOT CAUGHT: $name ${by:+($by)}" ;;
    esac
    cp "$room/sound.o" "$room/$part.o"
done <$here/list.txt
echo "faults: $caught of $planted caught"
[ "$caught" -eq "$planted" ]
