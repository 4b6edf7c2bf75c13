#!/bin/sh
# Checks the header and the examples: the header by itself as C and as C++, the header's examples
# against examples/inverter.c and examples/text.c, and what each example prints.
#
# An .expected file with lines that begin with "$ " is a transcript: each of these is a command to be
# run in this folder, and what follows is what it says, with its exit status if that is not 0.
#
#   check.sh LIBRARY
set -u
cd "$(dirname "$0")/.." || exit 2
library=$1
cc=$(sh mk/toolchain.sh cc) && run=$(sh mk/toolchain.sh run) || exit 2
sh mk/toolchain.sh need g++ g++ || exit 2
mkdir -p build/examples
failed=0
fail() { echo "examples: $*" && failed=1; }

$cc -std=c11 -Wall -Wextra -Wpedantic -Werror -fsyntax-only -x c include/twistdory.h \
    || fail 'the header is no good C'
g++ -std=c++11 -Wall -Wextra -Wpedantic -Werror -fsyntax-only -x c++ include/twistdory.h \
    || fail 'the header is no good C++'

for name in inverter text; do
    sed -n "/^---- examples\/$name.c ----\$/,/^---- end of the example ----\$/p" include/twistdory.h \
        | sed '1d;$d' >build/examples/in-header.c
    sed -n '/^#include/,$p' "examples/$name.c" >build/examples/in-file.c
    cmp build/examples/in-header.c build/examples/in-file.c \
        || fail "an example of the header is not examples/$name.c"
done

# transcript NAME: runs the commands of examples/NAME.expected and prints a transcript
transcript() {
    sed -n 's/^\$ //p' "examples/$1.expected" | while read -r command words; do
        echo "\$ $command $words"
        # shellcheck disable=SC2086
        (cd examples && $run "../build/examples/$command" $words 2>&1 </dev/null) || echo "exit status $?"
    done
}

for source in examples/*.c; do
    name=$(basename "$source" .c)
    # shellcheck disable=SC2086
    $cc -std=c11 -O2 -Wall -Wextra -Werror -Iinclude -o "build/examples/$name" "$source" "$library" \
        || { fail "$name does not compile" && continue; }
    if grep -q '^\$ ' "examples/$name.expected"; then
        transcript "$name" >"build/examples/$name.out"
    else
        $run "build/examples/$name" >"build/examples/$name.out" || fail "$name ends with an error"
    fi
    g++ -std=c++11 -Wall -Wextra -Werror -Iinclude -fsyntax-only -x c++ "$source" \
        || fail "$name is no good C++"
    diff "examples/$name.expected" "build/examples/$name.out" || fail "$name prints something else"
done
[ $failed -eq 0 ] && echo "examples: header and $(ls examples/*.c | wc -l) examples as they should be"
exit $failed
