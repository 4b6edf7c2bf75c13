#!/bin/sh
# The tools of the C side. The library is for x86-64; on another processor C programs are built by
# Debian's cross compiler and run by its emulator.
#
#   toolchain.sh cc                   prints the C compiler to use, after installing it if need be
#   toolchain.sh ar                   prints the archiver that goes with it
#   toolchain.sh run                  prints what runs a program: nothing, or the emulator
#   toolchain.sh need COMMAND PACKAGE makes sure of a command, from a Debian package
#
# What is missing and cannot be installed is said in one line; the exit status is then 1.
set -u
machine=$(uname -m)

say() { printf 'toolchain: %s\n' "$*" >&2; }

need() { # COMMAND PACKAGE...
    command=$1
    shift
    command -v "$command" >/dev/null 2>&1 && return
    if [ "$(id -u)" = 0 ] && command -v apt-get >/dev/null 2>&1; then
        DEBIAN_FRONTEND=noninteractive apt-get install -y -q "$@" >/dev/null 2>&1 \
            || { apt-get update -q >/dev/null 2>&1 && DEBIAN_FRONTEND=noninteractive apt-get install -y -q "$@" >/dev/null 2>&1; }
    fi
    command -v "$command" >/dev/null 2>&1 && return
    say "$command is missing; install the Debian package $* (apt-get install $*)"
    return 1
}

case ${1:-} in
cc)
    if [ "$machine" = x86_64 ]; then
        need gcc gcc libc6-dev && echo gcc
    else
        # static, so that the emulator needs no C library of the other processor
        need x86_64-linux-gnu-gcc gcc-x86-64-linux-gnu libc6-dev-amd64-cross \
            && echo 'x86_64-linux-gnu-gcc -static'
    fi
    ;;
ar)
    if [ "$machine" = x86_64 ]; then
        need ar binutils && echo ar
    else
        need x86_64-linux-gnu-ar binutils-x86-64-linux-gnu && echo x86_64-linux-gnu-ar
    fi
    ;;
run)
    [ "$machine" = x86_64 ] || { need qemu-x86_64 qemu-user && echo qemu-x86_64; }
    ;;
need)
    shift
    need "$@"
    ;;
*)
    say 'usage: toolchain.sh cc | ar | run | need COMMAND PACKAGE'
    exit 2
    ;;
esac
