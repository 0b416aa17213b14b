#!/bin/bash
# Sourced by the scripts: on what the built code runs, and what installs what is missing.
#
# rt makes x86-64 code only. On another machine, such as Arm, the C and Rust around it are compiled for
# x86-64 too, with Debian's cross compilers, and run under an emulator: there results count, and times say nothing.
#
#   native     yes on an x86-64 machine, else no
#   cross      what the names of gcc, nm and size for x86-64 begin with
#   cc         the C compiler
#   emulator   the words before a program that run it

# need COMMAND PACKAGE..: installs packages of Debian's where the command, or file, is missing.
need() {
    local what=$1
    shift
    if command -v "$what" > /dev/null || [ -e "$what" ]; then
        return
    fi
    update && DEBIAN_FRONTEND=noninteractive apt-get install -y -qq --no-install-recommends "$@" > /dev/null || {
        echo "$what is missing, and will not install: apt-get install $*" >&2
        exit 2
    }
}

update() { # once a script
    if [ -z "${updated:-}" ]; then
        [ "$native" = yes ] || dpkg --add-architecture amd64
        apt-get update -qq && updated=yes
    fi
}

if [ "$(uname -m)" = x86_64 ]; then
    native=yes cross='' emulator=()
    need_c() { need gcc gcc libc6-dev; }
    need_rust() {
        need cc gcc libc6-dev
        need cargo cargo
        need rustc rustc
    }
    need_valgrind() { need valgrind valgrind libc6-dbg; }
else
    native=no cross=x86_64-linux-gnu- emulator=(qemu-x86_64)
    need_c() { need "$cc" gcc-x86-64-linux-gnu libc6-dev-amd64-cross; }
    need_rust() {
        need_c
        need cc gcc libc6-dev # for the build script, which runs on this machine
        need /usr/bin/cargo cargo
        need /usr/bin/rustc rustc
        need /usr/lib/rustlib/x86_64-unknown-linux-gnu libstd-rust-dev:amd64
    }
    need_valgrind() { :; } # it cannot run x86-64 code here
    need qemu-x86_64 qemu-user
    need /lib64/ld-linux-x86-64.so.2 libc6:amd64
fi
cc=${cross}gcc
