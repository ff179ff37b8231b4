# shellcheck shell=bash disable=SC2034
# What is built to be measured, for bench/run, bench/count and bench/questions. It is sourced, at the top of the repository, and
# leaves build, the folder of all that.
source tests/machine.bash

build=target/bench

# A Rust version becomes a static library of the proved one's name and shape.
build_stand_in() { # version
    mkdir -p "$build/$1"
    "${x86_rustc[@]}" -O --edition 2021 -D warnings --crate-type staticlib -C panic=abort "bench/$1.rs" \
        -o "$build/$1/libfogsignaller.a"
}

link_program() { # program, version, folder of the library
    mkdir -p "$build/$2"
    "${x86_rustc[@]}" -O --edition 2021 -D warnings -L native="$3" -l static=fogsignaller "bench/$1.rs" -o "$build/$2/$1"
}
