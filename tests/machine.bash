# shellcheck shell=bash disable=SC2034
# The library and the program are for x86-64. For the scripts that link the one or run the other, this says how that is done
# on this machine. It is sourced, and leaves
#   x86_rustc, x86_gcc, x86_gxx    the words that compile Rust, C and C++ for x86-64
#   x86_run                        the words before a program for x86-64 that run it; on x86-64 there are none
# On another processor these are Debian's compilers and emulator; where one is missing, all are installed, which root can do.
# A test program that does not link the library stays this machine's own.

x86_rustc=(rustc)
x86_gcc=(gcc)
x86_gxx=(g++)
x86_run=()

# The emulator, the libraries of C and C++ that it runs programs with, and the compilers. Debian 12's rustc is too old for the
# tests; rustc-web is its newer one.
x86_packages=(qemu-user libc6:amd64 libstdc++6:amd64 g++-x86-64-linux-gnu rustc-web libstd-rust-web-dev:amd64)

x86_install() {
    local told commands='dpkg --add-architecture amd64; apt-get update; apt-get install -y --no-install-recommends'
    commands+=" ${x86_packages[*]}"
    if dpkg -s "${x86_packages[@]}" >/dev/null 2>&1; then return; fi
    if ((EUID != 0)); then
        echo "programs for x86-64 cannot be compiled and run here yet; as root, once: $commands" >&2
        return 1
    fi
    echo 'installing what compiles and runs programs for x86-64' >&2
    if ! told=$(DEBIAN_FRONTEND=noninteractive bash -c "$commands" 2>&1); then
        printf '%s\nthis failed: %s\n' "$told" "$commands" >&2
        return 1
    fi
}

if [[ $(uname -m) != x86_64 ]]; then
    x86_install || exit 1
    x86_rustc=(/usr/bin/rustc --target x86_64-unknown-linux-gnu -C linker=x86_64-linux-gnu-gcc)
    x86_gcc=(x86_64-linux-gnu-gcc)
    x86_gxx=(x86_64-linux-gnu-g++)
    x86_run=(qemu-x86_64)
fi
