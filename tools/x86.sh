# How to build and run programs for x86-64 Linux on this machine. To be sourced.
#
# The static library is x86-64 code. On an x86-64 machine its programs run as they are. On 64-bit ARM they are built by a
# compiler for x86-64 and run in an emulator, both from Debian's packages; `set_up_x86` installs what is missing.
#
# After `set_up_x86`: $target and $cargo are set, runner is the command to run such a program with (nothing on x86-64),
# and what cargo and the tests need is exported.

target=x86_64-unknown-linux-gnu
runner=()

# Installs those of the named packages that are not there. A package of another architecture is named package:architecture.
need() {
    local missing=() one
    for one in "$@"; do
        dpkg -s "$one" >/dev/null 2>&1 || missing+=("$one")
    done
    if [ ${#missing[@]} = 0 ]; then return 0; fi
    local root=()
    if [ "$(id -u)" != 0 ]; then root=(sudo); fi
    echo "installing ${missing[*]}" >&2
    if [[ " ${missing[*]} " == *:amd64* ]]; then "${root[@]}" dpkg --add-architecture amd64 >&2 || return 1; fi
    "${root[@]}" apt-get update >&2 && "${root[@]}" apt-get install -y --no-install-recommends -o DPkg::Lock::Timeout=600 "${missing[@]}" >&2
}

# Sets $rustc to the first compiler that has the standard library for x86-64.
find_rustc() {
    for rustc in "${RUSTC:-}" $(type -ap rustc) /usr/bin/rustc; do
        if [ -x "$rustc" ] && [ -d "$("$rustc" --print sysroot)/lib/rustlib/$target/lib" ]; then return 0; fi
    done
    return 1
}

# Makes the machine able to build and run for x86-64, and says what is missing where that fails.
set_up_x86() {
    if [ "$(uname -m)" = x86_64 ]; then
        cargo=$(command -v cargo) || { echo "cargo is not installed" >&2; return 1; }
        return 0
    fi
    need qemu-user gcc-x86-64-linux-gnu g++-x86-64-linux-gnu || { echo "the cross tools could not be installed" >&2; return 1; }
    if ! find_rustc; then
        need rustc-web cargo-web libstd-rust-web-dev:amd64 && find_rustc || {
            echo "no rustc here has the standard library for $target" >&2
            return 1
        }
    fi
    local tools loader libraries
    tools=$(dirname "$rustc")
    cargo=$tools/cargo
    [ -x "$cargo" ] || cargo=$(command -v cargo) || { echo "cargo is not installed" >&2; return 1; }
    loader=$(x86_64-linux-gnu-gcc -print-file-name=ld-linux-x86-64.so.2)
    libraries=$(dirname "$(realpath "$(x86_64-linux-gnu-gcc -print-file-name=libc.so.6)")")
    runner=("$(command -v qemu-x86_64)" "$loader" --library-path "$libraries")
    export RUSTC=$rustc RUSTDOC=$tools/rustdoc CC=x86_64-linux-gnu-gcc CXX=x86_64-linux-gnu-g++
    export STREAMVAULT_RUNNER="${runner[*]}"
    export CARGO_TARGET_X86_64_UNKNOWN_LINUX_GNU_LINKER=x86_64-linux-gnu-gcc
    export CARGO_TARGET_X86_64_UNKNOWN_LINUX_GNU_RUNNER=$STREAMVAULT_RUNNER
    # glib's own allocator, which the emulator uses, can lock up where a program of several threads starts another
    export G_SLICE=always-malloc
    # instructions that repeat are emulated one byte at a time
    export GLIBC_TUNABLES=glibc.cpu.x86_rep_stosb_threshold=1000000000:glibc.cpu.x86_rep_movsb_threshold=1000000000
}
