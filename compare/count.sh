#!/usr/bin/env bash
# Counts the instructions that the library takes for the tag that a box leaves, from opening to the end: by the meter and by a reader's steps, the caller's
# few included; for raising its counter, beside both, also with other padding and with a picture of 100,000 bytes; for lifting it and for changing its frames
# in place, without and with that picture, beside the C library's moving and clearing as many bytes; for a tag with one counter of 8, 12 and 1,048,576 bytes,
# zeros in front; and for adding a 2.4 frame with a raw body of 1 MiB. On any machine with qemu-x86_64 and a C compiler for x86-64; the count is the same in
# each run. It is no time: what a load or a branch costs is not in it.
#
#   compare/count.sh
#
#   STREAMVAULT_LIB_DIR  the folder with libcapi.a; target/staticlib if not given
set -euo pipefail

here=$(cd "$(dirname "$0")" && pwd)
repository=$(cd "$here/.." && pwd)
library=${STREAMVAULT_LIB_DIR:-$repository/target/staticlib}/libcapi.a
out=$(mktemp -d)
trap 'rm -rf "$out"' EXIT

compiler=cc
if [ "$(uname -m)" != x86_64 ]; then compiler=x86_64-linux-gnu-gcc; fi
# the names that the plugin calls are the emulator's, which are there once it is loaded
cc -O2 -Wall -Wextra -shared -fPIC -Wl,-z,lazy "$here/count/plugin.c" -o "$out/plugin.so"
"$compiler" -std=c99 -O2 -Wall -Wextra -static -I"$repository/include" "$here/count/turns.c" "$library" -o "$out/turns"

# an instruction that repeats is counted as often as it does: the C library is to use none
export GLIBC_TUNABLES=glibc.cpu.x86_rep_stosb_threshold=1000000000:glibc.cpu.x86_rep_movsb_threshold=1000000000

# the instructions of a whole run. $@: the words of turns
run() {
    qemu-x86_64 -plugin "$out/plugin.so" "$out/turns" "$@" 2>&1
}

# the instructions of a turn. $1, $2: the turns of a short and of a long run; $3..$5: the words of turns before their number; the others: those after it
turn() {
    local few=$1 many=$2 before=("${@:3:3}")
    shift 5
    echo $((($(run "${before[@]}" "$many" "$@") - $(run "${before[@]}" "$few" "$@")) / (many - few)))
}

for edition in 2 3 4; do
    for mode in 0 2; do
        for way in meter steps; do
            echo "2.$edition, mode $mode, $way: $(turn 100 1100 "$way" "$edition" "$mode") instructions"
        done
    done
done

# padding and picture
for shape in "64 0" "0 0" "1024 0" "4096 0" "100064 0" "64 100000"; do
    for edition in 2 3 4; do
        counts=()
        for way in raise steps meter; do
            # shellcheck disable=SC2086
            counts+=("$way $(turn 10 110 "$way" "$edition" 0 $shape)")
        done
        echo "2.$edition, padding and picture of $shape bytes: ${counts[*]} instructions"
    done
done

# a picture after the popularimeter, which is lifted, replaced or removed; remove-next removes the picture, or without one the private bytes
for picture in 0 100000; do
    for edition in 2 3 4; do
        counts=()
        for way in steps raise lift lift-longer replace-equal replace-longer replace-shorter remove append remove-next; do
            counts+=("$way $(turn 10 110 "$way" "$edition" 0 64 "$picture")")
        done
        echo "2.$edition, edits, a picture of $picture bytes: ${counts[*]} instructions"
    done
done

# with registers of 32 bytes, and of 16
for machine in max qemu64; do
    for what in up down clear; do
        echo "the C library on $machine, 100000 bytes, $what: $(QEMU_CPU=$machine turn 10 110 bytes "$what" 100000) instructions"
    done
done

for bytes in 8 12 1048576; do
    echo "2.4, a counter of $bytes bytes, meter: $(turn 1 11 counter meter "$bytes") instructions"
done

for body in clean random dense; do
    for mode in 0 2; do
        echo "2.4, mode $mode, adding 1 MiB, $body: $(turn 1 5 add "$body" "$mode") instructions"
    done
done
