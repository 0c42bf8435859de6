#!/usr/bin/env bash
# Times `streamvault sum` over a folder of small files, by one thread and by one for each core, beside a program with the crate id3 1.17.2 over the same
# files. All three must print the same. The files were read before, so that the disk has no part in it. In an emulator a time says nothing.
#
#   compare/sum.sh [FILES]     100,000 files if not given, 1,000 in an emulator
#
#   OUT, SOURCE, PACKAGE, STREAMVAULT_LIB_DIR   as in run.sh
set -euo pipefail

here=$(cd "$(dirname "$0")" && pwd)
repository=$(cd "$here/.." && pwd)
out=${OUT:-$repository/target/compare}
. "$here/env.sh"

lay_out
set_up_x86
files=${1:-100000}
if [ ${#runner[@]} != 0 ]; then
    echo "in an emulator: these times say nothing"
    files=${1:-1000}
fi
cd "$out/compare"
cargo build -j1 --release --quiet --target "$target" --bin folder
cargo build -j1 --release --quiet --target "$target" --target-dir target --manifest-path ../streamvault/Cargo.toml --bin streamvault
programs=$out/compare/target/$target/release
rm -rf "$out/files"
"${runner[@]}" "$programs/folder" make "$out/files" "$files"

# the best time of five runs, in seconds. $1: its name; the rest: what is run, and must print what was printed before
TIMEFORMAT=%R
timed() {
    local name=$1 best
    shift
    best=$(for _ in 1 2 3 4 5; do { time "${runner[@]}" "$@" >"$out/sum.csv"; } 2>&1; done | sort -n | head -n 1)
    cmp "$out/sum.csv" "$out/expected.csv"
    echo "$name: $best s"
}

"${runner[@]}" "$programs/folder" sum "$out/files" >"$out/expected.csv"
echo "$files files, $(nproc) cores"
timed "the crate id3, one thread" "$programs/folder" sum "$out/files"
timed "streamvault sum --jobs 1" "$programs/streamvault" sum --csv --jobs 1 "$out/files"
timed "streamvault sum" "$programs/streamvault" sum --csv "$out/files"
rm -rf "$out/files"
