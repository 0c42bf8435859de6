#!/usr/bin/env bash
# Holds the listing against other readers and writers of ID3v2 tags, those of Debian's packages python3-mutagen, eyed3, ffmpeg, libid3tag0 and libtagc0:
# both `streamvault list` and, where `rt` is on the path, the program `listing`. Then has `streamvault raise` raise counters in files that mutagen and eyeD3
# wrote, and these read them back. Last it edits files in place that mutagen, eyeD3 and TagLib wrote (libtag1-dev), by the C functions, and all three read them.
# What is not installed and not available is left out with a message.
#
#   compare/peers.sh
#
#   OUT                  the folder to build in; target/peers if not given
#   PACKAGE              the folder of the library's Rust package; rust/ if not given
#   STREAMVAULT_LIB_DIR  the folder with libcapi.a; if not given, the archive is found or built as rust/build.rs says
set -euo pipefail

here=$(cd "$(dirname "$0")" && pwd)
repository=$(cd "$here/.." && pwd)
out=${OUT:-$repository/target/peers}
. "$here/env.sh"

want python3-mutagen eyed3 ffmpeg libid3tag0 libtagc0 libtag1-dev g++
set_up_x86
cargo build -j1 --release --quiet --target "$target" --target-dir "$out" --manifest-path "${PACKAGE:-$repository/rust}/Cargo.toml" --bin streamvault
program=()
if command -v rt >/dev/null && [ ${#runner[@]} = 0 ]; then
    # to run it is what builds it
    (cd "$repository/crates/listing" && rt run <stdin) >"$out/listing.log" 2>&1 || { tail "$out/listing.log"; exit 1; }
    program=(--program "$repository/crates/listing/out/listing")
fi
python=${PYTHON:-/usr/bin/python3}
streamvault=("${runner[@]}" "$out/$target/release/streamvault")
status=0
"$python" "$here/peers.py" "${program[@]}" "${streamvault[@]}" list || status=1
"$python" "$here/raises.py" "${streamvault[@]}" || status=1

# the archive is there: the program above was linked with it
compiler=cc
if [ ${#runner[@]} != 0 ]; then compiler=x86_64-linux-gnu-gcc; fi
"$compiler" -std=c99 -O2 -Wall -Wextra -I"$repository/include" "$here/peers/edit.c" "${STREAMVAULT_LIB_DIR:-$repository/target/staticlib}/libcapi.a" -o "$out/edit"
taglib=()
if c++ -O2 -Wall -Wextra "$here/peers/frames.cc" -o "$out/frames" -ltag; then
    taglib=(--taglib "$out/frames")
else
    echo "TagLib cannot be compiled with and is left out"
fi
"$python" "$here/edits.py" "${taglib[@]}" "${runner[@]}" "$out/edit" || status=1
exit $status
