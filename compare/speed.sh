#!/usr/bin/env bash
# Times how the new library (by its meter, and by a reader's steps), the crate id3 1.17.2, libid3tag and TagLib (Debian's packages libid3tag0-dev and
# libtag1-dev) read the counters of small tags, in one run over the same bytes. Only on x86-64: in an emulator a time says nothing.
#
#   compare/speed.sh [TAGS]     20,000 of each kind if not given
#
#   OUT, SOURCE, PACKAGE, STREAMVAULT_LIB_DIR   as in run.sh
set -euo pipefail

here=$(cd "$(dirname "$0")" && pwd)
repository=$(cd "$here/.." && pwd)
out=${OUT:-$repository/target/compare}
. "$here/env.sh"

if [ "$(uname -m)" != x86_64 ]; then
    echo "nothing is timed: the library is x86-64 code, and this machine is $(uname -m)"
    exit 0
fi
want libid3tag0-dev libtag1-dev g++
lay_out
mkdir -p "$out/peers"
peers=()
if cc -O2 -Wall -Wextra -shared -fPIC "$here/peers/id3tag.c" -o "$out/peers/libid3tag.so" -lid3tag; then
    peers+=("$out/peers/libid3tag.so")
fi
if c++ -O2 -Wall -Wextra -shared -fPIC "$here/peers/taglib.cc" -o "$out/peers/TagLib.so" -ltag; then
    peers+=("$out/peers/TagLib.so")
fi
set_up_x86
cd "$out/compare"
cargo build -j1 --release --quiet --target "$target" --bin speed
exec "target/$target/release/speed" "${1:-20000}" "${peers[@]}"
