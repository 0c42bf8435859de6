#!/usr/bin/env bash
# Holds the new library against the crate id3 1.17.2 and against other programs: lays everything out, builds it and runs all.
#
#   compare/run.sh                     all: the comparison, then peers.sh, speed.sh and sum.sh
#   compare/run.sh compare [OPTIONS]   the comparison: 10,000,000 generated tags, every short input and cut, 1,000,000 lists, 1,000,000 raises, 1,000,000 edits; OPTIONS as in README.md
#   compare/run.sh read HEX            both answers to one tag
#   compare/run.sh write LIST          the verdict on one list
#   compare/run.sh raise HEX USER N    the verdict on one raise, the user in hex
#   compare/run.sh edit HEX CHANGE     the verdict on one edit; CHANGE as in README.md
#   compare/run.sh record              chooses questions and writes them with the crate's answers to crates/test_replay
#
#   OUT                  the folder to lay it out in; target/compare if not given
#   SOURCE               the folder whose src/ is the crate's source; as oracle/setup.sh finds it if not given
#   PACKAGE              the folder of the library's Rust package; rust/ if not given
#   STREAMVAULT_LIB_DIR  the folder with libcapi.a; if not given, the archive is found or built as rust/build.rs says
set -euo pipefail

here=$(cd "$(dirname "$0")" && pwd)
repository=$(cd "$here/.." && pwd)
out=${OUT:-$repository/target/compare}
. "$here/env.sh"

if [ $# = 0 ]; then
    failed=()
    for part in "run.sh compare" peers.sh speed.sh sum.sh; do
        echo "== $part"
        # shellcheck disable=SC2086
        "$here"/$part || failed+=("$part")
    done
    if [ ${#failed[@]} != 0 ]; then
        echo "failed: ${failed[*]}"
        exit 1
    fi
    echo "all four ran without an unlisted difference"
    exit 0
fi

lay_out
cd "$out/compare"
if [ "$1" = record ]; then
    cargo build -j1 --release --quiet --no-default-features --bin record
    mkdir -p "$repository/crates/test_replay"
    exec target/release/record "$repository/crates/test_replay/stdin" "$repository/crates/test_replay/stdout"
fi
if [ "$1" = compare ]; then
    shift
fi
set_up_x86
if [ ${#runner[@]} = 0 ]; then
    cargo build -j1 --release --quiet --target "$target"
    exec "target/$target/release/compare" "$@"
fi
# the crate and the comparison run as they are, and only the library in the emulator
cargo build -j1 --release --quiet --target "$target" --bin answer
env -u RUSTC cargo build -j1 --release --quiet --no-default-features --bin compare
export COMPARE_ANSWERS="${runner[*]} target/$target/release/answer"
exec target/release/compare "$@"
