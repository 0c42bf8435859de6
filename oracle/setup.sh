#!/usr/bin/env bash
# Lays the oracle out in a folder where cargo can build it: the crate's source unchanged, the stubs, the harness.
#
#   oracle/setup.sh [OUT [SOURCE]]
#
# OUT     the folder to lay it out in; a new temporary one if not given
# SOURCE  the folder whose src/ is the crate's source; if not given, ../../shared/docs/src seen from this script
#         (that is ../shared/docs/src seen from the repository)
#
# Debian's packages of the three crates that it needs are installed if they are not there. The last line printed is the folder.
set -euo pipefail

here=$(cd "$(dirname "$0")" && pwd)
out=${1:-}
source=${2:-$here/../../shared/docs/src}
registry=/usr/share/cargo/registry

if [ ! -f "$source/src/stream/tag.rs" ]; then
    echo "setup.sh: no crate's source in $source (give it as the second argument)" >&2
    exit 1
fi

present() {
    compgen -G "$registry/$1-[0-9]*" >/dev/null
}
if ! present byteorder || ! present bitflags || ! present flate2; then
    {
        apt-get update
        apt-get install -y --no-install-recommends librust-byteorder-dev librust-bitflags-dev librust-flate2-dev
    } >&2
fi

if [ -z "$out" ]; then
    out=$(mktemp -d)
fi
mkdir -p "$out"
out=$(cd "$out" && pwd)
# only an empty folder, or one that was laid out by this script before, is filled
if [ -n "$(ls -A "$out")" ] && [ ! -e "$out/.laid-out" ]; then
    echo "setup.sh: $out is not empty" >&2
    exit 1
fi
touch "$out/.laid-out"
mkdir -p "$out/.cargo" "$out/id3"
rm -rf "$out/src" "$out/id3/src"

# the crate's own files first: a stub may only stand where there is none
cp -Rp "$source/src" "$out/id3/src"
chmod -R u+w "$out/id3/src"
(cd "$here/stubs/id3" && find . -type f) | while read -r file; do
    case $file in
    ./src/*)
        if [ -e "$source/$file" ]; then
            echo "setup.sh: $file is in the crate's source, so no stub is laid over it" >&2
            exit 1
        fi
        ;;
    esac
    mkdir -p "$out/id3/$(dirname "$file")"
    cp -p "$here/stubs/id3/$file" "$out/id3/$file"
done

# byte for byte as they were given
(cd "$source" && find src -type f) | while read -r file; do
    cmp "$source/$file" "$out/id3/$file"
done

cp -Rp "$here/src" "$out/src"
cp -p "$here/Cargo.toml" "$out/Cargo.toml"
cat >"$out/.cargo/config.toml" <<CONFIG
[source.crates-io]
replace-with = "debian"

[source.debian]
directory = "$registry"

[net]
offline = true
CONFIG

echo "$out"
