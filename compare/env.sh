# What the scripts of this folder share. To be sourced, with $repository, $here and $out set.

. "$repository/tools/x86.sh"

# installs those of the named packages that are not there; one that cannot be installed is said
want() {
    need "$@" || echo "could not be installed: $*" >&2
}

# lays out the oracle, this package and the library's Rust package side by side in the folder $out
lay_out() {
    mkdir -p "$out/oracle" "$out/compare" "$out/.cargo"
    "$repository/oracle/setup.sh" "$out/oracle" ${SOURCE:+"$SOURCE"} >/dev/null
    cp "$out/oracle/.cargo/config.toml" "$out/.cargo/config.toml"
    rm -rf "$out/compare/src" "$out/streamvault"
    cp -Rp "$here/src" "$here/Cargo.toml" "$out/compare/"
    ln -s "${PACKAGE:-$repository/rust}" "$out/streamvault"
}
