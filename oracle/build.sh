#!/bin/bash
# Builds the oracle: the given Rust files, unchanged, behind the stand-ins of this folder.
# Usage: oracle/build.sh [--fast] RUST_FOLDER
# The program is left in target/oracle/oracle of the project; with --fast, for the benchmark, in target/oracle/fast.
set -euo pipefail

here=$(cd "$(dirname "$0")" && pwd)
room=$(dirname "$here")/target/oracle
crate=$room/crate

given_files="utils.rs framing_offset_size.rs container_depths.rs framing_offsets.rs de.rs
    serialized/context.rs gvariant/de.rs"

install_package() {
    local be=""
    if [ "$(id -u)" != 0 ]; then be=sudo; fi
    $be apt-get install -y --no-install-recommends "$@" ||
        { $be apt-get update && $be apt-get install -y --no-install-recommends "$@"; }
}

# Debian's rustc-web and cargo-web are the recent compilers; its rustc is too old for the given files.
install_what_is_missing() {
    if ! command -v rustc >/dev/null || ! command -v cargo >/dev/null; then
        install_package rustc-web cargo-web
    fi
    if ! dpkg -s librust-serde-dev >/dev/null 2>&1; then
        install_package librust-serde-dev
    fi
}

# The folder of Debian's crates, found by the package that we use.
crates_folder() {
    local manifest
    manifest=$(dpkg -L librust-serde-dev | grep '/serde-[0-9.]*/Cargo\.toml$')
    dirname "$(dirname "$manifest")"
}

lay_out() {
    local folder=$1 file
    rm -rf "$crate"
    mkdir -p "$crate/.cargo" "$crate/src/given/serialized" "$crate/src/given/gvariant"
    for file in $given_files; do
        cp "$folder/$file" "$crate/src/given/$file"
    done
    cp -r "$here/standins" "$crate/src/standins"
    cp "$here"/program/*.rs "$crate/src/"
    cat >"$crate/Cargo.toml" <<'END'
[package]
name = "oracle"
version = "0.0.0"
edition = "2021"

[dependencies]
serde = { version = "1", default-features = false, features = ["std"] }

[features]
default = ["gvariant"]
gvariant = []

[profile.release]
opt-level = 2
overflow-checks = true
debug-assertions = false

[profile.fast]
inherits = "release"
opt-level = 3
overflow-checks = false

[workspace]
END
    cat >"$crate/.cargo/config.toml" <<END
[source.crates-io]
replace-with = "debian"
[source.debian]
directory = "$(crates_folder)"
END
}

profile=release program=oracle
if [ "${1:-}" = --fast ]; then
    profile=fast program=fast
    shift
fi
if [ $# -ne 1 ] || [ ! -f "$1/gvariant/de.rs" ]; then
    echo "usage: oracle/build.sh [--fast] RUST_FOLDER (the folder with gvariant/de.rs in it)" >&2
    exit 2
fi
folder=$(cd "$1" && pwd)
install_what_is_missing
lay_out "$folder"
(cd "$crate" && cargo build --offline --profile "$profile" --quiet --target-dir "$room/build")
for file in $given_files; do
    cmp "$folder/$file" "$crate/src/given/$file"
done
cp "$room/build/${CARGO_BUILD_TARGET:+$CARGO_BUILD_TARGET/}$profile/oracle" "$room/$program"
echo "built target/oracle/$program"
