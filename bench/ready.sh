# Sourced, after tests/c/x86-64.sh, by the scripts of this folder, with `top` set to the project and `room` to a folder.
#
# `archive_ready` proves and builds the archive and sets `archive` to it.
# `counting_ready` builds the plugin of count.c and sets `counting` to the words that run a program for x86-64 and count it.
# `peers_ready` installs what the Rust and GLib are built with for x86-64; on Arm it also sets the environment by which they are.
# `rust_ready FOLDER` builds the Rust of that folder and sets `rust` to the program.
# Each fails where it can't.
# shellcheck shell=bash disable=SC2034,SC2154

mkdir -p "$room"
c_flags=(-std=c11 -O2 -Wall -Wextra -Wpedantic -Werror)

archive_ready() {
    archive=$top/crates/bogtassel/out/libbogtassel.a
    (cd "$top/crates/bogtassel" && rt lib) >&2 </dev/null && [ -f "$archive" ]
}

# Debian's emulator.
takes_plugins() {
    command -v qemu-x86_64 >/dev/null && qemu-x86_64 -h | grep -q -e '^-plugin'
}

counting_ready() {
    takes_plugins || debian_install qemu-user || return 1
    command -v cc >/dev/null || debian_install gcc libc6-dev || return 1
    cc "${c_flags[@]}" -shared -fPIC "$top/bench/count.c" -o "$room/count.so" || return 1
    counting=(qemu-x86_64 -plugin "$room/count.so")
}

peers_ready() {
    local be=() packages=(libglib2.0-dev:amd64 rustc-web cargo-web libstd-rust-web-dev:amd64 librust-serde-dev)
    if [ "$(uname -m)" = x86_64 ]; then
        command -v pkg-config >/dev/null || debian_install pkg-config || return 1
        pkg-config --exists glib-2.0 || debian_install libglib2.0-dev
        return
    fi
    if ! dpkg -s "${packages[@]}" >/dev/null 2>&1; then
        [ "$(id -u)" = 0 ] || be=(sudo -n)
        "${be[@]}" dpkg --add-architecture amd64 && debian_install "${packages[@]}" || return 1
    fi
    export PATH=/usr/bin:$PATH PKG_CONFIG_LIBDIR=/usr/lib/x86_64-linux-gnu/pkgconfig:/usr/share/pkgconfig
    export CARGO_BUILD_TARGET=x86_64-unknown-linux-gnu CARGO_TARGET_X86_64_UNKNOWN_LINUX_GNU_LINKER=${x86_64_cc[0]}
}

rust_ready() { # FOLDER
    "$top/oracle/build.sh" --fast "$1" >&2 </dev/null && rust=$top/target/oracle/fast
}
