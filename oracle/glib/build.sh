#!/usr/bin/env bash
# Builds what answers questions of writing and of the strict test by GLib.
# Usage: oracle/glib/build.sh [--alone]
# Leaves target/oracle/glib, which is GLib alone, and target/oracle/writing, which sets the archive beside GLib; the archive is proved and
# built first. With --alone only the first. On a machine that is not x86-64 the second is x86-64's still, over Debian's GLib for it, and
# compare_writing runs it by the emulator that is named in target/oracle/emulator. Installs what is missing from Debian's packages.
set -euo pipefail
top=$(cd "$(dirname "$0")/../.." && pwd -P)
room=$top/target/oracle

fail() {
    printf 'oracle/glib/build.sh: %s\n' "$*" >&2
    exit 1
}

if [ $# -gt 1 ] || [ "${1:---alone}" != --alone ]; then
    echo "usage: oracle/glib/build.sh [--alone]" >&2
    exit 2
fi
# shellcheck source=tests/c/x86-64.sh
. "$top/tests/c/x86-64.sh"
# shellcheck source=bench/ready.sh
. "$top/bench/ready.sh"

command -v cc >/dev/null || debian_install gcc libc6-dev || fail "no C compiler"
command -v pkg-config >/dev/null || debian_install pkg-config || fail "no pkg-config"
pkg-config --exists glib-2.0 || debian_install libglib2.0-dev || fail "no GLib"
read -ra glib < <(pkg-config --cflags --libs glib-2.0)
shared=("$top/oracle/glib/lines.c" "$top/oracle/glib/value.c")

cc "${c_flags[@]}" "$top/oracle/glib/main.c" "${shared[@]}" "${glib[@]}" -o "$room/glib"
[ $# -eq 0 ] || exit 0
x86_64_ready || fail "$x86_64_lack"
archive_ready || fail "the archive is not built"
peers_ready || fail "no GLib for x86-64"
read -ra glib < <(pkg-config --cflags --libs glib-2.0)
# Debian's GLib is shared, so only the compiler's name is taken, not the words for linking statically
"${x86_64_cc[0]}" "${c_flags[@]}" -I"$top/include" "$top/oracle/glib/compare.c" "${shared[@]}" "$archive" "${glib[@]}" -o "$room/writing"
printf '%s\n' "${x86_64_run[@]}" >"$room/emulator"
