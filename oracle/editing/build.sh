#!/usr/bin/env bash
# Builds target/oracle/editing, which answers lines of editing by the archive's edit and by the other way: reading, changing an event, writing.
# Usage: oracle/editing/build.sh [--alone]
# With --alone the program is target/oracle/other_way, in which the other way stands in the edit's place too. The archive is proved and built
# first. On a machine that is not x86-64 the program is x86-64's still, and compare_edits runs it by the emulator that is named in
# target/oracle/emulator. Installs what is missing from Debian's packages.
set -euo pipefail
top=$(cd "$(dirname "$0")/../.." && pwd -P)
room=$top/target/oracle

fail() {
    printf 'oracle/editing/build.sh: %s\n' "$*" >&2
    exit 1
}

if [ $# -gt 1 ] || [ "${1:---alone}" != --alone ]; then
    echo "usage: oracle/editing/build.sh [--alone]" >&2
    exit 2
fi
# shellcheck source=tests/c/x86-64.sh
. "$top/tests/c/x86-64.sh"
# shellcheck source=bench/ready.sh
. "$top/bench/ready.sh"

x86_64_ready || fail "$x86_64_lack"
archive_ready || fail "the archive is not built"
program=editing words=()
[ $# -eq 0 ] || { program=other_way words=(-DOTHER_WAY_ALONE); }
"${x86_64_cc[@]}" "${c_flags[@]}" "${words[@]}" -I"$top/include" -I"$top/oracle/glib" "$top"/oracle/editing/{main,other_way}.c "$top/oracle/glib/lines.c" "$archive" \
    -o "$room/$program"
printf '%s\n' "${x86_64_run[@]}" >"$room/emulator"
