# Sourced by the scripts that build and run C with the archive, which is for x86-64 on every machine.
#
# `debian_install PACKAGE..` installs packages of Debian, as root or by sudo, or fails.
# `x86_64_ready` sets two arrays and succeeds, or sets x86_64_lack to what is missing and fails:
#   x86_64_cc    the compiler, with the words that it needs before all others
#   x86_64_run   what a built program is run by; empty where the machine runs it itself
# On Arm, where an archive is given, that is Debian's cross compiler, linking statically, and Debian's emulator: the kit proves and builds on x86-64 alone.
# shellcheck shell=bash disable=SC2034

debian_install() { # PACKAGE..
    local be=()
    command -v apt-get >/dev/null || return 1
    if [ "$(id -u)" != 0 ]; then
        command -v sudo >/dev/null || return 1
        be=(sudo -n)
    fi
    "${be[@]}" apt-get install -y --no-install-recommends "$@" >&2 </dev/null ||
        { "${be[@]}" apt-get update >&2 </dev/null && "${be[@]}" apt-get install -y --no-install-recommends "$@" >&2 </dev/null; }
}

x86_64_emulator() {
    command -v qemu-x86_64
}

x86_64_native() {
    local compiler
    for compiler in "${CC:-}" gcc cc; do
        if [ -n "$compiler" ] && command -v "$compiler" >/dev/null; then
            x86_64_cc=("$compiler")
            return 0
        fi
    done
    debian_install gcc libc6-dev && x86_64_cc=(gcc)
}

# Whether the cross compiler is there with a C library to link: a small program is linked.
x86_64_crosses() {
    printf 'int main(void) { return 0; }\n' | x86_64-linux-gnu-gcc -static -x c - -o /dev/null 2>/dev/null
}

x86_64_ready() {
    local emulator
    x86_64_cc=() x86_64_run=() x86_64_lack=
    case $(uname -m) in
    x86_64)
        x86_64_native || { x86_64_lack="no C compiler"; return 1; }
        ;;
    *)
        x86_64_crosses || debian_install gcc-x86-64-linux-gnu libc6-dev-amd64-cross || true
        x86_64_crosses || { x86_64_lack="no C compiler for x86-64"; return 1; }
        x86_64_emulator >/dev/null || debian_install qemu-user || true
        emulator=$(x86_64_emulator) || { x86_64_lack="no emulator of x86-64"; return 1; }
        x86_64_cc=(x86_64-linux-gnu-gcc -static)
        x86_64_run=("$emulator")
        ;;
    esac
}
