# shellcheck shell=bash disable=SC2034 # what is set here is for the scripts that source it
# Where things lie, what makes an x86-64 program on this machine, and what runs it. Sourced by .ci/run, tool/build,
# tool/run, bench/run and the scripts of tests/. The archive holds x86-64 code only, so an Arm machine takes a cross
# compiler and an emulator, and programs are linked whole there.
#
#   root           the repository
#   target         where things are built: target/, or what JV_TARGET names
#   archive        the library to link; JV_ARCHIVE names another one
#   library        what stands for the library among a compiler's arguments
#   CC, CXX, RUN   the two compilers, and the words to put before a program
#   C_FLAGS, CXX_FLAGS   how both compilers are called; CFLAGS adds to them
#   PNG_LIBS       what a program that reads or writes PNG links
#
# With JV_SANITIZED=1 programs are built, below target/sanitized, such that they stop at a bad address and at undefined
# behaviour. They cannot be emulated, for they take more addresses than the emulator can keep account of. So on Arm they
# are Arm programs, and have the second program's stand-in for the library.

root=$(cd "$(dirname "${BASH_SOURCE[0]}")/.." && pwd)
target=$(realpath -m "${JV_TARGET:-$root/target}")
archive=$(realpath -m "${JV_ARCHIVE:-$root/target/staticlib/libjokulvisp.a}")
library=("$archive")

read -r -a added_flags <<<"${CFLAGS:-}"
common_flags=(-O2 -Wall -Wextra -Werror -Wpedantic "-I$root/include")
PNG_LIBS=(-lpng -lz -lm)
commands=(make pkg-config groff)
packages=(gcc g++ libc6-dev libpng-dev make pkg-config groff-base)

build_for_this_machine() {
    CC=${CC:-cc}
    CXX=${CXX:-g++}
    RUN=()
}

build_across() {
    CC=x86_64-linux-gnu-gcc
    CXX=x86_64-linux-gnu-g++
    RUN=(qemu-x86_64)
    common_flags+=(-static)
}

case "$(uname -m)" in
    x86_64)
        build_for_this_machine
        ;;
    aarch64 | arm64)
        packages+=(gcc-x86-64-linux-gnu g++-x86-64-linux-gnu libc6-dev-amd64-cross libpng-dev:amd64 qemu-user)
        if [ -n "${JV_SANITIZED:-}" ]; then
            build_for_this_machine
            library=("$target/sanitized/stand_in.o")
        else
            build_across
        fi
        ;;
    *)
        echo "no way is known to build and run x86-64 programs on $(uname -m)" >&2
        exit 1
        ;;
esac

if [ -n "${JV_SANITIZED:-}" ]; then
    target=$target/sanitized
    # Looking for leaks takes a debugger's rights, which not every machine gives.
    export ASAN_OPTIONS=${ASAN_OPTIONS:-detect_leaks=0}
    common_flags+=(-g "-fsanitize=address,undefined" -fno-sanitize-recover=all)
fi
C_FLAGS=(-std=c11 "${common_flags[@]}" "${added_flags[@]}")
CXX_FLAGS=(-std=c++17 "${common_flags[@]}" "${added_flags[@]}")

# Whether a C program, one that writes PNG, and a C++ program can be built and run here.
can_build() {
    local folder status=0
    folder=$(mktemp -d)
    {
        echo '#include <png.h>
              int main(void) { return png_access_version_number() == 0; }' >"$folder/c.c" &&
            "$CC" "${C_FLAGS[@]}" "$folder/c.c" "${PNG_LIBS[@]}" -o "$folder/c" && "${RUN[@]}" "$folder/c" &&
            echo '#include <cstdio>
                  int main() { return std::puts("C++") < 0; }' >"$folder/cxx.cpp" &&
            "$CXX" "${CXX_FLAGS[@]}" "$folder/cxx.cpp" -o "$folder/cxx" && "${RUN[@]}" "$folder/cxx"
    } >"$folder/log" 2>&1 || status=1
    [ "$status" -eq 0 ] || can_build_log=$(cat "$folder/log")
    rm -r "$folder"
    return "$status"
}

# Says what is missing and ends the script.
need_compilers() {
    can_build && return
    {
        echo "no program can be built and run here with $CC, $CXX${RUN[*]:+, ${RUN[*]}} and libpng:"
        echo "$can_build_log"
        echo "on Debian these packages have what is needed: ${packages[*]}"
    } >&2
    exit 1
}

# Installs the packages, with no one at the keyboard. Those of another architecture are asked for by its name.
install_packages() {
    local as_root=(env DEBIAN_FRONTEND=noninteractive)
    if [ "$(id -u)" -ne 0 ]; then
        as_root=(sudo -n "${as_root[@]}")
    fi
    if ! command -v apt-get >/dev/null || ! "${as_root[@]}" true 2>/dev/null; then
        echo "packages are missing, and only root can install them, with apt-get: ${packages[*]}" >&2
        return 1
    fi
    if [[ " ${packages[*]} " == *:amd64\ * ]]; then
        "${as_root[@]}" dpkg --add-architecture amd64
    fi
    "${as_root[@]}" apt-get update
    "${as_root[@]}" apt-get install -y --no-install-recommends "${packages[@]}"
}

has_commands() {
    local command
    for command in "${commands[@]}"; do
        command -v "$command" >/dev/null || return 1
    done
}

# Whether the same holds of programs built the other way, with JV_SANITIZED or without.
can_build_sanitized() {
    JV_SANITIZED=1 bash -c 'source "$1" && can_build' - "${BASH_SOURCE[0]}"
}

# Installs what is missing to build and run programs. Standard output is left to the caller.
install_missing() {
    { can_build && can_build_sanitized && has_commands; } || install_packages >&2 || true
    need_compilers
}

# Makes the second program's stand-in out of the folder with its sources, as one object that shows the calls of the
# header and none of its other names.
make_stand_in() {
    local sources=$1 object=$2 objects
    objects=$(mktemp -d)
    (cd "$objects" && "$CC" "${C_FLAGS[@]}" -c "$sources"/{stand_in,guide,runner,painter,repainter,ringer}.c)
    mkdir -p "$(dirname "$object")"
    "$CC" -r -nostdlib "$objects"/*.o -o "$object"
    "$("$CC" -print-prog-name=objcopy)" --wildcard --keep-global-symbol='jv_*' "$object"
    rm -r "$objects"
}

need_archive() {
    if [ "${library[0]}" != "$archive" ]; then
        make_stand_in "$root/tests/second" "${library[0]}"
    elif ! [ -f "$archive" ]; then
        echo "there is no $archive; 'make' in $root makes it" >&2
        exit 1
    fi
}
