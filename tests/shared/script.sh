# shellcheck shell=bash disable=SC2034 # what is set here is for the scripts that source it
# What the scripts of tests/ do alike: where they build, what they build first, and how they go on after a failure.
# Sourced by them; the working directory is the repository from then on.
# shellcheck source=tests/machine.sh
source "$(dirname "${BASH_SOURCE[0]}")/../machine.sh"
cd "$root" || exit

out=$target/tests
mkdir -p "$out"
failures=0

# 'rt ci' refuses a checkout with links, or with Rattle sources outside of its crates: those that the tests make go again.
clear_refused() {
    find "$out" '(' -type l -o -name '*.rt' ')' -delete || true
}
trap clear_refused EXIT

# Runs the command after the name and counts its failure.
try() {
    local name=$1
    shift
    echo "== $name"
    "$@" && return
    echo "FAILED: $name"
    failures=$((failures + 1))
}

# Says what became of all tries.
end_tries() {
    if [ "$failures" -gt 0 ]; then
        echo "$1: $failures failed"
        return 1
    fi
    echo "$1: none failed"
}

# Makes an archive out of the sources after its name. Of an archive only those objects are linked that something still
# asks for.
make_archive() {
    local name=$1 objects=$out/$1.objects sources
    shift
    mapfile -t sources < <(realpath "$@")
    rm -rf "$objects" "${out:?}/$name"
    mkdir -p "$objects"
    (cd "$objects" && "$CC" "${C_FLAGS[@]}" -c "${sources[@]}")
    "$("$CC" -print-prog-name=ar)" rcs "$out/$name" "$objects"/*.o
}

# Makes what is linked behind the sources of every program, `parts`: the library to be tested, the second program, and
# the helpers that all tests share, which ask for each other.
make_parts() {
    make_archive parts.a tests/second/{guide,runner,painter,repainter,ringer}.c \
        tests/shared/{check,lent,list_check,paint_check,repaint_check,ring_check}.c
    parts=("$out/parts.a" "${library[@]}" "$out/parts.a")
}

# Prints words of a list, eight hex digits each, as the list's bytes.
pack() {
    local word
    for word in "$@"; do
        printf '%b' "\\x${word:6:2}\\x${word:4:2}\\x${word:2:2}\\x${word:0:2}"
    done
}
