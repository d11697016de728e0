# shellcheck shell=bash disable=SC2034,SC2154 # what is shared is set and read in different files
# Several files that are written together, over a system that fails or sends a signal. Sourced by tests/tool/run.

troubled=(renameat linkat unlinkat fsync fchown fchmod ftruncate fallocate write)

# The program puts calls of its own before those of the system.
build_outputs() {
    local C_FLAGS=("${C_FLAGS[@]}" "${troubled[@]/#/-Wl,--wrap=}")
    build outputs outputs.c tool/{output,overwrite,part,place,clock,file,message,utf8}.c
}

# Fills three files, of which c is not there. With '--linked' they have second names.
make_old_files() {
    rm -rf a b c twins
    echo 'old a' >a
    echo 'old b, which is longer than the new one' >b
    chmod 600 a
    chmod 640 b
    mkdir twins
    [ "${1:-}" != --linked ] || ln a b twins
}

# Prints what is in the files and what mode they have.
print_files() {
    local file
    for file in a b c; do
        if [ -e "$file" ]; then echo "$file $(stat -c %a "$file") $(cat "$file")"; fi
    done
}

new_files='a 600 new a
b 640 new b
c 644 new c'
old_files='a 600 old a
b 640 old b, which is longer than the new one'

# Runs the program, without what the shell says of a signal, and with the same name for each part that it tells of.
run_outputs() {
    local status=0
    { "${with_signals[@]}" "${RUN[@]}" ./outputs "$@" 2>said || status=$?; } 2>/dev/null
    sed 's/\.jokulvisp-[0-9a-f]\{6\}\./.jokulvisp-NNNNNN./' said >&2
    return "$status"
}

# Writes all three files, with the troubles after the name of what is expected.
write_three() {
    compare "$1" run_outputs "${@:2}" 'new a>a' 'new b>b' 'new c>c'
}

# Does so where all are written.
write_and_change() {
    make_old_files
    write_three "$@" && [ "$(print_files)" = "$new_files" ] && has_no_part
}

# Does so where none is written.
write_and_put_back() {
    make_old_files
    write_three "$@" && [ "$(print_files)" = "$old_files" ] && has_no_part
}

# Both, over files with second names, which they keep.
change_in_place() {
    make_old_files --linked
    write_three "$@" && [ "$(print_files)" = "$new_files" ] && [ a -ef twins/a ] && [ b -ef twins/b ] && has_no_part
}

put_back_in_place() {
    make_old_files --linked
    write_three "$@" && [ "$(print_files)" = "$old_files" ] && [ a -ef twins/a ] && [ b -ef twins/b ] && has_no_part
}

umask 022
try "the program that fails builds" build_outputs
try "three files" write_and_change outputs-written
try "three files in place" change_in_place outputs-written

# ---- All or nothing --------------------------------------------------------------------------------------------------

for file in 1:a 2:b 3:c; do
    try "${file#*:} cannot take its place" write_and_put_back "outputs-no-${file#*:}" "renameat=${file%:*}:EIO"
    try "${file#*:} cannot be synced" write_and_put_back "outputs-no-${file#*:}" "fsync=${file%:*}:EIO"
done
try "a full disk for b" write_and_put_back outputs-full-b write=2:ENOSPC
try "a part has a name that is taken" write_and_put_back outputs-no-c linkat=1:EEXIST linkat=2:EEXIST renameat=3:EIO
try "no links, and all is well" write_and_change outputs-written linkat=1+:EPERM
try "something is mounted on a" write_and_change outputs-written renameat=1:EBUSY
try "the owner cannot be kept" write_and_change outputs-written fchmod=1+:EPERM
try "the folder cannot be synced, as on some file systems" write_and_change outputs-written fsync=4+:EINVAL
try "the folder cannot be synced" write_and_change outputs-not-synced fsync=4:EIO

try "a full disk for b in place" put_back_in_place outputs-full-b fallocate=2:ENOSPC
try "a full disk for b in place, in writing" put_back_in_place outputs-full-b write=3:ENOSPC
try "c cannot take its place, after others in place" put_back_in_place outputs-no-c renameat=1:EIO
try "room cannot be set aside, as on some file systems" change_in_place outputs-written fallocate=1+:ENOTSUP

# Writes with troubles such that something changes nevertheless, which the program says, and compares what is then in
# the files.
write_and_lose() {
    local name=$1 wanted=$2
    make_old_files "${linked[@]}"
    write_three "$name" "${@:3}" && diff -u <(echo "$wanted") <(print_files)
}

# Writes a file that cannot take its place, and to standard output.
write_stream_and_keep() {
    make_old_files
    compare outputs-stream run_outputs renameat=1:EIO 'new a>a' 'new text>-' && [ "$(print_files)" = "$old_files" ] &&
        has_no_part
}

linked=()
try "no links, and c cannot take its place" write_and_lose outputs-lost $'a 600 new a\nb 640 new b' \
    linkat=1+:EPERM renameat=3:EIO
try "no part is left" has_no_part
try "c cannot take its place, and b cannot be put back" write_and_lose outputs-not-back \
    $'a 600 old a\nb 640 new b' renameat=3:EIO renameat=5:EIO
try "the old b is beside it" grep -q 'old b' .jokulvisp-*.part
rm -f .jokulvisp-*.part
linked=(--linked)
try "c cannot take its place, and b cannot be put back in place" write_and_lose outputs-lost-b \
    $'a 600 old a\nb 640 olw b, which is longer than the new one' renameat=1:EIO write=5:EIO
linked=()
try "a cannot take its place, and standard output is written" write_stream_and_keep

# ---- Signals ---------------------------------------------------------------------------------------------------------

for signal in TERM INT HUP; do
    try "SIG$signal while the parts are written" write_and_put_back "outputs-SIG$signal" "fsync=2:$signal"
    try "SIG$signal while the places are taken" write_and_change "outputs-SIG$signal" "renameat=2:$signal"
done
try "SIGTERM while b is written in place" change_in_place outputs-SIGTERM write=3:TERM
try "the time is up while the parts are written" write_and_put_back outputs-timeout timeout=100 fsync=2:SLEEP
try "the time is up while the places are taken" write_and_change outputs-written timeout=200 renameat=2:SLEEP

# Ignores the signal, as nohup does.
ignore_and_write() {
    local with_signals=()
    (trap '' HUP && write_and_change outputs-written fsync=2:HUP)
}

try "SIGHUP is ignored" ignore_and_write
