# shellcheck shell=bash disable=SC2034,SC2154 # what is shared is set and read in different files
# The files that are written. Sourced by tests/tool/run.

lists=(panel.list edited.list)
cksum panel.list edited.list icons.ram_g >sums
try "no such folder" write_and_keep no-place repaint "${repainted[@]}" --tags missing/tags.png "${lists[@]}"
try "no such folder, told before the list is read" \
    write_and_keep no-place draw "${drawn[@]}" --tags missing/tags.png missing.list
try "a picture without a name" write_and_keep nameless draw "${drawn[@]}" -o '' panel.list
try "a file for a folder" write_and_keep file-for-folder draw "${drawn[@]}" --tags panel.list/tags.png panel.list
try "over a folder" write_and_keep over-folder draw "${drawn[@]}" -o folder panel.list
try "a full disk" write_and_keep full-disk repaint "${repainted[@]}" -o /dev/full "${lists[@]}"
try "a full disk for the tags" write_and_keep full-disk repaint "${repainted[@]}" --tags /dev/full "${lists[@]}"
try "a full disk for the marks" write_and_keep full-disk repaint "${repainted[@]}" --marks /dev/full "${lists[@]}"
tool_output=/dev/full
try "a full disk behind standard output" write_and_keep full-output repaint "${repainted[@]}" -o - "${lists[@]}"
try "a full disk for the answer" compare_tool full-output check panel.list
try "a full disk for words" compare_tool full-output words panel.list
try "a full disk for many words" compare_tool full-output words longest.list
try "a full disk for help" compare_tool full-output check --help
try "a full disk for a list" compare_tool full-output assemble -o - panel.txt
tool_output=

try "one place twice" write_and_keep one-place draw -o drawn.png --tags drawn.png panel.list
try "one place twice, by two names" write_and_keep one-place draw -o "$PWD/drawn.png" --tags drawn.png panel.list
try "a free place twice, by two names" write_and_keep one-free-place draw -o "$PWD/free.png" --tags free.png panel.list
ln -s drawn.png link.png
try "one place twice, by a link" write_and_keep one-place-by-link draw -o drawn.png --tags link.png panel.list
try "over the list" write_and_keep over-list draw "${drawn[@]}" -o ./panel.list panel.list
try "over the new list" write_and_keep over-new-list repaint "${repainted[@]}" --marks edited.list "${lists[@]}"
try "over RAM_G" write_and_keep over-ram-g draw "${drawn[@]}" -g icons.ram_g --tags icons.ram_g icons.list
try "what is read is as it was" diff -u sums <(cksum panel.list edited.list icons.ram_g)

# ---- What is replaced ------------------------------------------------------------------------------------------------

# Draws the small list to the file of this name, and compares the pixels of the file of the second name, or of the same
# one, with those that were written down by hand.
draw_to() {
    compare_tool draw-small draw -s 2x2 -o "$1" small.list && shows_small "${2:-$1}" && has_no_part
}

shows_small() {
    "${RUN[@]}" ./pictures show "$1" | diff -u "$here/expect/small-pixels" -
}

# Draws over a file of a mode.
draw_over_mode() {
    echo 'as before' >drawn.png
    chmod "$1" drawn.png
    draw_to drawn.png && [ "$(stat -c %a drawn.png)" = "$1" ]
}

# Draws to a new file under an umask.
draw_under_umask() {
    rm -f drawn.png
    (umask "$1" && draw_to drawn.png) && [ "$(stat -c %a drawn.png)" = "$2" ]
}

# Draws over a file of another owner and group, which only root can make.
draw_over_owner() {
    echo 'as before' >drawn.png
    [ "$(id -u)" -eq 0 ] || return 0
    chmod 640 drawn.png
    chown "$1" drawn.png
    draw_to drawn.png && [ "$(stat -c %u:%g:%a drawn.png)" = "$1:640" ]
}

# Draws over a file that has a second name, shorter or longer than the picture.
draw_over_both_names() {
    rm -f drawn.png twin.png
    head -c "$1" /dev/zero >drawn.png
    ln drawn.png twin.png
    draw_to drawn.png twin.png && [ drawn.png -ef twin.png ]
}

try "over a file of mode 600" draw_over_mode 600
try "over a file of mode 664" draw_over_mode 664
try "over a file of mode 751" draw_over_mode 751
try "a new file" draw_under_umask 022 644
try "a new file of one's own" draw_under_umask 077 600
try "over a file of someone else's" draw_over_owner 65534:65534
try "over a file of another group" draw_over_owner "$(id -u):65534"
try "over a file with a second name" draw_over_both_names 10
try "over a long file with a second name" draw_over_both_names 100000
rm -f twin.png

# ---- Names and links -------------------------------------------------------------------------------------------------

# Draws where a link leads, which stays a link.
draw_by_link() {
    draw_to "$1" "$2" && [ -L "$1" ] && [ ! -L "$2" ]
}

# Draws where a link leads to a file that is there or not there yet.
draw_by_link_to_both() {
    ln -sfn "$1" "$3"
    rm -f "$2"
    draw_by_link "$3" "$2" && draw_by_link "$3" "$2"
}

mkdir below below/one
ln -s below/one folder-link
ln -s link-by-folder chain
try "a link" draw_by_link_to_both drawn.png drawn.png link.png
try "a link to another folder" draw_by_link_to_both below/one/drawn.png below/one/drawn.png link.png
try "a link from the root" draw_by_link_to_both "$PWD/below/drawn.png" below/drawn.png link.png
try "a link in a folder, relative to it" draw_by_link_to_both ../drawn.png below/drawn.png below/one/link.png
try "a link by a link to a folder" draw_by_link_to_both folder-link/../by-folder.png below/by-folder.png link-by-folder
try "a link to a link" draw_by_link chain below/by-folder.png
ln -s round-b round-a
ln -s round-a round-b
try "a link that leads to itself" write_and_keep link-loop draw "${drawn[@]}" --tags round-a panel.list
ln -s missing/drawn.png link-to-nowhere
try "a link to no folder" write_and_keep link-to-nowhere draw "${drawn[@]}" --tags link-to-nowhere panel.list
ln drawn.png twin.png
try "two names of a file" write_and_keep one-place-by-twin draw -o drawn.png --tags twin.png panel.list
rm twin.png

# Draws to a name of 255 bytes, which is there or not, and to one that is too long.
draw_long_names() {
    local name
    name=$(printf '%0255d' 0)
    draw_to "$name" && draw_to "$name" && rm "$name" &&
        write_and_keep long-name draw "${drawn[@]}" --tags "${name}1" panel.list
}

# Draws to a path of 4095 bytes, and in a folder whose path is longer than any name may be.
draw_long_paths() {
    local folder path=
    folder=$(printf '%0200d' 0)
    for _ in {1..20}; do path+=$folder/; done
    mkdir -p "$path"
    path+=$(printf '%075d' 0)
    [ ${#path} -eq 4095 ] && draw_to "$path" || return
    (
        for _ in {1..20}; do cd -P "$folder" || exit; done
        mkdir -p "$folder/$folder"
        cd -P "$folder/$folder" || exit
        cp "$out/common/small.list" "$out/common/pictures" .
        draw_to drawn.png && draw_to drawn.png
    )
}

try "names as long as they can be" draw_long_names
try "paths as long as they can be" draw_long_paths
rm -rf 000*

# ---- Streams and devices ---------------------------------------------------------------------------------------------

# Draws to standard output under another name of its, behind what is in a file already.
append_by_name() {
    echo 'as before' >log
    tool_output=/dev/null compare draw-to-output append_to_log "$1" && [ "$(head -n 1 log)" = 'as before' ] &&
        tail -c +11 log >drawn.png && shows_small drawn.png
}

append_to_list() {
    # shellcheck disable=SC2094 # that it is read and written is what is refused
    jokulvisp draw -s 2x2 -o - read.list >>read.list
}

append_to_log() {
    jokulvisp draw -s 2x2 -o "$1" small.list >>log
}

# Draws to a pipe under a name of standard output: nothing but the picture goes there.
pipe_by_name() {
    rm -f drawn.png
    jokulvisp draw -s 2x2 -o "$1" small.list 2>stderr | cat >drawn.png
    shows_small drawn.png && diff -u <(sed '1,3d' "$here/expect/draw-to-output") stderr
}

# Compares as compare_tool does, where standard output is a pipe.
compare_piped() {
    compare "$1" run_piped "${@:2}"
}

run_piped() {
    jokulvisp "$@" | cat
}

draw_to_output_device() {
    tool_output=/dev/null compare_tool draw-to-output draw -s 2x2 -o /dev/stdout small.list
}

# Draws to another descriptor, behind what has been written to it already.
draw_to_descriptor() {
    { echo 'as before' >&3 && draw_to_stream /dev/fd/3; } 3>log &&
        [ "$(head -n 1 log)" = 'as before' ] && tail -c +11 log >drawn.png && shows_small drawn.png
}

draw_to_stream() {
    compare_tool draw-small draw -s 2x2 -o "$1" small.list
}

draw_to_fifo() {
    rm -f fifo
    mkfifo fifo
    cat fifo >drawn.png &
    draw_to_stream fifo && wait $! && [ -p fifo ] && shows_small drawn.png
}

# What is meant for a stream that is closed must not get into a file.
draw_with_closed_output() {
    jokulvisp draw -s 2x2 "${drawn[@]}" small.list >&-
}

draw_with_closed_error() {
    jokulvisp draw -s 2x2 "${drawn[@]}" small.list 2>&-
}

fail_with_closed_streams() {
    jokulvisp draw -s 2x2 "${drawn[@]}" --tags missing/tags.png small.list 2>&- >&-
}

draw_with_closed() {
    rm -f drawn.png tags.png
    compare "$@" && shows_small drawn.png && "${RUN[@]}" ./pictures show tags.png | diff -u "$here/expect/small-tags" -
}

ln -s /dev/stdout link-to-output
for name in /dev/stdout /dev/fd/1 /proc/self/fd/1 link-to-output; do
    try "to $name, which is a file" append_by_name "$name"
done
for name in - /dev/stdout /dev/fd/1 link-to-output; do
    try "to $name, which is a pipe" pipe_by_name "$name"
done
try "to /dev/stdout, which is a device" draw_to_output_device
try "to another descriptor, which is a file" draw_to_descriptor
try "to a FIFO" draw_to_fifo
try "to a device" draw_to_stream /dev/null
try "standard output twice, by two names" compare_tool output-twice draw -o - --tags /dev/stdout panel.list
try "standard output twice, by two names and a pipe" compare_piped output-twice draw -o /dev/stdout --tags - panel.list
try "standard output twice, by a link" compare_tool output-twice draw -o /dev/stdout --tags link-to-output panel.list
try "one descriptor twice" write_and_keep one-descriptor draw -o /dev/fd/3 --tags /proc/self/fd/3 panel.list 3>/dev/null
try "one device twice" compare_tool draw-panel draw -o /dev/null --tags /dev/null panel.list
for number in 3 4 5 6 7; do
    try "descriptor $number, which is closed" write_and_keep "closed-descriptor-$number" \
        draw "${drawn[@]}" --tags "/dev/fd/$number" panel.list 3>&- 4>&- 5>&- 6>&- 7>&-
done
try "standard output closed" draw_with_closed closed-output draw_with_closed_output
try "standard error closed" draw_with_closed draw-small draw_with_closed_error
echo 'as before' >drawn.png
try "both closed, and no such folder" compare silent-failure fail_with_closed_streams
try "nothing has changed" [ "$(cat drawn.png)" = 'as before' ]
try "a descriptor that is no number" write_and_keep no-descriptor draw "${drawn[@]}" -o /dev/fd/x panel.list

# What is read through '-' must not be written over either.
cp small.list read.list
cp panel.txt read.txt
# shellcheck disable=SC2094 # likewise
try "over the list on standard input" write_and_keep over-standard-input draw "${drawn[@]}" -o read.list - <read.list
# shellcheck disable=SC2094 # likewise
try "over the text on standard input" compare_tool assemble-over-input assemble -o read.txt - <read.txt
try "behind the list" compare behind-list append_to_list
try "what is read is as it was, again" cmp small.list read.list
try "and the text" cmp panel.txt read.txt

# ---- Lists of permissions --------------------------------------------------------------------------------------------

# A file without such a list gets none, whatever its folder gives to new files.
write_without_list() {
    mkdir giving
    echo 'as before' >giving/drawn.png
    chmod 640 giving/drawn.png
    "${RUN[@]}" ./access give giving || return
    draw_to giving/drawn.png && [ "$(stat -c %a giving/drawn.png)" = 640 ] &&
        ! "${RUN[@]}" ./access has giving/drawn.png
}

# A file with one keeps it.
write_with_list() {
    echo 'as before' >drawn.png
    "${RUN[@]}" ./access set drawn.png && draw_to drawn.png && "${RUN[@]}" ./access has drawn.png
}

try "the program for lists of permissions builds" build access access.c
mkdir trial
if "${RUN[@]}" ./access give trial; then
    try "over a file without a list of permissions" write_without_list
    try "over a file with a list of permissions" write_with_list
fi
rm -f drawn.png

# ---- Permissions -----------------------------------------------------------------------------------------------------

# Draws into a file of a folder. Root may write everywhere, and therefore becomes someone else.
draw_as_anyone() {
    local as_other=()
    [ "$(id -u)" -ne 0 ] || as_other=(setpriv --reuid=65534 --regid=65534 --clear-groups)
    (cd "$1" && "${as_other[@]}" "${RUN[@]}" ./jokulvisp draw -s 2x2 -o "$2" small.list)
}

# Draws over a file that may be written, but not replaced without a change of its owner or at all.
draw_in_place() {
    local before
    before=$(stat -c %i:%u:%g:%a "$1/$2")
    compare draw-small draw_as_anyone "$1" "$2" && shows_small "$1/$2" &&
        [ "$(stat -c %i:%u:%g:%a "$1/$2")" = "$before" ]
}

# Does so over a file of root's, which only root can make.
draw_over_roots() {
    [ "$(id -u)" -ne 0 ] || draw_in_place "$@"
}

# Draws into a folder that may not be written to, and over files that may be or not. All lie where anyone can read the
# program and the list.
draw_without_permission() {
    local folder status=0
    folder=$(mktemp -d)
    cp "$tool" small.list "$folder"
    mkdir "$folder/closed" "$folder/open"
    echo 'as before' | tee "$folder"/{closed,open}/{drawn,free}.png >/dev/null
    rm "$folder/closed/free.png"
    head -c 10000 /dev/zero | tee "$folder"/{closed,open}/written.png >/dev/null
    chmod 444 "$folder"/*/drawn.png "$folder/small.list"
    chmod 666 "$folder"/*/written.png
    chmod 777 "$folder/open"
    chmod 555 "$folder/closed" "$folder/jokulvisp" "$folder"
    compare no-permission draw_as_anyone "$folder" closed/free.png &&
        compare no-permission-over draw_as_anyone "$folder" closed/drawn.png &&
        compare no-permission-for-file draw_as_anyone "$folder" open/drawn.png &&
        [ "$(cat "$folder"/*/drawn.png)" = $'as before\nas before' ] &&
        draw_in_place "$folder" closed/written.png && draw_over_roots "$folder" open/written.png &&
        (cd "$folder" && has_no_part) || status=1
    chmod 755 "$folder" "$folder/closed"
    rm -rf "$folder"
    return "$status"
}

try "no permission to write" draw_without_permission
