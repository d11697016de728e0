# shellcheck shell=bash disable=SC2034,SC2154 # what is shared is set and read in different files
# What the sections of the tool's tests have in common. Sourced by tests/tool/run.

# What is given to write a picture with its tags, and with its marks.
drawn=(-o drawn.png --tags tags.png)
repainted=("${drawn[@]}" --marks marks.png)

# Builds a program out of the sources after its name, which lie under tests/tool, or under tool if they begin so.
build() {
    local name=$1 sources=("${@:2}")
    sources=("${sources[@]/#/$here/}")
    "$CC" "${C_FLAGS[@]}" "${sources[@]/#"$here/tool/"/"$root/tool/"}" "${library[@]}" "${PNG_LIBS[@]}" -o "$name"
}

# Stands before what is run. A signal has its default action then, also if these tests were started such that it is
# ignored, as SIGINT is in the background.
with_signals=(env '--default-signal=HUP,INT,PIPE,TERM')

# Runs the tool.
jokulvisp() {
    "${with_signals[@]}" "${RUN[@]}" "$tool" "$@"
}

# Runs the command after the name and compares what it writes, and its exit status, with the file of that name under
# expect/. Standard output goes to $tool_output if that is set.
compare() {
    local name=$1 status=0
    shift
    "$@" >"${tool_output:-stdout}" 2>stderr || status=$?
    {
        echo "exit status $status"
        echo "-- standard output"
        [ -n "${tool_output:-}" ] || cat stdout
        echo "-- standard error"
        cat stderr
    } >"$name.came"
    diff -u "$here/expect/$name" "$name.came"
}

# Does so with the tool and the arguments after the name.
compare_tool() {
    compare "$1" jokulvisp "${@:2}"
}

# Whether nothing is left of a file that was being written, in this folder and below it, hidden or not.
has_no_part() {
    ! find . -name '*.part*' | grep .
}

# Has the tool write nothing, for the reason that the arguments give, over files that are there already.
write_and_keep() {
    echo 'as before' | tee drawn.png tags.png >marks.png
    compare_tool "$@" && has_no_part && [ "$(cat drawn.png tags.png marks.png | sort -u)" = 'as before' ]
}

# ---- What is read ----------------------------------------------------------------------------------------------------

# Makes a list of the words after the name.
make_list() {
    pack "${@:2}" >"$1.list"
}

# Makes a list of the words in the file of each name under lists/, which can have remarks.
make_from_words() {
    local name words
    for name in "$@"; do
        mapfile -t words < <(sed 's/#.*//' "$here/lists/$name.words" | tr -s ' ' '\n' | sed '/^$/d')
        make_list "$name" "${words[@]}"
    done
}

# Prints a list with the bytes of each word in the other order.
swap_words() {
    od -An -v -tx1 -w4 "$1" | while read -r a b c d; do printf '%b' "\\x$d\\x$c\\x$b\\x$a"; done
}

# Makes a list of each text of this name under texts/.
make_from_texts() {
    local name
    for name in "$@"; do
        jokulvisp assemble -o "$name.list" "$here/texts/$name.txt" >/dev/null || return
    done
}

# BITMAP_SOURCE 0; BITMAP_LAYOUT L8, 8 by 8; BITMAP_SIZE 8 by 8; BEGIN BITMAPS; VERTEX2II 0, 0, 0, 0; DISPLAY
bitmap=(01000000 07181008 08001008 1F000001 80000000 00000000)

# Makes the files that more than one section reads, and the program that reads pictures.
make_common_files() {
    mkdir folder
    cp "$here/texts/panel.txt" .
    make_from_words panel all refused

    head -c 64 /dev/zero >ram_g
    : >no_ram_g
    head -c 1048577 /dev/zero >large_ram_g
    pack 00112233 44556677 8899AABB CCDDEEFF 0F1E2D3C 4B5A6978 8796A5B4 C3D2E1F0 >few_icons
    for _ in 1 2 3 4 5 6 7 8; do cat few_icons; done >icons.ram_g

    printf '\0\0\0' >short.list
    printf '\0\0\0\0\0\0' >odd.list
    head -c 8192 /dev/zero >longest.list
    head -c 8196 /dev/zero >long.list

    # The third word is at fault, in a list with a label before it.
    make_list faulty 1E000008 2D000000 40F00110 00000000
    make_list past-end 02FF0000 26000007
    make_list no-meaning 1C801800
    make_list split-target 1E000002
    make_list limit-reached 1E000000
    make_list limit-at-end 1E00FFFC
    make_list circle 2D000000 1E000000
    make_list bitmap "${bitmap[@]}"
    cp bitmap.list no-ram-g.list
    # CLEAR; BEGIN LINE_STRIP; VERTEX2F 0, 0; VERTEX_TRANSLATE_X -32769; VERTEX2F 0, 16
    make_list far-end 26000007 1F000004 40000000 2B017FFF 40000010 00000000

    try "the program that reads pictures builds" build pictures pictures.c ../shared/check.c
    try "lists are assembled to be drawn" make_from_texts small small-edited edited icons
}
