# shellcheck shell=bash disable=SC2034,SC2154 # what is shared is set and read in different files
# The command repaint. Sourced by tests/tool/run.

# Repaints, and compares all pixels with those that the library paints. Arguments: what the tool says, width, height,
# RAM_G, both lists.
repaint_and_paint() {
    rm -f drawn.png tags.png marks.png
    compare_tool "$1" repaint -s "$2x$3" -g "$4" "${repainted[@]}" "$5" "$6" && has_no_part &&
        "${RUN[@]}" ./pictures repaint "$2" "$3" "$4" "$5" "$6" drawn.png tags.png marks.png
}

# Repaints the small list, and compares the pixels of all three files with those that were written down by hand.
repaint_by_hand() {
    rm -f drawn.png tags.png marks.png
    compare_tool repaint-small repaint -s 2x2 "${repainted[@]}" small.list small-edited.list && has_no_part &&
        "${RUN[@]}" ./pictures show drawn.png | diff -u "$here/expect/repaint-pixels" - &&
        "${RUN[@]}" ./pictures show tags.png | diff -u "$here/expect/repaint-tags" - &&
        "${RUN[@]}" ./pictures show marks.png | diff -u "$here/expect/repaint-marks" -
}

# A repaint is worth the same picture as the new list drawn by itself.
repaint_like_draw() {
    jokulvisp repaint -o repainted.png panel.list edited.list >said && jokulvisp draw -o drawn.png edited.list >said &&
        cmp drawn.png repainted.png
}

try "repaint, by hand" repaint_by_hand
try "repaint, as the library does it" repaint_and_paint repaint-panel 480 272 no_ram_g panel.list edited.list
try "repaint, and back" repaint_and_paint repaint-back 480 272 no_ram_g edited.list panel.list
try "repaint, the largest frame" repaint_and_paint repaint-large 800 600 no_ram_g panel.list edited.list
try "repaint, the same list" repaint_and_paint repaint-same 480 272 no_ram_g panel.list panel.list
try "repaint, all rows" repaint_and_paint repaint-all 120 30 icons.ram_g panel.list icons.list
try "repaint, the only row" compare_tool repaint-only-row repaint -s 2x1 -o drawn.png panel.list small.list
try "repaint, the picture that draw gives" repaint_like_draw
try "repaint, the old list on standard input" \
    compare_tool repaint-panel repaint -o drawn.png - edited.list <panel.list
try "repaint, the new list on standard input" \
    compare_tool repaint-panel repaint -o drawn.png panel.list - <edited.list
tool_output=marks.png
try "repaint, the marks to standard output" compare_tool repaint-to-output \
    repaint -o drawn.png --marks - panel.list edited.list
tool_output=

# CLEAR_COLOR_RGB 255, 0, 0; CLEAR; DISPLAY, with their bytes swapped: the first reads as DISPLAY.
make_list swapped 0000FF02 07000026 00000000
try "repaint, a list with its bytes swapped that draws" compare_tool repaint-swapped \
    repaint -o drawn.png -s 2x2 small.list swapped.list
try "repaint, a fault in the old list" write_and_keep repaint-old-fault repaint "${repainted[@]}" faulty.list panel.list
try "repaint, a fault in the new list" write_and_keep repaint-new-fault repaint "${repainted[@]}" panel.list faulty.list
try "repaint, a fault in both" write_and_keep repaint-old-fault repaint "${repainted[@]}" faulty.list past-end.list
try "repaint, no DISPLAY in the new list" \
    write_and_keep repaint-past-end repaint "${repainted[@]}" panel.list past-end.list
try "repaint, the limit reached in the new list" \
    write_and_keep repaint-limit repaint -l 28 "${repainted[@]}" edited.list panel.list
try "repaint, an old list too long" write_and_keep repaint-old-long repaint "${repainted[@]}" long.list panel.list
try "repaint, a short new list" write_and_keep repaint-new-short repaint "${repainted[@]}" panel.list short.list
try "repaint, text for the new list" write_and_keep repaint-new-text repaint "${repainted[@]}" panel.list panel.txt
try "repaint, an empty new list" write_and_keep repaint-new-empty repaint "${repainted[@]}" panel.list - </dev/null
try "repaint, a frame too wide" \
    write_and_keep repaint-too-wide repaint -s 801x272 "${repainted[@]}" panel.list edited.list
try "repaint, RAM_G too large" \
    write_and_keep check-large-ram-g repaint -g large_ram_g "${repainted[@]}" panel.list edited.list
try "repaint, a limit of 0" write_and_keep repaint-limit-0 repaint -l 0 "${repainted[@]}" panel.list edited.list
try "repaint, a missing list" write_and_keep missing-list repaint "${repainted[@]}" panel.list missing.list

# ---- --exit-code -----------------------------------------------------------------------------------------------------

# Whether repaint says the same with --exit-code as without, and has this exit status. Arguments: status, both lists.
repaint_judged() {
    local status=0
    jokulvisp repaint -o drawn.png "$2" "$3" >unjudged 2>&1 || true
    jokulvisp repaint --exit-code -o drawn.png "$2" "$3" >judged 2>&1 || status=$?
    diff -u unjudged judged && [ "$status" -eq "$1" ]
}

# Whether it says nothing, with -q, and has this exit status.
repaint_quietly() {
    local status=0
    jokulvisp repaint -q -o drawn.png "${@:2}" >said 2>&1 || status=$?
    [ ! -s said ] && [ "$status" -eq "$1" ]
}

try "repaint, judged, no row is marked" repaint_judged 0 panel.list panel.list
try "repaint, judged, rows are marked" repaint_judged 1 panel.list edited.list
try "repaint, judged, a fault in the old list" repaint_judged 2 faulty.list panel.list
try "repaint, judged, a fault in the new list" repaint_judged 2 panel.list faulty.list
try "repaint, judged, a missing list" repaint_judged 2 panel.list missing.list
try "repaint, quietly" repaint_quietly 0 panel.list edited.list
try "repaint, quietly and judged, rows are marked" repaint_quietly 1 --exit-code panel.list edited.list
try "repaint, quietly, a fault" repaint_quietly 1 panel.list faulty.list
try "repaint, quietly and judged, a fault" repaint_quietly 2 --exit-code panel.list faulty.list
