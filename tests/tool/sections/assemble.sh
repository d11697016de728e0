# shellcheck shell=bash disable=SC2034,SC2154 # what is shared is set and read in different files
# The command assemble. Sourced by tests/tool/run.

# Assembles, and compares what the tool says with expect/ and the list with the one after the name.
assemble_and_compare() {
    local name=$1 wanted=$2
    rm -f made.list
    compare_tool "$name" assemble "${@:3}" && cmp "$wanted" made.list && has_no_part
}

# Has the tool make no list, for the reason that the arguments give, over a file that is there already.
assemble_and_keep() {
    echo 'as before' >made.list
    compare_tool "$@" && [ "$(cat made.list)" = 'as before' ] && has_no_part
}

# Does so with the text of this name.
assemble_fault() {
    cp "$here/texts/$1.txt" .
    assemble_and_keep "assemble-$1" assemble -o made.list "$1.txt"
}

cp "$here"/texts/{styles,c-styles}.txt .
sed 's/$/\r/' styles.txt >dos.txt
printf 'DISPLAY' >no-end.txt
make_list display 00000000
try "assemble" assemble_and_compare assemble-panel panel.list -o made.list panel.txt
try "assemble, all styles" assemble_and_compare assemble-panel panel.list styles.txt -omade.list
try "assemble, all styles and the line ends of another system" \
    assemble_and_compare assemble-panel panel.list --output=made.list dos.txt
try "assemble, remarks and line ends of C" assemble_and_compare assemble-panel panel.list -o made.list c-styles.txt
{ printf '\357\273\277' && cat panel.txt; } >marked.txt
try "assemble, a byte order mark" assemble_and_compare assemble-panel panel.list -o made.list marked.txt
{ printf '\357\273\277' && sed 's/$/\r/' c-styles.txt; } >marked-dos.txt
try "assemble, a byte order mark and the line ends of another system" \
    assemble_and_compare assemble-panel panel.list -o made.list marked-dos.txt
try "assemble, from standard input" assemble_and_compare assemble-panel panel.list --output made.list - <panel.txt
try "assemble, a last line without an end" assemble_and_compare assemble-one-word display.list -o made.list no-end.txt
tool_output=made.list
try "assemble, to standard output" assemble_and_compare assemble-to-output panel.list -o - panel.txt
try "assemble, one word to standard output" assemble_and_compare assemble-one-to-output display.list -o - no-end.txt
tool_output=

try "assemble, faulty fields" assemble_fault faulty-fields
try "assemble, faulty values" assemble_fault faulty-values
try "assemble, faulty reserved bits" assemble_fault faulty-reserved
try "assemble, faulty labels" assemble_fault faulty-labels
try "assemble, faulty line ends" assemble_fault faulty-line-ends
try "assemble, a remark that is never closed" assemble_fault open-remark
printf 'DISPLAY /*/\n' >barely-open.txt
try "assemble, a remark that is barely open" \
    assemble_and_keep assemble-barely-open assemble -o made.list barely-open.txt
printf '/**/DISPLAY/*/**/' >barely-closed.txt
try "assemble, remarks that are barely closed" \
    assemble_and_compare assemble-one-word display.list -o made.list barely-closed.txt
try "assemble, nothing" assemble_and_keep assemble-nothing assemble -o made.list - </dev/null
printf '# A remark\n\n  # and another\n' >remarks.txt
try "assemble, remarks alone" assemble_and_keep assemble-remarks assemble -o made.list remarks.txt
printf 'DISPLAY\n\tNOP\0\n\0\nNOP # \0\n' >nul.txt
try "assemble, NUL bytes" assemble_and_keep assemble-nul assemble -o made.list nul.txt
printf 'NOP\n\33[31mNOP\nNOP\377(\n%060d\n' 0 >strange.txt
try "assemble, strange characters" assemble_and_keep assemble-strange assemble -o made.list strange.txt
printf 'DISPLAY #%991s\n' '' >long-line.txt
try "assemble, the longest line" assemble_and_compare assemble-one-word display.list -o made.list long-line.txt
printf 'DISPLAY #%992s\n' '' >too-long-line.txt
try "assemble, a line too long" assemble_and_keep assemble-long-line assemble -o made.list too-long-line.txt
printf 'DISPLAY\n%.0s' {1..2048} >longest.txt
try "assemble, the longest list" assemble_and_compare assemble-longest longest.list -o made.list longest.txt
{ cat longest.txt && printf 'DISPLAY\nDISPLAY\nDISPLAI\n'; } >too-long.txt
try "assemble, a list too long" assemble_and_keep assemble-too-long assemble -o made.list too-long.txt
for count in 20 21 1000; do
    seq -f 'NOPE%.0f' "$count" >"faults-$count.txt"
    try "assemble, $count faults" assemble_and_keep "assemble-faults-$count" assemble -o made.list "faults-$count.txt"
done
{ seq -f 'l%.0f:' 4096 && echo DISPLAY; } >labels.txt
{ seq -f 'l%.0f:' 4098 && echo DISPLAY; } >too-many-labels.txt
try "assemble, the most labels" assemble_and_compare assemble-one-word display.list -o made.list labels.txt
try "assemble, too many labels" assemble_and_keep assemble-too-many-labels assemble -o made.list too-many-labels.txt
{ seq -f '%.0f:' 4095 && printf 'last:\none_more: DISPLAY\n'; } >bad-labels.txt
try "assemble, the most labels, all but two at fault" \
    assemble_and_keep assemble-bad-labels assemble -o made.list bad-labels.txt
{ echo DISPLAY && head -c 1048568 /dev/zero | tr '\0' '\n'; } >longest-text.txt
try "assemble, the longest text" assemble_and_compare assemble-one-word display.list -o made.list longest-text.txt
echo >>longest-text.txt
try "assemble, a text too long" assemble_and_keep assemble-long-text assemble -o made.list longest-text.txt
try "assemble, an endless text" assemble_and_keep assemble-endless assemble -o made.list - </dev/zero
try "assemble, a missing text" assemble_and_keep missing-text assemble -o made.list missing.txt
try "assemble, a folder" assemble_and_keep folder assemble -o made.list folder
try "assemble, no such folder" assemble_and_keep assemble-no-place assemble -o missing/made.list panel.txt
try "assemble, over a folder" assemble_and_keep over-folder assemble -o folder panel.txt
try "assemble, a full disk" assemble_and_keep full-disk assemble -o /dev/full panel.txt
try "assemble, over its text" assemble_and_keep assemble-over-text assemble -o ./panel.txt panel.txt

# ---- Bits beside a command -------------------------------------------------------------------------------------------

jokulvisp words panel.list | sed 's/red=16/red=32/' >edited-words.txt
make_list redder 02201830
tail -c +5 panel.list >>redder.list
try "assemble, bits of another command" \
    assemble_and_compare assemble-other-bits redder.list -o made.list edited-words.txt
try "assemble, bits of another command, quiet" \
    assemble_and_compare assemble-quiet redder.list -q -o made.list edited-words.txt
try "assemble, quiet" assemble_and_compare assemble-quiet panel.list --quiet -o made.list panel.txt
try "assemble, quiet and at fault" assemble_and_keep assemble-long-line assemble -q -o made.list too-long-line.txt
for count in 20 21 23; do
    seq -f '%.0f 2D000001 NOP' "$count" >"warnings-$count.txt"
    head -c "$((4 * count))" < <(while :; do pack 2D000000; done) >nops.list
    try "assemble, $count warnings" \
        assemble_and_compare "assemble-warnings-$count" nops.list -o made.list "warnings-$count.txt"
done
printf '0 2D000001 NOP\nNOPE\n' >warned-and-wrong.txt
try "assemble, a warning and a fault" \
    assemble_and_keep assemble-warned-and-wrong assemble -o made.list warned-and-wrong.txt

# ---- Files that are no texts -----------------------------------------------------------------------------------------

try "assemble, a list" assemble_and_keep assemble-list assemble -o made.list panel.list
try "assemble, a list on standard input" assemble_and_keep assemble-list-input assemble -o made.list - <longest.list
printf 'DISPLAY\n\0\0\0\n' >no-list.txt
try "assemble, a text with NUL bytes and the length of a list" \
    assemble_and_keep assemble-no-list assemble -o made.list no-list.txt
jokulvisp draw -q -s 1x1 -o picture.png panel.list
try "assemble, a picture" assemble_and_keep assemble-picture assemble -o made.list picture.png
printf '\377\376D\0I\0S\0P\0L\0A\0Y\0\n\0' >utf16.txt
try "assemble, UTF-16" assemble_and_keep assemble-utf16 assemble -o made.list utf16.txt
printf 'D\0I\0S\0P\0L\0A\0Y\0\n\0' >utf16.txt
try "assemble, UTF-16 without a byte order mark" assemble_and_keep assemble-utf16 assemble -o made.list utf16.txt
swap_words panel.list >swapped.txt
try "assemble, a list with its bytes swapped" assemble_and_keep assemble-swapped assemble -o made.list swapped.txt
printf 'JUMP(%s)\n%s: DISPLAY\n' a_label_with_a_name_of_its_own{,} >long-label.txt
make_list long-label 1E000004 00000000
try "assemble, a long label" assemble_and_compare assemble-two-words long-label.list -o made.list long-label.txt
printf 'NOP\n\357\273\277DISPLAY\n' >second-mark.txt
try "assemble, a byte order mark within the text" \
    assemble_and_keep assemble-second-mark assemble -o made.list second-mark.txt

# ---- Names -----------------------------------------------------------------------------------------------------------

strange=$'a\nb\33.txt'
echo DISPLAY >"$strange"
try "assemble, a strange name to write" compare_tool assemble-strange-output assemble -o $'a\nb\33.list' "$strange"
echo NOPE >"$strange"
try "assemble, a strange name of what is wrong" compare_tool assemble-strange-name assemble -o made.list "$strange"
