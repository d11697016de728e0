# shellcheck shell=bash disable=SC2034,SC2154 # what is shared is set and read in different files
# The command words. Sourced by tests/tool/run.

try "words, a list that draws" compare_tool words-panel words panel.list
try "words, on standard input" compare_tool words-panel words - <panel.list
try "words, every command" compare_tool words-all words all.list
try "words, every word that is refused" compare_tool words-refused words refused.list
try "words, a fault" compare_tool words-fault words faulty.list
try "words, no DISPLAY" compare_tool words-past-end words past-end.list
try "words, a limit reached" compare_tool words-limit words -l 1 faulty.list
try "words, a limit reached before the end" compare_tool words-limit-at-end words -l 1 limit-at-end.list
try "words, a bitmap without RAM_G" compare_tool words-no-ram-g words no-ram-g.list
try "words, a bitmap in RAM_G" compare_tool words-bitmap words -g ram_g bitmap.list
try "words, a far end" compare_tool words-far-end words far-end.list
try "words, RAM_G too large" compare_tool words-large-ram-g words -g large_ram_g faulty.list
try "words, targets in no list" compare_tool words-targets words split-target.list
try "words, a length that is no multiple of 4" compare_tool check-odd-list words odd.list
try "words, a list too long" compare_tool check-long-list words long.list
try "words, an endless list" compare_tool check-endless-list words - </dev/zero
try "words, a missing list" compare_tool missing-list words missing.list
try "words, a folder" compare_tool folder words folder
try "words, the longest list" [ "$(jokulvisp words longest.list | wc -l)" -eq 2049 ]

# ---- Exit status -----------------------------------------------------------------------------------------------------

# Whether words prints the same as without --exit-code, and has this exit status. Arguments: status, list and options.
judge() {
    local wanted=$1 status=0
    shift
    jokulvisp words "$@" >unjudged && jokulvisp words --exit-code "$@" >judged || status=$?
    [ "$status" -eq "$wanted" ] && cmp unjudged judged
}

try "words, judged, a list that draws" judge 0 panel.list
try "words, judged, a fault" judge 1 faulty.list
try "words, judged, no DISPLAY" judge 1 past-end.list
try "words, judged, a limit reached" judge 1 -l 1 panel.list
try "words, judged, RAM_G too large" judge 1 -g large_ram_g panel.list
try "words, judged, a bitmap in RAM_G" judge 0 -g ram_g bitmap.list
try "words, judged, a length that is no multiple of 4" compare_tool check-odd-list words --exit-code odd.list
try "words, judged, a missing list" compare_tool missing-list words --exit-code missing.list

# ---- Files that are no lists -----------------------------------------------------------------------------------------

make_list swapped 0000FF02 07000026 00000000
try "words, swapped bytes" compare_tool words-swapped words swapped.list
printf '# A text\nDISPLAY\n\n\n\n' >text.list
try "words, text with the length of a list" compare_tool words-text words text.list
printf 'DISPLAY' >short-text.list
try "words, text" compare_tool words-short-text words short-text.list

# ---- A reader that has read enough -----------------------------------------------------------------------------------

# Prints to a reader that takes one line, with the signal for that and without it.
read_one_line() {
    local line
    line=$(jokulvisp words longest.list 2>stderr | head -n 1)
    [ "$line" = '   0  00000000  DISPLAY' ] && diff /dev/null stderr || return
    line=$(trap '' PIPE && jokulvisp words longest.list 2>stderr | head -n 1)
    [ "$line" = '   0  00000000  DISPLAY' ] && diff /dev/null stderr
}

try "words, to a reader of one line" read_one_line
