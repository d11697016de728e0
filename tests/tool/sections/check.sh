# shellcheck shell=bash disable=SC2034,SC2154 # what is shared is set and read in different files
# The command check. Sourced by tests/tool/run.

# Checks the list of this name, with the options after it.
check_list() {
    compare_tool "check-$1" check "${@:2}" "$1.list"
}

# Does so with a list that is made of the words after the name, and with the options after two dashes behind them.
check_words() {
    local name=$1 words=()
    shift
    while [ $# -gt 0 ] && [ "$1" != -- ]; do
        words+=("$1")
        shift
    done
    make_list "$name" "${words[@]}"
    check_list "$name" "${@:2}"
}

head -c 1048576 /dev/zero >full_ram_g

try "check, a list that draws" compare_tool check-done check panel.list
try "check, on standard input" compare_tool check-done check - <panel.list
try "check, on standard input by its name" compare_tool check-done check /dev/stdin <panel.list
try "check, on standard input by its number" compare_tool check-done check /dev/fd/0 < <(cat panel.list)
try "check, a frame and a limit of the largest" compare_tool check-done check -s 800x600 -l 65536 panel.list
try "check, every option" compare_tool check-done check --size 800x600 panel.list --limit 30 --ram-g ram_g
try "check, every option in short" compare_tool check-done check -s 800x600 -l 30 panel.list -g ram_g
try "check, values close to their options" compare_tool check-done check -s800x600 --limit=30 -gram_g panel.list
try "check, long names cut short" compare_tool check-done check --si 800x600 --lim 30 --ram ram_g panel.list
try "check, the last of two options" compare_tool check-done check -l 1 -l 30 panel.list
try "check, the least of all" check_words one-word 00000000 -- -s 1x1 -l 1 -g no_ram_g
try "check, the largest RAM_G" compare_tool check-done check -g full_ram_g panel.list
cp panel.list -- -panel.list
try "check, a list whose name begins with a dash" compare_tool check-done check -- -panel.list
cp panel.list 'a panel.list'
try "check, a list with a blank in its name" compare_tool check-done check 'a panel.list'

try "check, a short list" compare_tool check-short-list check short.list
try "check, a length that is no multiple of 4" compare_tool check-odd-list check odd.list
try "check, the longest list" compare_tool check-longest-list check longest.list
try "check, a list too long" compare_tool check-long-list check long.list
try "check, an empty list" compare_tool check-empty-list check - </dev/null
try "check, an endless list" compare_tool check-endless-list check - </dev/zero
try "check, RAM_G too large" compare_tool check-large-ram-g check -g large_ram_g panel.list
try "check, an endless RAM_G" compare_tool check-endless-ram-g check -g - panel.list </dev/zero
try "check, the list before RAM_G" compare_tool check-long-list check -g large_ram_g long.list

try "check, no DISPLAY" check_list past-end
try "check, a jump past the end" check_words jump-past-end 1E00FFFC 00000000
try "check, a call that returns to the end" check_words return-to-end 1E000008 24000000 1D000004
try "check, no command" check_words no-command 2D000000 FFFFFF00
try "check, no command by its top byte" check_words no-top-byte 2E000000
try "check, a value without meaning" check_list no-meaning
try "check, two values without meaning" check_words no-meanings 0B00003F
try "check, a primitive not drawn" check_words no-edges 26000007 1F000005 00000000
try "check, a format not drawn" check_words no-l4 07100000
try "check, a filter not drawn" check_words no-bilinear 08100000
try "check, a wrap not drawn" check_words no-repeat 08040000
try "check, a transform not drawn" check_words no-transform 15000100
try "check, a palette not drawn" check_words no-palette 2A000000
try "check, a macro not drawn" check_words no-macro 25000000
try "check, a fifth call" check_words fifth-call 1D000000
try "check, a return without a call" check_words no-call 24000000
try "check, a target that splits a word" check_list split-target
try "check, a vertex without a primitive" check_words no-primitive 40F00110
try "check, a limit reached" check_list limit-reached -l 3
try "check, a limit of one reached" check_words limit-of-one 2D000000 00000000 -- -l 1
try "check, a limit reached before the end" check_list limit-at-end -l 1
try "check, a limit reached at the end" check_words limit-at-last 2D000000 -- -l 1
try "check, a circle" check_list circle

try "check, a bitmap in RAM_G" check_list bitmap -g ram_g
try "check, RAM_G on standard input" check_list bitmap -g - <ram_g
try "check, a bitmap without RAM_G" check_list no-ram-g
# VERTEX2II 0, 0, 0, 1
try "check, a cell outside RAM_G" check_words outside-ram-g "${bitmap[@]:0:4}" 80000001 00000000 -- -g ram_g
try "check, a handle that is not set up" check_words not-set-up 1F000001 80000080
try "check, a handle without a size" check_words no-size 01000000 07181008 1F000001 40000000
# BITMAP_LAYOUT L8, 0 by 8; BITMAP_SIZE 8 by 0
try "check, a bitmap of size 0" check_words size-0 01000000 07180008 08001000 1F000001 80000000
# BITMAP_SOURCE 1; BITMAP_LAYOUT RGB565, 8 by 4
try "check, a bitmap at odd bytes" check_words odd-source 01000001 07381004 08001008 1F000001 80000000 -- -g ram_g

try "check, a far end" check_list far-end
# BEGIN LINES; VERTEX_FORMAT 0; SAVE_CONTEXT; VERTEX2F 0, 2048; RESTORE_CONTEXT; VERTEX2II 0, 1, 0, 0
try "check, a far first end" check_words far-first-end 1F000003 27000000 22000000 40000800 23000000 80001000 00000000

# Bytes of RAM_G: a cell of one byte, and a RAM_G of one.
printf '\0' >byte
# BITMAP_SOURCE 1; BITMAP_LAYOUT L8, 1 by 1; BITMAP_SIZE 1 by 1
try "check, one byte outside RAM_G" \
    check_words one-byte 01000001 07180201 08000201 1F000001 80000000 00000000 -- -g byte
try "check, a list of one byte" compare_tool check-byte check byte

try "check, a missing list" compare_tool missing-list check missing.list
try "check, a list without a name" compare_tool nameless check ''
try "check, a missing RAM_G" compare_tool missing-ram-g check -g missing.ram_g panel.list
try "check, a folder" compare_tool folder check folder
try "check, a folder for RAM_G" compare_tool folder check -g folder panel.list

# Control characters of one byte and of two, and characters of two to four bytes. Then bytes that are no characters: one
# that starts none, one that continues none, a long spelling of '/', a surrogate, one past the last, and one cut short.
strange=$'a\nb\t\r\33[31m\302\233\177 \303\251\342\202\254\360\237\230\200'
strange+=$' \377 \200 \300\257 \355\240\200 \364\220\200\200 \342\202'
cp faulty.list "$strange"
try "check, a strange name in an answer" compare_tool check-strange-name check "$strange"
rm "$strange"
try "check, a strange name that is missing" compare_tool check-strange-missing check "$strange"
try "check, a strange name of RAM_G" compare_tool check-strange-ram-g check -g "$strange" panel.list

# ---- Quiet -----------------------------------------------------------------------------------------------------------

try "check, quiet" compare_tool check-quiet check -q panel.list
try "check, quiet, a fault" compare_tool check-quiet-fault check --quiet faulty.list
try "check, quiet, no list" compare_tool check-quiet-fault check -q odd.list
try "check, quiet, a missing list" compare_tool missing-list check -q missing.list

# ---- Files that are no lists, and lists that are not taken for something else ----------------------------------------

# CLEAR_COLOR_RGB 255, 0, 0; CLEAR 1, 1, 1; DISPLAY, each with its bytes the other way round
make_list swapped 0000FF02 07000026 00000000
try "check, swapped bytes that draw" check_list swapped
# VERTEX2F 0, 46 and DISPLAY
make_list swapped-fault 2E000040 00000000
try "check, swapped bytes at fault" check_list swapped-fault
make_from_words panel
swap_words panel.list >swapped-panel.list
try "check, swapped bytes, one word with reserved bits" check_list swapped-panel
try "check, no hint for what lies behind the list" check_words behind-display 26000007 00000000 00000026
# As it is: VERTEX2F 0, 38; both ways it has a meaning.
try "check, no hint for bytes that are right both ways" check_words right-both-ways 40000026 00000000
try "check, no hint for one word that is wrong both ways" check_words wrong-both-ways 2E000040 2E00002E 00000000
printf 'CLEAR(1, 1, 1)\nDISPLAY\n' >text.list
try "check, text" check_list text
printf '// \303\251\r\nDISPLAY;\r\n\n\n\n' >whole-text.list
try "check, text with the length of a list" check_list whole-text
printf '\357\273\277DISPLAY\n' >marked-text.list
try "check, text with a byte order mark" check_list marked-text
# The file's first 8193 bytes, which are read, end within a character.
{ printf 'x%.0s' {1..8192}; printf '\303\251\n'; } >long-text.list
try "check, text that is too long" check_list long-text
printf 'DISPLAY\0' >nul-text.list
try "check, no hint for text with a NUL" check_list nul-text
printf 'DISPLAY\377' >no-text.list
try "check, no hint for what is not UTF-8" check_list no-text
printf '\377\376D\0I\0S\0P\0\n\0' >utf16.list
try "check, UTF-16" check_list utf16
printf '\376\377\0D\0I\0S\0\n\0' >utf16-high.list
try "check, UTF-16, the high byte first" check_list utf16-high
printf 'D\0I\0S\0P\0L\0A\0Y\0\n\0' >utf16-unmarked.list
try "check, UTF-16 without a byte order mark" check_list utf16-unmarked
# COLOR_RGB 255, 254, 255; VERTEX2F 480, 272
try "check, no hint for a colour like a byte order mark" check_words no-utf16 04FFFEFF 40F00110
jokulvisp draw -q -s 1x1 -o png.list panel.list
try "check, a picture" check_list png
