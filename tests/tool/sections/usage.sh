# shellcheck shell=bash disable=SC2034,SC2154 # what is shared is set and read in different files
# Help and wrong use. Sourced by tests/tool/run.

commands=(check draw repaint words assemble)

# ---- Help ------------------------------------------------------------------------------------------------------------

# Prints the examples in a command's help.
print_examples() {
    jokulvisp help "$1" | sed -n '/^Examples:/,/^$/s/^  //p'
}

# Runs them, over files of the names in them. They succeed, and say nothing on standard error.
run_examples() {
    local status=0
    cp panel.list before.list && cp edited.list after.list && print_examples "$1" >examples.sh && [ -s examples.sh ]
    # shellcheck source=/dev/null
    (set -e && source ./examples.sh) >stdout 2>stderr || status=$?
    [ "$status" -eq 0 ] && diff /dev/null stderr
}

try "help" compare_tool help help
try "help by an option" compare_tool help --help
try "help in short" compare_tool help -h
try "help of help" compare_tool help help help
for command in "${commands[@]}"; do
    try "help of $command" compare_tool "help-$command" help "$command"
    try "help of $command by an option" compare_tool "help-$command" "$command" --help
    try "help of $command by an option before it" compare_tool "help-$command" --help "$command"
    try "help of $command in short, whatever stands beside it" compare_tool "help-$command" "$command" a b -h c
    try "the examples of $command" run_examples "$command"
done
try "help of no command" compare_tool no-such-command help sing
try "help of two commands" compare_tool help-of-two help check draw
try "help is no wider than 80 columns" \
    diff /dev/null <({ jokulvisp help && for command in "${commands[@]}"; do jokulvisp help "$command"; done; } |
        grep -E '.{81}')
try "the version" compare_tool version --version
try "the version in short" compare_tool version -V
try "the version is that of the header" \
    grep -q "^#define JV_VERSION \"$(sed -n 's/^jokulvisp //p' version.came)\"" "$root/include/jokulvisp.h"
try "the version and more" compare_tool version-and-more --version check

# ---- Wrong use -------------------------------------------------------------------------------------------------------

try "no arguments" compare_tool no-arguments
try "no such command" compare_tool no-such-command sing panel.list
try "a command that would do something to a terminal" compare_tool strange-command $'\33[31msi\nng' panel.list
try "an option before the command" compare_tool option-first -s 800x480 check panel.list

try "no list" compare_tool no-list check -s 480x272
try "two lists" compare_tool no-list check panel.list panel.list
try "one list to repaint" compare_tool no-new-list repaint -o none.png panel.list
try "three lists to repaint" compare_tool no-new-list repaint -o none.png panel.list panel.list panel.list
try "no text" compare_tool no-text assemble -o none.list
try "no such option" compare_tool no-such-option check --depth 3 panel.list
try "no such option, with a value" compare_tool no-such-option check --depth=3 panel.list
try "no such option in short" compare_tool no-such-short-option check -d 3 panel.list
try "the start of two options" compare_tool two-options draw --t=1 -o none.png panel.list
try "an option that would do something to a terminal" compare_tool strange-option check $'--de\33pth' panel.list
try "an option in short that would, too" compare_tool strange-short-option check $'-\33' panel.list
try "an option that has no short name" compare_tool no-short-name draw -t tags.png -o none.png panel.list
try "an option without a value that has no short name" compare_tool no-short-exit-code words -e panel.list
try "an option of another command" compare_tool other-option check -o none.png panel.list
try "marks are for repaint" compare_tool draw-marks draw -o none.png --marks marks.png panel.list
try "a timeout is for what draws" compare_tool check-timeout check --timeout 1 panel.list
try "words cannot be quiet" compare_tool words-quiet words -q panel.list
try "an exit code is for words and repaint" compare_tool check-exit-code check --exit-code panel.list
try "help with a value" compare_tool help-with-value check --help=more panel.list
try "quiet with a value" compare_tool quiet-with-value check --quiet=very panel.list
try "an option without its number" compare_tool no-limit check panel.list --limit
try "an option without its number in short" compare_tool no-limit check panel.list -l
try "an option without its size" compare_tool no-size check panel.list -s
try "an option without its seconds" compare_tool no-timeout draw -o none.png panel.list --timeout
try "an option without its file" compare_tool no-ram-g check panel.list --ram-g
try "an output without its file" compare_tool no-output-file draw panel.list -o
try "no output" compare_tool no-output draw panel.list
try "no output of repaint" compare_tool no-output-repaint repaint panel.list panel.list
try "no output of assemble" compare_tool no-output-assemble assemble panel.txt

for case in no-height=800 empty-height=800x third-number=800x480x3 no-width=x480 capital=800X480 negative=-800x480 \
    'blank=800 x480' letters=wide empty= $'strange=8\t00\xFFx480' too-wide=801x272 too-high=480x601 \
    nothing=0x0 no-pixels=480x0 vast=4294967296x18446744073709551617; do
    try "a size of '${case#*=}'" compare_tool "size-${case%%=*}" check -s "${case#*=}" panel.list
done
for case in negative=-1 fraction=3.5 hex=0x10 empty= 0=0 too-high=65537 vast=18446744073709551617; do
    try "a limit of '${case#*=}'" compare_tool "limit-${case%%=*}" check "--limit=${case#*=}" panel.list
done
for case in negative=-1 0=0 too-short=0.0009 too-long=1000000.001 vast=18446744073709551617 letters=1s point=. \
    no-fraction=2. no-seconds=.5 two-points=1.2.3 comma=0,5 empty=; do
    try "a timeout of '${case#*=}'" compare_tool "timeout-${case%%=*}" \
        draw "--timeout=${case#*=}" -o none.png panel.list
done

for seconds in 1000000 1000000.0009 02.5; do
    try "a timeout of '$seconds'" jokulvisp draw -q --timeout "$seconds" -o drawn.png panel.list
done

try "standard input twice" compare_tool input-twice check --ram-g - -
try "standard input twice, by its name" compare_tool input-twice check --ram-g /dev/stdin -
try "standard input twice, by its number" compare_tool input-twice check --ram-g - /dev/fd/0
try "standard input for both lists" compare_tool input-twice-repaint repaint -o none.png - -
try "standard output twice" compare_tool output-twice draw -o - --tags - panel.list
try "standard output for marks and tags" compare_tool output-twice-repaint \
    repaint -o none.png --tags - --marks - panel.list panel.list
try "nothing is written by wrong use" [ "$(find . -name 'none.*')" = '' ]
