# shellcheck shell=bash disable=SC2034,SC2154 # what is shared is set and read in different files
# What ends the tool early: signals, closed pipes, limits of the system and --timeout; and the progress that a terminal
# shows meanwhile. Sourced by tests/tool/run.

# Prints so many lines of the same words.
repeat() {
    for ((n = 0; n < $1; n++)); do echo "${@:2}"; done
}

# Prints a list of some 400 bytes that draws 29,040 blended rectangles over the whole frame, which takes minutes.
print_slow_list() {
    echo 'CLEAR(1, 1, 1)' && echo 'VERTEX_FORMAT(0)' && echo 'COLOR_A(128)' && echo 'BEGIN(RECTS)'
    repeat 11 'CALL(one)' && echo DISPLAY
    echo one: && repeat 10 'CALL(two)' && echo RETURN
    echo two: && repeat 11 'CALL(three)' && echo RETURN
    echo three: && repeat 24 $'VERTEX2F(0, 0)\nVERTEX2F(799, 599)' && echo RETURN
}

print_slow_list >slow.txt
try "a slow list is assembled" jokulvisp assemble -q -o slow.list slow.txt
try "the slow list draws" jokulvisp check -q slow.list
small=(-s 2x2 small.list)
slow=(-s 800x600 slow.list)

# ---- Pipes that are closed or full -----------------------------------------------------------------------------------

# Draws to a pipe that nobody reads, without what the shell says of a signal.
draw_to_closed_pipe() {
    local status=0
    rm -f pipe
    mkfifo pipe
    # shellcheck disable=SC2094 # a pipe must have a reader to be opened for writing
    exec 7<>pipe 8>pipe 7>&-
    { jokulvisp draw -o - --tags tags.png "${small[@]}" 2>said >&8 || status=$?; } 2>/dev/null
    exec 8>&-
    cat said >&2
    return "$status"
}

# Does so over a file that is there already.
write_to_closed_pipe() {
    echo 'as before' >tags.png
    compare "$1" draw_to_closed_pipe && [ "$(cat tags.png)" = 'as before' ] && has_no_part
}

write_with_pipes_ignored() {
    local with_signals=()
    (trap '' PIPE && write_to_closed_pipe broken-pipe)
}

write_to_many_pipes() {
    for _ in {1..101}; do jokulvisp draw -o - --tags tags.png "${small[@]}" 2>said | true; done
    has_no_part && rm -f tags.png && compare_tool draw-small draw -o /dev/null --tags tags.png "${small[@]}" &&
        [ -s tags.png ]
}

# Each message has a line of its own.
complain_at_once() {
    { printf 'missing-%d\n' {1..60} | xargs -P 4 -n 1 "${RUN[@]}" "$tool" check || true; } 2>&1 | sort -V |
        diff -u <(printf 'jokulvisp: missing-%d: No such file or directory\n' {1..60}) -
}

# Starts the tool such that it waits, with a part beside tags.png, for a reader of a full pipe.
start_before_full_pipe() {
    rm -f pipe said
    mkfifo pipe
    exec 7<>pipe
    dd if=/dev/zero of=pipe bs=512 oflag=nonblock status=none 2>/dev/null || true
    echo 'as before' >tags.png
    "${with_signals[@]}" "${RUN[@]}" "$tool" draw "$@" -o pipe --tags tags.png "${small[@]}" >said 2>&1 &
    for _ in {1..100}; do
        ! compgen -G '.jokulvisp-*.part' >/dev/null || return 0
        sleep 0.05
    done
    return 1
}

# Ends it by a signal.
end_before_full_pipe() {
    local status=0
    start_before_full_pipe && kill "-$1" $! || return
    wait $! 2>/dev/null || status=$?
    exec 7>&-
    [ "$status" -eq "$2" ] && [ ! -s said ] && [ "$(cat tags.png)" = 'as before' ] && has_no_part
}

give_up_before_full_pipe() {
    local status=0
    start_before_full_pipe --timeout 2 || return
    wait $! || status=$?
    exec 7>&-
    [ "$status" -eq 2 ] && diff -u <(echo 'jokulvisp: draw: gave up after 2 seconds (--timeout).') said &&
        [ "$(cat tags.png)" = 'as before' ] && has_no_part
}

# Goes on after a part that a kill has left behind, which it does not touch.
write_after_kill() {
    start_before_full_pipe && kill -KILL $! || return
    wait $! 2>/dev/null || true
    exec 7>&-
    compgen -G '.jokulvisp-*.part' >left && compare_tool draw-small draw -o drawn.png --tags tags.png "${small[@]}" &&
        compgen -G '.jokulvisp-*.part' | diff -u left - && rm .jokulvisp-*.part
}

try "a closed pipe" write_to_closed_pipe closed-pipe
try "a closed pipe, and no signal for it" write_with_pipes_ignored
try "messages of several runs at once" complain_at_once
try "101 pipes that nobody reads" write_to_many_pipes
try "SIGTERM before a full pipe" end_before_full_pipe TERM 143
try "SIGINT before a full pipe" end_before_full_pipe INT 130
try "SIGHUP before a full pipe" end_before_full_pipe HUP 129
try "SIGUSR1 before a full pipe" end_before_full_pipe USR1 138
try "the time is up before a full pipe" give_up_before_full_pipe
try "a kill before a full pipe" write_after_kill

# ---- Limits of the system --------------------------------------------------------------------------------------------

write_under_limit() {
    (ulimit -f 1 && write_and_keep file-too-large draw "${drawn[@]}" panel.list)
}

try "a limit of the files' size" write_under_limit

# ---- Timeouts --------------------------------------------------------------------------------------------------------

# Reads a list that never comes.
wait_for_list() {
    rm -f pipe
    mkfifo pipe
    write_and_keep timeout draw "${drawn[@]}" --timeout 0.2 - <>pipe
}

try "the time is up" write_and_keep timeout draw "${drawn[@]}" --timeout 0.2 "${slow[@]}"
try "the time is up, quietly" write_and_keep timeout draw -q "${drawn[@]}" --timeout 0.2 "${slow[@]}"
try "the time is up at once" write_and_keep timeout-at-once draw "${drawn[@]}" --timeout 0.001 "${slow[@]}"
try "the time is up for reading" wait_for_list
try "the time is up for the old list" write_and_keep timeout-repaint \
    repaint "${repainted[@]}" --timeout 0.2 "${slow[@]}" panel.list
try "the time is up for the new list" write_and_keep timeout-repaint \
    repaint "${repainted[@]}" --timeout 0.2 -s 800x600 panel.list slow.list
try "time enough" compare_tool draw-small draw -o drawn.png --timeout 1000 "${small[@]}"
try "time enough for a fault" write_and_keep check-no-meaning draw "${drawn[@]}" --timeout 1000 no-meaning.list

# ---- Progress --------------------------------------------------------------------------------------------------------

# Runs the tool on a terminal, and gives what that shows: a line for each one that the tool writes, or writes again.
# `terminal` and `behind` stand before and behind it, for the shell on that terminal.
run_on_terminal() {
    local status=0
    SHELL=$(type -P bash) script -qec \
        "${terminal:-} $(printf '%q ' "${RUN[@]}" "$tool" "$@") ${behind:-}" /dev/null </dev/null >shown || status=$?
    tr '\r' '\n' <shown | sed '/^ *$/d' >lines
    return "$status"
}

# Runs it until the time is up, on a terminal, and compares what that shows with a pattern for each line but the last.
show_until_timeout() {
    local status=0
    run_on_terminal "${@:2}" --timeout 2.5 || status=$?
    [ "$status" -eq 2 ] && has_no_part && grep -q "^$1$" lines && ! sed '$d' lines | grep -v "^$1$" &&
        [ "$(tail -n 1 lines)" = "jokulvisp: $2: gave up after 2.5 seconds (--timeout)." ]
}

# Whether the line was erased, by as many blanks as it had characters, before the last words were shown.
is_line_erased() {
    local last
    mapfile -t last < <(tr '\r' '\n' <shown | grep -B 2 'gave up')
    [[ ${last[0]} =~ painted,\ [12]\ s$ ]] && [[ ${last[1]} =~ ^\ +$ ]] && [ ${#last[0]} -eq ${#last[1]} ]
}

# The line is as long as the terminal has room for.
show_on_narrow_terminal() {
    terminal='stty cols 40;' run_on_terminal draw -o drawn.png --timeout 2.5 "${slow[@]}" || [ $? -eq 2 ] || return
    grep -q '^jokulvisp: draw: [0-9]* % of the rows are pai*n*t*$' lines && ! sed '$d' lines | grep '.\{40\}'
}

# What fails has a line of its own, whether progress was shown or not. It takes a second or two.
fail_after_progress() {
    local size=128x64
    [ ${#RUN[@]} -eq 0 ] || size=40x40
    run_on_terminal draw -o /dev/full -s "$size" slow.list || [ $? -eq 2 ] || return
    ! sed '$d' lines | grep -v '^jokulvisp: draw: [0-9]* % of the rows are painted, [0-9]* s$' &&
        [ "$(tail -n 1 lines)" = 'jokulvisp: /dev/full: No space left on device' ]
}

show_nothing_when_quiet() {
    run_on_terminal draw -q -o drawn.png --timeout 2.5 "${slow[@]}" || [ $? -eq 2 ] || return
    diff -u <(echo 'jokulvisp: draw: gave up after 2.5 seconds (--timeout).') lines
}

# A shell that controls jobs gives one in the background a group of its own.
show_nothing_in_background() {
    terminal='set -m;' behind='& wait' run_on_terminal draw -o drawn.png --timeout 2.5 "${slow[@]}" || return
    diff -u <(echo 'jokulvisp: draw: gave up after 2.5 seconds (--timeout).') <(grep jokulvisp: lines)
}

# Draws on a terminal row by row what is otherwise painted at once.
draw_on_terminal() {
    jokulvisp draw -q -o at-once.png --tags tags-at-once.png panel.list &&
        run_on_terminal draw "${drawn[@]}" panel.list && cmp drawn.png at-once.png && cmp tags.png tags-at-once.png &&
        diff -u <(sed -n '/^done/,/^The/p' "$here/expect/draw-panel") lines
}

# A fault is told as it is elsewhere.
fail_on_terminal() {
    local status=0
    run_on_terminal draw "${drawn[@]}" no-meaning.list || status=$?
    [ "$status" -eq 1 ] && diff -u <(sed '1,2d; /^-- standard error/,$d' "$here/expect/check-no-meaning") lines
}

# Some machines have no terminals to give.
if script -qec true /dev/null </dev/null >/dev/null 2>&1; then
    try "progress of draw" show_until_timeout 'jokulvisp: draw: [0-9]* % of the rows are painted, [12] s' \
        draw -o drawn.png "${slow[@]}"
    try "the line is erased" is_line_erased
    try "progress of repaint, the old list" show_until_timeout \
        "jokulvisp: repaint: [0-9]* % of the old list's rows are painted, [12] s" \
        repaint -o drawn.png "${slow[@]}" panel.list
    try "progress of repaint, the new list" show_until_timeout \
        'jokulvisp: repaint: repainting, [12] s' repaint -o drawn.png -s 800x100 panel.list slow.list
    try "progress on a narrow terminal" show_on_narrow_terminal
    try "a failure after progress" fail_after_progress
    try "no progress for the quiet" show_nothing_when_quiet
    try "no progress in the background" show_nothing_in_background
    try "a picture is the same on a terminal" draw_on_terminal
    try "a fault on a terminal" fail_on_terminal
else
    echo "there is no terminal here, and progress is not tested"
fi
try "no progress where there is no terminal" write_and_keep timeout-later draw "${drawn[@]}" --timeout 1.3 "${slow[@]}"
