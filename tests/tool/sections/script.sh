# shellcheck shell=bash disable=SC2034,SC2154 # what is shared is set and read in different files
# The script tool/run, in a copy of the repository where nothing is built, on a machine without compiler and make.
# Sourced by tests/tool/run.

mkdir -p copy/tool copy/tests bin
cp "$root"/tool/{run,command.c} copy/tool
cp "$root/tests/machine.sh" copy/tests
for program in bash env uname dirname realpath sed fold cat mktemp rm id "${RUN[@]}"; do
    ln -s "$(command -v "$program")" bin/
done

run_script() {
    PATH=$PWD/bin copy/tool/run "$@"
}

# Whether the script helps with the arguments after this exit status, and builds nothing.
help_without_tool() {
    local status=0
    run_script "${@:2}" >helped 2>stderr || status=$?
    [ "$status" -eq "$1" ] && [ ! -s stderr ] && [ ! -e copy/target ] &&
        grep -q '^usage: tool/run COMMAND' helped && grep -q 'ten minutes' helped && grep -q "'rt'" helped &&
        grep -q ' libpng-dev' helped && ! grep '.\{81\}' helped
}

# Whether it names the commands as the tool does.
help_names_commands() {
    run_script --help | grep '^  [a-z]' >commands && jokulvisp --help | grep '^  [a-z]' | grep -v '^  help ' |
        diff -u commands -
}

# Whether it runs a tool that is there, however old.
help_by_tool() {
    local status=0
    mkdir -p copy/target/tool
    cp "$tool" copy/target/tool
    touch -d '2000-01-01' copy/target/tool/jokulvisp
    compare help run_script --help && compare help-draw run_script help draw &&
        compare help-draw run_script draw --help || status=1
    rm -r copy/target
    return "$status"
}

# Whether it goes about to build for these arguments, which it cannot for this reason.
does_not_help() {
    ! run_script "${@:2}" >stdout 2>stderr && [ ! -s stdout ] && grep -q "^$1" stderr
}

try "help without the tool" help_without_tool 0 --help
try "help without the tool, in short" help_without_tool 0 -h
try "help without the tool, by a word" help_without_tool 0 help
try "help with a command without the tool" help_without_tool 0 help draw
try "a command's help without the tool" help_without_tool 0 draw --help
try "a command's help without the tool, in short" help_without_tool 0 draw panel.list -o drawn.png -h
try "no arguments without the tool" help_without_tool 2
try "the commands are those of the tool" help_names_commands
try "help by the tool" help_by_tool
try "no toolchain" does_not_help 'the Rattle toolchain is missing' check panel.list
ln -s "$(type -P true)" bin/rt
try "no packages" does_not_help 'packages are missing' check panel.list
try "no help for a file of that name" does_not_help 'packages are missing' check -- -h
