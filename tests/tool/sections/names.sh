# shellcheck shell=bash disable=SC2034,SC2154 # what is shared is set and read in different files
# The table of names. Sourced by tests/tool/run.

# The header's table of fields and its enums of values, a line for each command and each enum.
print_header_table() {
    awk '/^ \*   DISPLAY +none/ { is_table = 1 }
         /^ \* Bits that belong to no field/ { is_table = 0 }
         is_table && NF > 1 { sub(/^ \*   /, ""); name = $1; sub(/^[^ ]+ +/, ""); sub(/   .*/, ""); print name " " $0 }
         /^enum jv_(test|factor|action|primitive|format|filter|wrap) / { kind = substr($2, 4); line = kind; comma = "" }
         kind != "" && $2 == "=" {
             sub("^JV_" toupper(kind) "_", "", $1); sub(",", "", $3); line = line comma " " $3 " " $1; comma = ","
         }
         kind != "" && /^};/ { print line; kind = "" }' "$root/include/jokulvisp.h" | sort
}

compare_with_header() {
    "${RUN[@]}" ./names print | sort >table.came
    print_header_table | diff -u - table.came
}

try "the table's program builds" build names names.c ../shared/check.c tool/names.c
try "the bitmaps' program builds" build bitmaps bitmaps.c ../shared/check.c ../shared/draw.c \
    tool/{bitmap,follow,list}.c
try "the ends' program builds" build ends ends.c ../shared/check.c ../shared/draw.c ../second/runner.c \
    tool/{follow,list}.c
try "each field of each command, against the library" "${RUN[@]}" ./names
try "each name, against the header" compare_with_header
try "why a bitmap cannot be drawn, against the library" "${RUN[@]}" ./bitmaps
try "where the far end of a line lies, against the library and the second program" "${RUN[@]}" ./ends
