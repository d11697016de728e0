# Reads an edit file, and of each of its wrong answers what the prover said, and prints a line for each, in fields between
# tabs:
#
#   SHOWN NAME FUNCTION NEED CHEAT WHAT      refused for a fact, and where
#   BAD NAME - - - WHAT                      shows nothing, and why
#
# The edit file's crate and name are given as `crate` and `label`, the folder where a log of each answer lies as `logs`, and
# document 01's cheats as CHEATS in the environment.

function told(verdict, called, where, fact, which, what) {
    print verdict "\t" crate "/" called "\t" where "\t" fact "\t" which "\t" what
}

function bad(what) {
    told("BAD", name == "" ? label : name, "-", "-", "-", what)
    spoiled[count] = 1
}

function after(start) { return substr($0, length(start) + 1) }

BEGIN { cheats = "\n" ENVIRON["CHEATS"] "\n" }

# ---- The edit file ----

function end_answer() {
    if (name == "") return
    if (pairs == 0) bad("it changes nothing")
    else if (breaks[count] == "") bad("no line says what it breaks")
}

/^wrong: / {
    end_answer()
    name = sentence = after("wrong: ")
    sub(/:.*/, "", name)
    names[++count] = name
    pairs = 0
    if (!sub(/^[a-z0-9_]+: */, "", sentence) || sentence == "") bad("no sentence says what the wrong program does")
}

/^breaks: / {
    if (name == "" || breaks[count] != "") bad("a line 'breaks:' that belongs to no wrong answer")
    if (broken[$2, $3] || broken[$2, ""] || ($3 == "" && is_broken[$2]))
        bad("another wrong answer of this file breaks " $2 ": either hides the other")
    broken[$2, $3] = is_broken[$2] = 1
    breaks[count] = $2
    need[count] = $3
}

/^cheat: / {
    cheat[count] = after("cheat: ")
    if (name == "") bad("a line 'cheat:' that belongs to no wrong answer")
    if (!index(cheats, "\n" cheat[count] "\n")) bad("document 01 has no such cheat: " cheat[count])
}

/^new:/ {
    if (name == "") bad("a change without a name")
    pairs++
}

# ---- What the prover said ----

# What an error says: a fact that does not hold, a name that is not there, or that another error came before it.
function kind_of(message) {
    if (message ~ /which was (rejected|not admitted)|was not admitted/) return "follows"
    if (message ~ /that can be named from here|is not in scope|has no field|that this goal does not ask|exports no/) return "name"
    if (message ~ /the two (types|sides)|expected type|does not follow|one side reads|no proof of|did not prove|no proof was found/) return "fact"
    if (message ~ /no occurrence of|no part of the goal|give a proof of that|list the missing equation/) return "fact"
    return "unknown"
}

function note_error(where, fact, at, kind) {
    error_where[++errors] = where
    error_fact[errors] = fact
    error_at[errors] = at
    error_kind[errors] = kind
    if (kind == "name") has_name[where] = 1
}

# A place in a file of the crate, as 'proofs/sign/Answers.antt:17:12'.
function place(word) {
    sub(/:$/, "", word)
    sub(/^\.\//, "", word)
    return word
}

# The function whose proof a file holds, or else the file: a law or a definition.
function owner(file) {
    if (sub(/\/(Answers|Invariants|Proof)\.antt$/, "", file)) sub(/^proofs\//, "", file)
    return file
}

function read_line(line,    words, where, message, fact, i) {
    split(line, words, " ")
    # An error in what is written down.
    if (line ~ /^[^ ]*\.antt:[0-9]+:[0-9]+: error: /) {
        where = place(words[1])
        sub(/:.*/, "", where)
        message = substr(line, index(line, ": error: ") + 9)
        fact = match(message, /^`[^`]*`/) ? substr(message, 2, RLENGTH - 2) : ""
        note_error(owner(where), fact, place(words[1]), kind_of(message))
    # A goal that the prover's own search has not closed: where in the code, and on a later line for which function. Where it
    # knows values for which the goal is false, the line says so.
    } else if (line ~ /^note: [^ ]*\.rt:[0-9]+:[0-9]+: it is not proved that / && match(line, /\(`[^`]*`\)/)) {
        waiting_fact[++waiting] = substr(line, RSTART + 2, RLENGTH - 4)
        waiting_at[waiting] = place(words[2])
        waiting_false[waiting] = line ~ /allow values at which this goal is false/
    } else if (line ~ /^fn [^ ]*: /) {
        where = words[2]
        sub(/:$/, "", where)
        sub(/^[^:]*::/, "", where)
        gsub(/::/, "/", where)
        # Where the proof names what is not there, a goal may be open for the name alone.
        for (i = 1; i <= waiting; i++)
            note_error(where, waiting_fact[i], waiting_at[i], has_name[where] && !waiting_false[i] ? "name" : "fact")
        if (line ~ /it calls .*, which (is|are) not proved/) note_error(where, "", "", "follows")
        waiting = 0
    } else if (line ~ /^not made: /) {
        why_not = substr(line, 11)
    }
}

# Reads an answer's log, and says whether there is one.
function read_log(file,    line, lines, got) {
    errors = waiting = 0
    why_not = ""
    split("", has_name)
    while ((got = getline line < file) > 0) {
        read_line(line)
        lines++
    }
    close(file)
    return lines > 0
}

# ---- Both together ----

# Whether an error in the function's own proof is about what the wrong answer is to break there. A goal of several clauses
# may be asked clause by clause.
function is_meant(k, i) {
    return need[k] == "" ? error_fact[i] !~ /-requires(-|$)/ : error_fact[i] == need[k] || index(error_fact[i], need[k] "-clause-") == 1
}

function judge(k,    i, kind, own, other, elsewhere, follows, why) {
    if (!read_log(logs "/" names[k] ".log")) {
        told("BAD", names[k], "-", "-", "-", "nothing is left of it in " logs ": tests/wrong_answers/try has not looked at it")
        return
    }
    if (why_not != "") {
        told("BAD", names[k], "-", "-", "-", "it cannot be made: " why_not)
        return
    }
    for (i = 1; i <= errors; i++) {
        kind = error_kind[i]
        if (kind == "follows") {
            if (error_where[i] == breaks[k]) follows = 1
        } else if (error_where[i] != breaks[k]) {
            if (!index(", " elsewhere ", ", ", " error_where[i] ", ")) elsewhere = elsewhere (elsewhere == "" ? "" : ", ") error_where[i]
        } else if (kind == "name") {
            if (own == "") own = " by a name only, so that its proof no longer fits the code, at " error_at[i]
        } else if (!is_meant(k, i)) {
            if (!index(other " and ", " " error_fact[i] " and ")) other = other (other == "" ? " at " : " and ") error_fact[i]
        } else if (kind == "fact") {
            told("SHOWN", names[k], breaks[k], error_fact[i], cheat[k] == "" ? "-" : cheat[k],
                "refused in " breaks[k] ", " error_fact[i] " (" error_at[i] ")")
            return
        } else if (own == "") {
            own = " by an error of no known kind, at " error_at[i]
        }
    }
    if (other != "") why = breaks[k] " breaks" other " only"
    else if (own != "") why = breaks[k] " breaks" own
    else if (follows) why = breaks[k] " only follows, and what breaks is " elsewhere
    else why = "nothing breaks in " breaks[k] (elsewhere == "" ? "" : ", only in " elsewhere)
    told("BAD", names[k], "-", "-", "-", why)
}

END {
    end_answer()
    if (count + pairs == 0) bad("no wrong answer is in it")
    for (k = 1; k <= count; k++) if (!spoiled[k]) judge(k)
}
