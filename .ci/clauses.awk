# The check of .ci/clauses: MODEL.md in the first pass, MODEL.md and every file that may cite it in the second.

function bad(where, what) { print where ": " what; failed = 1 }

# Looks up one clause that was cited.
function cite(id, where) {
    if (!(id in clause)) bad(where, "MODEL " id " is no clause of docs/MODEL.md")
    else if (kind == "spec" || (kind == "code" && id ~ /^X/)) stated[id] = 1
}

# The clauses between two that a range names. Numbers may have gaps.
function between(low, high, where,    k) {
    if (substr(low, 1, 1) != substr(high, 1, 1)) bad(where, "no range: " low " to " high)
    for (k = substr(low, 2) + 1; k < substr(high, 2) + 0; k++)
        if ((substr(low, 1, 1) k) in clause) cite(substr(low, 1, 1) k, where)
}

# Looks up every citation of a text; answers how many there are.
function citations(text, where,    n, id, more) {
    for (n = 0; match(text, /MODEL [A-Z][0-9]+/); n++) {
        id = substr(text, RSTART + 6, RLENGTH - 6)
        text = substr(text, RSTART + RLENGTH)
        cite(id, where)
        while (match(text, /^(, and |, | and | to )[A-Z][0-9]+/)) {
            more = substr(text, 1, RLENGTH)
            text = substr(text, RLENGTH + 1)
            if (more ~ /^ to /) between(id, substr(more, 5), where)
            id = more
            sub(/^.* /, "", id)
            cite(id, where)
        }
    }
    return n
}

# The comment that was read so far is whole, and a line follows it.
function end_of_comment(line, where,    n) {
    n = citations(text, where)
    text = ""
    found += n
    if (kind == "spec" && !n && line ~ /^((abbrev|unfoldable) )?(pub )?((record|data) )?[^ =]+( [^=]*)?:( |$)/)
        bad(where, "a definition without a clause: " line)
}

function end_of_file() {
    end_of_comment("", name)
    if (kind == "cites" && !found) bad(name, "no clause is cited")
    found = 0
}

# What is asked of a file: that its definitions cite, that it cites somewhere, or only that what it cites is there. A clause on
# calls and programs may stand at a function.
function kind_of(file) {
    if (file ~ /^crates\/[^\/]*\/specs\//) return "spec"
    if (file ~ /^crates\/[^\/]*\/src\//) return "code"
    if (file ~ /\.edit$/ || file ~ /^examples\/.*\.txt$/) return "cites"
    return "free"
}

pass == 1 {
    rest = $0
    while (match(rest, /\*\*[A-Z][0-9]+\*\*/)) {
        id = substr(rest, RSTART + 2, RLENGTH - 4)
        rest = substr(rest, RSTART + RLENGTH)
        if (id in clause) bad(FILENAME ":" FNR, id " stands twice")
        clause[id] = FILENAME ":" FNR
        letter[substr(id, 1, 1)] = 1
    }
    next
}

pass == 2 && FNR == 1 {
    if (name != "") end_of_file()
    name = FILENAME
    kind = kind_of(name)
}

# MODEL.md names its clauses without the word, and SESSIONS.md does so in brackets. F0 is a bit of PMUACR_EL1.
function bare(text, where,    n, i, word) {
    n = split(text, word, /[^A-Za-z0-9_<>]+/)
    for (i = 1; i <= n; i++)
        if (word[i] ~ /^[A-Z][0-9]+$/ && word[i] != "F0" && substr(word[i], 1, 1) in letter && !(word[i] in clause))
            bad(where, word[i] " is no clause")
}

FILENAME == "docs/MODEL.md" {
    bare($0, FILENAME ":" FNR)
    next
}

FILENAME == "docs/SESSIONS.md" {
    rest = $0
    while (match(rest, /\([A-Z][0-9]+[^)]*\)/)) {
        bare(substr(rest, RSTART, RLENGTH), FILENAME ":" FNR)
        rest = substr(rest, RSTART + RLENGTH)
    }
}

# In a file that is only looked up every line is text, so that a citation may go on in the next line.
{
    line = $0
    if ((kind == "spec" || kind == "cites") && line !~ /^ *(--|#)/) end_of_comment(line, FILENAME ":" FNR)
    else {
        sub(/^ *(--|#|\/\/[\/!]?|\*) ?/, "", line)
        text = text " " line
    }
}

END {
    end_of_file()
    for (id in clause) {
        clauses++
        if (!(id in stated)) bad(clause[id], id " is stated by no definition")
    }
    if (!failed) print "clauses: " clauses " in docs/MODEL.md, each stated by a definition, and no definition without one"
    exit failed
}
