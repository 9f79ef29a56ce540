# Reading. cell[s, r, c], rows[s] and columns[s, r] are the first table of section s, row 0 its head; title[s] is its heading,
# and s the letter of a heading such as "T. Traps of ..", else the whole heading. clause[id] is the text of a clause in a list.

/^## / { open_section(substr($0, 4)) }
/^\|/ { read_row($0); next }
(section in rows) { closed[section] = 1 }
/^- \*\*/ { id = plain($2); clause[id] = plain(substr($0, length($2) + 4)); next }
/^  [^ ]/ && id != "" { clause[id] = clause[id] " " plain($0); next }
{ id = "" }

function open_section(heading) {
    section = heading ~ /^[A-Z]\. / ? substr(heading, 1, 1) : heading
    sub(/^[A-Z]\. /, "", heading)
    title[section] = heading
}

function read_row(line,    n, i, r, part) {
    if ((section in closed) || line ~ /^[|: -]+$/) return
    r = (section in rows) ? rows[section] + 1 : 0
    n = split(line, part, "|")
    for (i = 2; i < n; i++) cell[section, r, i - 1] = plain(part[i])
    columns[section, r] = n - 2
    rows[section] = r
}

# Without the marks of Markdown and the spaces around it.
function plain(t) {
    gsub(/\*\*|`/, "", t)
    sub(/^ +/, "", t)
    sub(/ +$/, "", t)
    return t
}

function fail(message) {
    print "docs/draw: " message >"/dev/stderr"
    exit 1
}

# Section s has a table, its head has from least to most columns, and each row has as many as the head.
function need_table(s, least, most,    r) {
    if (!(s in rows) || rows[s] == 0) fail("no table in section \"" s "\" of " FILENAME)
    if (columns[s, 0] < least || columns[s, 0] > most)
        fail("the table of section \"" s "\" has " columns[s, 0] " columns, not " least)
    for (r = 1; r <= rows[s]; r++)
        if (columns[s, r] != columns[s, 0])
            fail("row " r " of the table of section \"" s "\" has " columns[s, r] " columns, its head " columns[s, 0])
}

function need_clause(id) {
    if (!(id in clause)) fail("no clause " id)
    return clause[id]
}
