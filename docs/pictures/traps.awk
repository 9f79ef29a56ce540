# The orders of traps: the start that all accesses have in common, then a column for each table.

BEGIN {
    MARGIN = 20
    RULE = 296 # the width of a rule,
    ARROW = 30 # of the arrow to its stop,
    STOP = 188 # of the stop,
    BAND = 52 # and of its coloured band
    COLUMN = 546 # from one column to the next
    COLUMNS = split("T I N", table, " ") # one for each table
    WIDE = 2 * MARGIN + (COLUMNS - 1) * COLUMN + RULE + ARROW + STOP
    STEP = 32 # from a rule to the next,
    SHORT = 22 # and where nothing is said between
    paint("undefined", "undef", "#E1E4E8", INK)
    paint("EL1", "EL1", "#F0B429", INK)
    paint("EL2", "EL2", "#0072B2", WHITE)
    paint("EL3", "EL3", "#6B2207", WHITE)
}

# A target's colours: the higher the level, the darker, so that they differ in grey too.
function paint(target, word, ground, letters) {
    label[target] = word
    fill[target] = ground
    ink[target] = letters
}

# Who a stop leads to, in the order of its words: undefined, or the levels behind "to" and "at".
function targets(said, list,    n, found) {
    n = 0
    while (match(said, /undefined|(to|at) EL[1-3]/)) {
        found = substr(said, RSTART, RLENGTH)
        said = substr(said, RSTART + RLENGTH)
        sub(/^(to|at) /, "", found)
        list[++n] = found
    }
    return n
}

# The lines of a rule's conditions: their number, the lines in `line`; first[i] where line i begins a condition.
function conditions(t, line, first,    n, i, j, k, m, part, some) {
    n = 0
    k = split(t, part, "; ")
    for (i = 1; i <= k; i++) {
        m = wrap(part[i], RULE - 40, 14, some)
        first[n + 1] = 1
        for (j = 1; j <= m; j++) line[++n] = some[j]
    }
    return n
}

# The lines of a stop, and of what a further column says of it: their number.
function stop_lines(s, r, line,    n, m, i, some) {
    n = wrap(cell[s, r, 4], STOP - BAND - 16, 13, line)
    if (cell[s, r, 5] == "") return n
    m = wrap(cell[s, 0, 5] " " cell[s, r, 5], STOP - BAND - 16, 13, some)
    for (i = 1; i <= m; i++) line[++n] = some[i]
    return n
}

# A stop at x, its middle at y: a band in the colours of its targets, and n lines.
function stop(x, y, said, line, n,    h, i, k, from, to, list) {
    h = 17 * n + 16
    y = int(y - h / 2)
    box(x, y, STOP, h, WHITE)
    k = targets(said, list)
    for (i = 1; i <= k; i++) {
        from = y + int((i - 1) * h / k)
        to = y + int(i * h / k)
        box(x, from, BAND, to - from, fill[list[i]])
        badge(x, int((from + to) / 2), list[i])
    }
    for (i = 1; i <= n; i++) text(x + (k ? BAND : 0) + 10, y + 4 + 17 * i, 13, INK, line[i])
}

# What stands in a band, its middle at y.
function badge(x, y, target) {
    text(x + BAND / 2, y + 4, 12, ink[target], label[target], " font-weight=\"bold\" text-anchor=\"middle\"")
}

function levels(t) { return (t ~ /^[0-9]$/ ? "level " : "levels ") t }

# Row r of table s as a box at x, from y down, with its stop beside it: the height that they take.
function rule(s, r, x, y,    n, m, h, i, line, first, stopped, list) {
    if (!targets(cell[s, r, 4], list)) fail("the stop of " cell[s, r, 1] " is neither undefined nor to or at a level")
    n = conditions(cell[s, r, 3], line, first)
    m = stop_lines(s, r, stopped)
    h = larger(19 * n + 42, 17 * m + 16)
    box(x, y, RULE, h, WHITE)
    box(x, y, RULE, 26, PALE)
    text(x + 12, y + 18, 14, INK, cell[s, r, 1], " font-weight=\"bold\"")
    text(x + RULE - 12, y + 18, 13, INK, levels(cell[s, r, 2]), " text-anchor=\"end\"")
    for (i = 1; i <= n; i++) {
        if (i in first) put(sprintf("<circle cx=\"%d\" cy=\"%d\" r=\"2\" fill=\"%s\"/>", x + 16, y + 23 + 19 * i, SOFT))
        text(x + 26, y + 28 + 19 * i, 14, INK, line[i])
    }
    right(x + RULE, y + int(h / 2), x + RULE + ARROW)
    stop(x + RULE + ARROW, y + int(h / 2), cell[s, r, 4], stopped, m)
    return h
}

function pill(x, y, t) {
    box(x, y, RULE, 34, PALE, " rx=\"17\"")
    text(x + RULE / 2, y + 22, 14, INK, t, " font-weight=\"bold\" text-anchor=\"middle\"")
}

# The column of table s, with the arrow into it: where it ends.
function column(s, x, y, permitted,    r, head) {
    head = title[s]
    sub(/^Traps of /, "", head)
    down(x + RULE / 2, y, y + SHORT)
    pill(x, y + SHORT, head)
    down(x + RULE / 2, y + SHORT + 34, y + SHORT + 34 + SHORT)
    y += SHORT + 34 + SHORT
    for (r = 1; r <= rows[s]; r++) {
        y += rule(s, r, x, y)
        down(x + RULE / 2, y, y + STEP)
        text(x + RULE / 2 + 10, y + STEP / 2 + 4, 12, SOFT, "does not apply")
        y += STEP
    }
    pill(x, y, permitted)
    return y + 34
}

# How a part of A2 that comes before the order of traps is answered.
function answer_of(part) {
    if (part ~ /refusal/ && match(need_clause("V3"), /R[0-9]+ to R[0-9]+/))
        return "refused, " substr(clause["V3"], RSTART, RLENGTH)
    if (part ~ /^undefined/) return "undefined"
    if (part ~ /^other/) return "other"
    fail("how a part of A2 is answered is not known: " part)
}

# The parts of A2 before the order of traps, one below the other: where they end.
function start(x, y, part, n,    i, line) {
    for (i = 1; i <= n; i++) {
        down(x + RULE / 2, y, y + SHORT)
        y += SHORT
        box(x, y, RULE, 34, WHITE)
        text(x + RULE / 2, y + 22, 14, INK, part[i], " text-anchor=\"middle\"")
        right(x + RULE, y + 17, x + RULE + ARROW)
        line[1] = answer_of(part[i])
        stop(x + RULE + ARROW, y + 17, line[1], line, 1)
        y += 34
    }
    return y
}

# What the colours say, at the right of the start.
function legend(x, y,    i, name, k) {
    text(x, y, 13, INK, "Where it leads", " font-weight=\"bold\"")
    k = split("undefined EL1 EL2 EL3", name, " ")
    for (i = 1; i <= k; i++) {
        y += 26
        box(x, y - 15, BAND, 20, fill[name[i]])
        badge(x, y - 4, name[i])
        text(x + BAND + 10, y, 13, INK, i == 1 ? name[i] : "trap to " name[i])
    }
}

# How to read it, at the left of the start.
function hints(x, y,    i, k, line) {
    text(x, y, 13, INK, "How to read it", " font-weight=\"bold\"")
    k = wrap("From the top, the first box that applies decides. A rule is for the levels in its head, and applies where" \
        " all its lines hold. The line of a trap ends with the cause. A letter with a number is a clause of MODEL.md.", \
        230, 13, line)
    for (i = 1; i <= k; i++) text(x, y + 6 + 19 * i, 13, INK, line[i])
}

# A table in words, for those who do not see the picture.
function told(s,    r, t) {
    t = " " title[s] ":"
    for (r = 1; r <= rows[s]; r++)
        t = t " " cell[s, r, 1] ", " levels(cell[s, r, 2]) ", where " cell[s, r, 3] ": " cell[s, r, 4] \
            (cell[s, r, 5] == "" ? "" : ", " cell[s, 0, 5] " " cell[s, r, 5]) "."
    return t
}

END {
    for (k = 1; k <= COLUMNS; k++) need_table(table[k], 5, 5)
    order = need_clause("A2")
    sub(/^[^:]*: /, "", order)
    parts = split(order, part, "; ")
    for (common = 0; common < parts && part[common + 1] !~ /order of traps/; ) common++
    permitted = part[parts]
    if (common + 2 != parts || !sub(/^else it is /, "", permitted)) fail("A2 does not end with the order of traps; else it is ..")
    sub(/\.$/, "", permitted)

    name = "Who stops an access, in which order, who gets the trap, and its cause"
    text(MARGIN, 36, 20, INK, name, " font-weight=\"bold\"")
    middle = MARGIN + int((COLUMNS - 1) * COLUMN / 2)
    pill(middle, 64, "an access (A1)")
    y = start(middle, 98, part, common)
    legend(middle + COLUMN + 10, 120)
    hints(MARGIN, 120)
    path(sprintf("M%d.5 %dv%dM%d.5 %d.5h%d", middle + RULE / 2, y, SHORT, MARGIN + RULE / 2, y + SHORT, (COLUMNS - 1) * COLUMN))
    for (k = 1; k <= COLUMNS; k++) {
        lowest = larger(lowest, column(table[k], MARGIN + (k - 1) * COLUMN, y + SHORT, permitted))
        said = said told(table[k])
    }
    print_picture(WIDE, lowest + MARGIN, name, "In order: " order said)
}
