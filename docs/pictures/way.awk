# A word's way: a box for each step, and at the arrow below it what the step gives.

BEGIN {
    WIDE = 620
    MARGIN = 20
    BOX = WIDE - 2 * MARGIN
    CRATE = MARGIN + 42
    FUNCTION = MARGIN + 185
    DEFINITION = MARGIN + 380
    MONOSPACED = " font-family=\"" MONO "\""
    WAY = "From a session's bytes to a line"
}

/^ +03 .* value / && example == "" { example = plain($0) }

# An end of the way, bytes or a line: where it ends.
function tip(y, t, what) {
    box(MARGIN, y, BOX, 36, PALE, " rx=\"18\"")
    text(MARGIN + 20, y + 23, 14, INK, t, MONOSPACED)
    text(MARGIN + BOX - 20, y + 23, 13, SOFT, what, " text-anchor=\"end\"")
    return y + 36
}

# An arrow from y down with what is given beside it: where it ends.
function arrow(y, t,    i, n, line) {
    n = wrap(t, BOX - 60, 13, line)
    for (i = 1; i <= n; i++) text(CRATE, y + 5 + 17 * i, 13, INK, line[i])
    down(MARGIN + 23, y, y + 17 * n + 19)
    return y + 17 * n + 19
}

# The arrow from the bytes to the first step, with the table's head beside it: where it ends.
function head(y) {
    text(CRATE, y + 22, 13, SOFT, cell[WAY, 0, 2])
    text(FUNCTION, y + 22, 13, SOFT, cell[WAY, 0, 3])
    text(DEFINITION, y + 22, 13, SOFT, cell[WAY, 0, 4])
    down(MARGIN + 23, y, y + 36)
    return y + 36
}

# Row r as a box, from y down: where it ends. Its crates stand one below the other, and so do its functions and definitions.
function step(r, y,    i, k, n, m, h, crate, made, defined) {
    k = split(cell[WAY, r, 2], crate, ", ")
    n = split(cell[WAY, r, 3], made, ", ")
    m = split(cell[WAY, r, 4], defined, ", ")
    h = 18 * larger(k, larger(n, m)) + 18
    box(MARGIN, y, BOX, h, WHITE)
    text(MARGIN + 20, y + 23, 13, SOFT, cell[WAY, r, 1])
    for (i = 1; i <= k; i++) text(CRATE, y + 5 + 18 * i, 14, INK, crate[i], " font-weight=\"bold\"")
    for (i = 1; i <= n; i++) text(FUNCTION, y + 5 + 18 * i, 13, INK, made[i], MONOSPACED)
    for (i = 1; i <= m; i++) text(DEFINITION, y + 5 + 18 * i, 13, SOFT, defined[i], MONOSPACED)
    return y + h
}

END {
    need_table(WAY, 5, 5)
    if (split(example, side, /   +/) != 2) fail("the worked session of MODEL.md has no access that is answered with a value")
    sub(/ v:[0-9]+$/, " …", side[1])
    name = "A word's way from a session's bytes to a line"
    text(MARGIN, 36, 18, INK, name, " font-weight=\"bold\"")
    y = head(tip(56, side[1], "bytes of a session"))
    for (r = 1; r <= rows[WAY]; r++) {
        y = arrow(step(r, y), cell[WAY, r, 5])
        told = told " " cell[WAY, r, 2] " (" cell[WAY, r, 3] ") gives " cell[WAY, r, 5] "."
    }
    y = tip(y, side[2], "its line")
    print_picture(WIDE, y + MARGIN, name, side[1] " becomes " side[2] "." told)
}
