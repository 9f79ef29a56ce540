# Drawing. What is drawn is collected in `picture`, since its height is known at the end only. Lengths are pixels; a function
# that draws from y down returns where it ends, or how high it is.

BEGIN {
    SANS = "-apple-system, Segoe UI, Helvetica, Arial, Liberation Sans, sans-serif"
    MONO = "Menlo, Consolas, Liberation Mono, DejaVu Sans Mono, monospace"
    WHITE = "#FFFFFF"
    INK = "#1F2328"
    SOFT = "#57606A"
    LINE = "#8C959F"
    PALE = "#F3F5F7"
}

function larger(a, b) { return a > b ? a : b }

function escaped(t) {
    gsub(/&/, "\\&amp;", t)
    gsub(/</, "\\&lt;", t)
    gsub(/>/, "\\&gt;", t)
    gsub(/"/, "\\&quot;", t)
    return t
}

# About how wide a text is at most: the widths of a wide sans-serif face, in hundredths of its size. The further bytes of a
# character that has several take no room.
function width(t, size,    i, c, sum) {
    sum = 0
    for (i = 1; i <= length(t); i++) {
        c = substr(t, i, 1)
        if (c ~ /[\200-\277]/) continue
        if (index("ijlI.,:;|! ", c)) sum += 33
        else if (index("frt()[]/-", c)) sum += 40
        else if (index("mwMW<>=", c)) sum += 92
        else sum += c ~ /[A-Z]/ ? 72 : 62
    }
    return sum * size / 100
}

# The words of a text with a space between them. One that is too long for the room is parted behind each mark in it, and its
# later parts have \001 before them.
function parted(t, mark, room, size,    i, k, word) {
    k = split(t, word, " ")
    t = ""
    for (i = 1; i <= k; i++) {
        if (width(word[i], size) > room) gsub(mark, "& \001", word[i])
        t = t " " word[i]
    }
    return t
}

# Words as lines that fit the room, each filled before the next: their number, the lines in `line`.
function filled(t, room, size, line,    n, i, k, word, glue, last) {
    n = 0
    last = ""
    k = split(t, word, " ")
    for (i = 1; i <= k; i++) {
        glue = sub(/^\001/, "", word[i]) || last == "" ? "" : " "
        if (last != "" && width(last glue word[i], size) > room) {
            line[++n] = last
            last = word[i]
        } else last = last glue word[i]
    }
    if (last != "") line[++n] = last
    return n
}

# A text as lines that fit the room, no more than it needs and of about one length: their number, the lines in `line`.
function wrap(t, room, size, line,    n) {
    t = parted(parted(t, "[.]", room, size), "_", room, size)
    n = filled(t, room, size, line)
    while (room > 0 && filled(t, room - 4, size, line) == n) room -= 4
    return filled(t, room, size, line)
}

function put(t) { picture = picture t "\n" }

function text(x, y, size, colour, t, more) {
    put(sprintf("<text x=\"%d\" y=\"%d\" font-size=\"%d\" fill=\"%s\"%s>%s</text>", x, y, size, colour, more, escaped(t)))
}

function box(x, y, w, h, colour, more) {
    put(sprintf("<rect x=\"%d.5\" y=\"%d.5\" width=\"%d\" height=\"%d\" fill=\"%s\" stroke=\"%s\"%s/>", \
        x, y, w, h, colour, LINE, more))
}

function path(d) { put("<path d=\"" d "\" fill=\"none\" stroke=\"" SOFT "\"/>") }

function down(x, y, to) { path(sprintf("M%d.5 %dV%dm-4 -7l4 7l4 -7", x, y, to)) }

function right(x, y, to) { path(sprintf("M%d %d.5H%dm-7 -4l7 4l-7 4", x, y, to)) }

function print_picture(w, h, name, description) {
    printf "<svg xmlns=\"http://www.w3.org/2000/svg\" width=\"%d\" height=\"%d\" viewBox=\"0 0 %d %d\"", w, h, w, h
    printf " font-family=\"%s\" role=\"img\" aria-labelledby=\"title desc\">\n", SANS
    printf "<title id=\"title\">%s</title>\n<desc id=\"desc\">%s</desc>\n", escaped(name), escaped(description)
    printf "<rect width=\"%d\" height=\"%d\" fill=\"%s\"/>\n", w, h, WHITE
    print picture "</svg>"
}
