# Draws the table of the benchmark as a bar chart: SVG on standard output. -v measured= is the line on date and machine.
# A group for each kernel, a bar for each side. In a group the slowest side has the longest bar.
BEGIN {
    FS = "|"
    sides = split("library,plain C,libfec,VOLK,osmocore", side, ",")
    split("#1f5fa8,#a8adb3,#d98324,#5b9a5b,#8a63a8", colour, ",")
    left = 190; longest = 470; width = 820; bar = 11; step = 13; gap = 9; top = 92
    n = 0
}

# A line of the table: name, instructions, times, ratios. The times are numbers, or - where there is no such side.
NF == 4 && $3 ~ /[0-9]/ {
    n++
    name[n] = $1
    sub(/ +$/, "", name[n])
    split($3, t, " ")
    for (s = 1; s <= sides; s++)
        if (t[s] != "-") {
            time[n, s] = t[s]
            there[s] = 1
            if (t[s] > slowest[n])
                slowest[n] = t[s]
        }
}

function text(x, y, anchor, s) {
    gsub(/&/, "\\&amp;", s)
    gsub(/</, "\\&lt;", s)
    printf "<text x=\"%d\" y=\"%d\" text-anchor=\"%s\">%s</text>\n", x, y, anchor, s
}

function rectangle(x, y, w, h, fill) {
    printf "<rect x=\"%d\" y=\"%d\" width=\"%.1f\" height=\"%d\" fill=\"%s\"/>\n", x, y, w, h, fill
}

# A time in nanoseconds, its thousands apart.
function nanoseconds(v,    s, whole) {
    if (v < 100)
        return sprintf("%.1f ns", v)
    whole = sprintf("%.0f", v)
    s = ""
    while (length(whole) > 3) {
        s = "," substr(whole, length(whole) - 2) s
        whole = substr(whole, 1, length(whole) - 3)
    }
    return whole s " ns"
}

END {
    height = top
    for (i = 1; i <= n; i++) {
        height += gap
        for (s = 1; s <= sides; s++)
            if ((i, s) in time)
                height += step
    }
    height += 14
    printf "<svg xmlns=\"http://www.w3.org/2000/svg\" width=\"%d\" height=\"%d\" viewBox=\"0 0 %d %d\" font-family=\"sans-serif\" font-size=\"12\" fill=\"black\">\n", width, height, width, height
    rectangle(0, 0, width, height, "white")
    printf "<g font-size=\"16\">\n"
    text(12, 24, "start", "Time for one block: a shorter bar is faster")
    printf "</g>\n"
    text(12, 42, "start", "In each group the slowest side has the longest bar. In brackets: how many times the library's time.")
    text(12, 58, "start", measured)
    x = left
    for (s = 1; s <= sides; s++)
        if (there[s]) {
            rectangle(x, 72, 12, bar, colour[s])
            text(x + 18, 82, "start", side[s])
            x += 100
        }
    y = top
    for (i = 1; i <= n; i++) {
        y += gap
        text(left - 10, y + bar - 1, "end", name[i])
        for (s = 1; s <= sides; s++)
            if ((i, s) in time) {
                w = longest * time[i, s] / slowest[i]
                rectangle(left, y, w, bar, colour[s])
                label = nanoseconds(time[i, s])
                if (s > 1)
                    label = label sprintf(" (%.2f)", time[i, s] / time[i, 1])
                text(left + w + 6, y + bar - 1, "start", label)
                y += step
            }
    }
    print "</svg>"
}
