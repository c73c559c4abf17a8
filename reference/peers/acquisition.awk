# Draws the tables of acquisition.sh: SVG on standard output. On the left the symbols before the lock against Eb/N0, a line for each
# rate; on the right the packets that a slip costs, a bar for each rate, from the least to the most.
BEGIN {
    rates = split("1/2,2/3,3/4,5/6,7/8", rate, ",")
    split("#1f5fa8,#2a9d8f,#7a8b00,#d98324,#b5305a", colour, ",")
    for (r = 1; r <= rates; r++)
        number[rate[r]] = r
    width = 880; height = 400; top = 80; bottom = 330
    left = 60; right = 400; least = 3; most = 7
    begin = 460; end = 860; highest = 30
}

$1 == "lock" {
    r = number[$2]
    n[r]++
    at[r, n[r]] = $3
    mean[r, n[r]] = $8
    whole[r, n[r]] = $4 == $6
    runs = $4
}

$1 == "slip" {
    if (!($3 in kind)) {
        kind[$3] = ++kinds
        name[kinds] = $3
        gsub(/-/, " ", name[kinds])
    }
    r = number[$2]
    lost[kind[$3], r] = $5
    lowest[kind[$3], r] = $6
    greatest[kind[$3], r] = $7
}

function text(x, y, anchor, s) {
    printf "<text x=\"%.1f\" y=\"%.1f\" text-anchor=\"%s\">%s</text>\n", x, y, anchor, s
}

function line(x1, y1, x2, y2, stroke, w) {
    printf "<line x1=\"%.1f\" y1=\"%.1f\" x2=\"%.1f\" y2=\"%.1f\" stroke=\"%s\" stroke-width=\"%s\"/>\n", x1, y1, x2, y2, stroke, w
}

function rectangle(x, y, w, h, fill) {
    printf "<rect x=\"%.1f\" y=\"%.1f\" width=\"%.1f\" height=\"%.1f\" fill=\"%s\"/>\n", x, y, w, h, fill
}

function across(db) {
    return left + (right - left) * (db - least) / (most - least)
}

# 100 to 100,000 symbols, ten times as many for each third of the height
function up(symbols) {
    return bottom - (bottom - top) * (log(symbols) - log(100)) / log(1000)
}

function packets(count) {
    return bottom - (bottom - top) * count / highest
}

END {
    printf "<svg xmlns=\"http://www.w3.org/2000/svg\" width=\"%d\" height=\"%d\" viewBox=\"0 0 %d %d\" font-family=\"sans-serif\" font-size=\"12\" fill=\"black\">\n", width, height, width, height
    rectangle(0, 0, width, height, "white")
    printf "<g font-size=\"16\">\n"
    text(12, 24, "start", "Acquisition: symbols that begin anywhere, turned any way")
    printf "</g>\n"
    text(left - 40, 48, "start", "Symbols before the lock, the rate not told: mean of " runs " runs")
    text(left - 40, 64, "start", "Filled: every run locked, and rightly")
    text(begin - 30, 48, "start", "Packets that a slip costs, at 6.0 dB: mean, least and most")
    for (symbols = 100; symbols <= 100000; symbols *= 10) {
        line(left, up(symbols), right, up(symbols), "#dddddd", 1)
        text(left - 6, up(symbols) + 4, "end", symbols >= 1000 ? symbols / 1000 ",000" : symbols)
    }
    for (db = least; db <= most; db++) {
        line(across(db), top, across(db), bottom, "#eeeeee", 1)
        text(across(db), bottom + 16, "middle", db)
    }
    text((left + right) / 2, bottom + 34, "middle", "Eb/N0, dB")
    for (r = 1; r <= rates; r++) {
        for (i = 2; i <= n[r]; i++)
            line(across(at[r, i - 1]), up(mean[r, i - 1]), across(at[r, i]), up(mean[r, i]), colour[r], 2)
        for (i = 1; i <= n[r]; i++)
            printf "<circle cx=\"%.1f\" cy=\"%.1f\" r=\"4\" stroke=\"%s\" stroke-width=\"1.5\" fill=\"%s\"/>\n", across(at[r, i]), up(mean[r, i]), colour[r], whole[r, i] ? colour[r] : "white"
        rectangle(left + 68 * (r - 1), height - 20, 12, 11, colour[r])
        text(left + 68 * (r - 1) + 17, height - 10, "start", rate[r])
    }
    for (count = 0; count <= highest; count += 5) {
        line(begin, packets(count), end, packets(count), "#dddddd", 1)
        text(begin - 6, packets(count) + 4, "end", count)
    }
    group = (end - begin) / kinds
    for (k = 1; k <= kinds; k++) {
        for (r = 1; r <= rates; r++) {
            x = begin + group * (k - 1) + 6 + 10.5 * (r - 1)
            rectangle(x, packets(lost[k, r]), 9, bottom - packets(lost[k, r]), colour[r])
            line(x + 4.5, packets(lowest[k, r]), x + 4.5, packets(greatest[k, r]), "black", 1)
        }
        words = split(name[k], word, " ")
        text(begin + group * (k - 0.5), bottom + 16, "middle", word[1])
        rest = word[2]
        for (w = 3; w <= words; w++)
            rest = rest " " word[w]
        text(begin + group * (k - 0.5), bottom + 30, "middle", rest)
    }
    print "</svg>"
}
