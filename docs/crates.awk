# Draws lines NAME KIND LIBRARY..: SVG on standard output. Each crate is a box in a row above all that it stands on.
# A line that passes a row has a place of its own in it, so that it goes through no box.

BEGIN {
    # From packets to symbols, left to right: lists of crates, each wanted in its order.
    ways = split(wanted, way, ";")
    apart = 58; top = 92; margin = 20; high = 22
    fill["program"] = "#f6cf8f"; stroke["program"] = "#b3791f"; said["program"] = "program"
    fill["public"] = "#a9c8ec"; stroke["public"] = "#1f5fa8"; said["public"] = "library, for callers"
    fill["inner"] = "#e7eff8"; stroke["inner"] = "#7f9dc0"; said["inner"] = "library, inner part"
    fill["theory"] = "#cfe8cb"; stroke["theory"] = "#5b9a5b"; said["theory"] = "definitions and proofs, no code"
    kinds = split("program public inner theory", legend, " ")
}

# Those of the tests and the benchmark are named below the picture.
$2 == "test" {
    tests = tests (tests == "" ? "" : ", ") $1
    next
}

{
    name[++n] = $1
    kind[n] = $2
    number[$1] = n
    for (i = 3; i <= NF; i++) {
        stands[n, $i] = 1
        above[$i]++
    }
}

# Nearly all stand on these.
function left_out(i) {
    return above[name[i]] > 0.6 * n
}

# join LOW HIGH: a line between them.
function join(low, high) {
    up[low, ++ups[low]] = high
    down[high, ++downs[high]] = low
}

# A line from each crate to each that it stands on, but where others lead there.
function draw_lines(    i, j, k, direct) {
    for (i = 1; i <= n; i++)
        for (j = 1; j <= n; j++)
            if ((i, name[j]) in stands && !left_out(j)) {
                direct = 1
                for (k = 1; k <= n; k++)
                    if ((i, name[k]) in stands && (k, name[j]) in stands)
                        direct = 0
                if (direct)
                    join(j, i)
            }
}

# ---- rows

# longer STEP: how much longer the lines become where all that is in moved goes up so many rows.
function longer(step,    i, k, sum) {
    for (i = 1; i <= n; i++)
        for (k = 1; k <= ups[i]; k++)
            sum += step * (moved[up[i, k]] - moved[i])
    return sum + 0
}

# push STEP: what must move with it is put into moved too.
function push(step,    i, k, more) {
    do {
        more = 0
        for (i = 1; i <= n; i++)
            for (k = 1; k <= ups[i]; k++)
                if (row[up[i, k]] == row[i] + 1 && moved[i] != moved[up[i, k]] && (step > 0 ? moved[i] : moved[up[i, k]]))
                    more = moved[i] = moved[up[i, k]] = 1
    } while (more)
}

# move V STEP: a crate, with what must and what had better go with it, where the lines become shorter by it.
function move(v, step,    i, before, more, k) {
    for (i = 1; i <= n; i++)
        moved[i] = i == v
    push(step)
    do {
        more = 0
        for (i = 1; i <= n; i++)
            if (!moved[i]) {
                before = longer(step)
                for (k = 1; k <= n; k++)
                    kept[k] = moved[k]
                moved[i] = 1
                push(step)
                if (longer(step) < before)
                    more = 1
                else
                    for (k = 1; k <= n; k++)
                        moved[k] = kept[k]
            }
    } while (more)
    if (longer(step) >= 0)
        return 0
    for (i = 1; i <= n; i++)
        row[i] += step * moved[i]
    return 1
}

function choose_rows(    i, k, better, lowest) {
    for (i = 1; i <= n; i++)
        for (k = 1; k <= downs[i]; k++)
            if (row[down[i, k]] >= row[i])
                row[i] = row[down[i, k]] + 1
    do {
        better = 0
        for (i = 1; i <= n; i++)
            better += move(i, 1) + move(i, -1)
    } while (better)
    for (i = 1; i <= n; i++)
        if (row[i] < lowest)
            lowest = row[i]
    for (i = 1; i <= n; i++) {
        row[i] = left_out(i) ? 0 : row[i] - lowest
        if (row[i] > rows)
            rows = row[i]
    }
}

# A line that passes rows becomes a chain of places in them, numbered behind the crates.
function split_lines(    i, k, l, v) {
    for (i = 1; i <= n; i++)
        for (k = 1; k <= downs[i]; k++) {
            from[++lines] = down[i, k]
            to[lines] = i
        }
    for (i = 1; i <= n; i++)
        ups[i] = downs[i] = 0
    all = n
    for (l = 1; l <= lines; l++) {
        v = from[l]
        chain[l, steps[l] = 1] = v
        while (row[v] + 1 < row[to[l]]) {
            row[++all] = row[v] + 1
            join(v, all)
            v = all
            chain[l, ++steps[l]] = v
        }
        join(v, to[l])
        chain[l, ++steps[l]] = to[l]
    }
    for (i = 1; i <= all; i++)
        order[row[i], ++size[row[i]]] = i
}

# ---- the order in a row

function random(below) {
    seed = seed * 16807 % 2147483647
    return seed % below
}

# shuffle: every row anew. disturb: one place of a few rows goes elsewhere in its row.
function shuffle(    r, i) {
    for (r = 0; r <= rows; r++)
        for (i = size[r]; i >= 1; i--)
            put(r, i, 1 + random(i))
}

function disturb(    k, r) {
    for (k = 1 + random(4); k > 0; k--) {
        r = random(rows + 1)
        put(r, 1 + random(size[r]), 1 + random(size[r]))
    }
}

# put R I J: what is at place I of the row goes to place J.
function put(r, i, j,    v) {
    v = order[r, i]
    for (; i > j; i--)
        place[order[r, i] = order[r, i - 1]] = i
    for (; i < j; i++)
        place[order[r, i] = order[r, i + 1]] = i
    place[order[r, j] = v] = j
}

# crossed A B: how many lines of A and of B cross where A is left of B.
function crossed(a, b,    k, l, sum) {
    for (k = 1; k <= ups[a]; k++)
        for (l = 1; l <= ups[b]; l++)
            sum += place[up[a, k]] > place[up[b, l]]
    for (k = 1; k <= downs[a]; k++)
        for (l = 1; l <= downs[b]; l++)
            sum += place[down[a, k]] > place[down[b, l]]
    return sum + 0
}

# sort_row R UPWARD: by the mean place of what each is joined with in the row above, or below.
function sort_row(r, upward,    i, j, k, v, sum, count) {
    for (i = 1; i <= size[r]; i++) {
        v = order[r, i]
        sum = 0
        count = upward ? ups[v] : downs[v]
        for (k = 1; k <= count; k++)
            sum += place[upward ? up[v, k] : down[v, k]]
        mean[v] = left_out(v) ? 0 : count ? sum / count : i
        for (j = i; j > 1 && mean[order[r, j - 1]] > mean[v]; j--)
            order[r, j] = order[r, j - 1]
        order[r, j] = v
    }
    for (i = 1; i <= size[r]; i++)
        place[order[r, i]] = i
}

# Neighbours change places where fewer lines cross so.
function swap_neighbours(    r, i, a, b, better) {
    do {
        better = 0
        for (r = 0; r <= rows; r++)
            for (i = 1; i < size[r]; i++) {
                a = order[r, i]
                b = order[r, i + 1]
                if (crossed(b, a) < crossed(a, b)) {
                    order[r, i] = b
                    order[r, i + 1] = a
                    place[b] = i
                    place[a] = i + 1
                    better = 1
                }
            }
    } while (better)
}

# ---- places

function width_of(v) {
    return v <= n ? 6.7 * length(name[v]) + 3 * (name[v] ~ /mm/) + 14 : 6
}

function gap(v, w) {
    return (width_of(v) + width_of(w)) / 2 + (v <= n && w <= n ? 12 : 8)
}

function pull(v, w,    weight) {
    weight = v > n && w > n ? 8 : v > n || w > n ? 2 : 1
    heavy[runs] += weight
    total[runs] += weight * (x[w] - offset[v])
}

# settle R: each to the mean of what it is joined with. Those that would then be too near become a run, which moves as one.
function settle(r,    i, k, v, end) {
    runs = 0
    for (i = 1; i <= size[r]; i++) {
        v = order[r, i]
        offset[v] = i == 1 ? 0 : offset[order[r, i - 1]] + gap(order[r, i - 1], v)
        start[++runs] = i
        heavy[runs] = 0.1
        total[runs] = 0.1 * (x[v] - offset[v])
        for (k = 1; k <= ups[v]; k++)
            pull(v, up[v, k])
        for (k = 1; k <= downs[v]; k++)
            pull(v, down[v, k])
        for (; runs > 1 && total[runs] / heavy[runs] < total[runs - 1] / heavy[runs - 1]; runs--) {
            total[runs - 1] += total[runs]
            heavy[runs - 1] += heavy[runs]
        }
    }
    for (k = 1; k <= runs; k++) {
        end = k < runs ? start[k + 1] - 1 : size[r]
        for (i = start[k]; i <= end; i++)
            x[order[r, i]] = total[k] / heavy[k] + offset[order[r, i]]
    }
}

function settle_all(sweeps,    r, i, sweep) {
    for (r = 0; r <= rows; r++)
        for (i = 1; i <= size[r]; i++)
            x[order[r, i]] = i == 1 ? 0 : x[order[r, i - 1]] + gap(order[r, i - 1], order[r, i])
    for (sweep = 1; sweep <= sweeps; sweep++)
        for (r = 0; r <= rows; r++)
            settle(sweep % 2 ? r : rows - r)
}

# cost: of crossings, of lines that lean, and of crates that are not in the order of a way.
function cost(    r, i, j, k, sum, w, crate, count) {
    for (r = 0; r <= rows; r++)
        for (i = 1; i < size[r]; i++)
            for (j = i + 1; j <= size[r]; j++)
                sum += crossed(order[r, i], order[r, j]) / 2
    for (i = 1; i <= all; i++)
        for (k = 1; k <= ups[i]; k++)
            sum += (x[i] < x[up[i, k]] ? x[up[i, k]] - x[i] : x[i] - x[up[i, k]]) / 100
    for (w = 1; w <= ways; w++) {
        count = split(way[w], crate, " ")
        for (i = 1; i < count; i++)
            for (j = i + 1; j <= count; j++)
                if (crate[i] in number && crate[j] in number)
                    sum += 20 * (x[number[crate[i]]] > x[number[crate[j]]])
    }
    return sum
}

# The best order of a search: a few random ones, then the best so far disturbed again and again.
function choose_order(    try, sweep, r, i, found, least) {
    seed = 2
    for (try = 1; try <= 1000; try++) {
        if (try <= 20)
            shuffle()
        else {
            for (i = 1; i <= all; i++)
                order[row[i], place[i] = best[i]] = i
            disturb()
        }
        for (sweep = 1; sweep <= (try <= 20 ? 6 : try % 3); sweep++)
            for (r = 0; r <= rows; r++)
                sort_row(sweep % 2 ? r : rows - r, !(sweep % 2))
        swap_neighbours()
        settle_all(8)
        found = cost()
        if (try == 1 || found <= least) {
            least = found
            for (i = 1; i <= all; i++)
                best[i] = place[i]
        }
    }
    for (i = 1; i <= all; i++)
        order[row[i], best[i]] = i
    settle_all(80)
}

# ---- drawing

function text(x, y, anchor, s) {
    printf "<text x=\"%d\" y=\"%d\" text-anchor=\"%s\">%s</text>\n", x, y, anchor, s
}

function box(x, y, w, k) {
    printf "<rect x=\"%.1f\" y=\"%d\" width=\"%.1f\" height=\"%d\" rx=\"4\" fill=\"%s\" stroke=\"%s\"/>\n", x, y, w, high, fill[k], stroke[k]
}

function y_of(v) {
    return top + apart * (rows - row[v])
}

END {
    draw_lines()
    choose_rows()
    split_lines()
    choose_order()

    for (i = 1; i <= all; i++) {
        if (i == 1 || x[i] - width_of(i) / 2 < least)
            least = x[i] - width_of(i) / 2
        if (i == 1 || x[i] + width_of(i) / 2 > most)
            most = x[i] + width_of(i) / 2
    }
    for (i = 1; i <= all; i++)
        x[i] += margin - least
    width = most - least + 2 * margin
    height = top + apart * rows + high + 56
    printf "<svg xmlns=\"http://www.w3.org/2000/svg\" width=\"%d\" height=\"%d\" viewBox=\"0 0 %d %d\" font-family=\"sans-serif\" font-size=\"12\" fill=\"black\">\n", width, height, width, height
    printf "<rect width=\"%d\" height=\"%d\" fill=\"white\"/>\n<g font-size=\"16\">\n", width, height
    text(margin, 26, "start", "The crates: each stands on those below that a line leads to")
    print "</g>"
    at = margin
    for (k = 1; k <= kinds; k++) {
        box(at, 40, 22, legend[k])
        text(at + 29, 55, "start", said[legend[k]])
        at += 29 + 6.2 * length(said[legend[k]]) + 24
    }
    print "<g fill=\"none\" stroke=\"#8a9099\">"
    for (l = 1; l <= lines; l++) {
        path = sprintf("M%.1f %d", x[from[l]], y_of(from[l]))
        for (s = 2; s <= steps[l]; s++) {
            v = chain[l, s - 1]
            w = chain[l, s]
            path = path sprintf("C%.1f %d %.1f %d %.1f %d", x[v], y_of(v) - 18, x[w], y_of(w) + high + 18, x[w], y_of(w) + high)
            if (w > n)
                path = path sprintf("V%d", y_of(w))
        }
        printf "<path d=\"%s\"/>\n", path
    }
    print "</g>"
    for (i = 1; i <= n; i++) {
        box(x[i] - width_of(i) / 2, y_of(i), width_of(i), kind[i])
        text(x[i], y_of(i) + 15, "middle", name[i])
    }
    for (i = 1; i <= n; i++)
        if (left_out(i))
            most_used = most_used (most_used == "" ? "" : " and ") name[i]
    text(margin, height - 28, "start", "Packets are on the left, symbols on the right. Lines to " most_used ", on which nearly all stand, are left out.")
    text(margin, height - 12, "start", "Of the tests and the benchmark: " tests)
    print "</svg>"
}
