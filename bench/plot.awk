# Draws lines as an SVG picture, both axes from 0: awk -v title=.. -v across=.. -v up=.. -v names='ours glibc' -f plot.awk
# Each line of the input: x, and a y for each name. A y that is no number is left out.

# A step of 1, 2 or 5 times a power of ten that gives at most 6 steps.
function step(most,    s) {
    for (s = 0.001; most / s > 6; s *= 10)
        if (most / (2 * s) <= 6) return 2 * s
        else if (most / (5 * s) <= 6) return 5 * s
    return s
}
function px(x) { return left + (x / x_most) * width }
function py(y) { return top + height - (y / y_most) * height }
function text(x, y, anchor, more, words) { printf "<text x=\"%.1f\" y=\"%.1f\" text-anchor=\"%s\"%s>%s</text>\n", x, y, anchor, more, words }
function line(x1, y1, x2, y2, colour) { printf "<line x1=\"%.1f\" y1=\"%.1f\" x2=\"%.1f\" y2=\"%.1f\" stroke=\"%s\"/>\n", x1, y1, x2, y2, colour }

{
    points++
    x[points] = $1
    if ($1 > x_top) x_top = $1
    for (i = 2; i <= NF; i++) {
        y[points, i - 1] = $i
        if ($i + 0 > y_top) y_top = $i + 0
    }
}

END {
    left = 62; top = 34; width = 470; height = 240
    count = split(names, name, " ")
    split("#0b5cad #c2570c", colour, " ")
    x_step = step(x_top); y_step = step(y_top)
    x_most = x_step * int((x_top + x_step * 0.999) / x_step)
    y_most = y_step * int((y_top + y_step * 0.999) / y_step)
    printf "<svg xmlns=\"http://www.w3.org/2000/svg\" viewBox=\"0 0 600 330\" width=\"600\" height=\"330\" font-family=\"sans-serif\" font-size=\"12\" fill=\"#333\">\n"
    printf "<title>%s</title>\n<rect width=\"600\" height=\"330\" fill=\"#fff\"/>\n", title
    text(left, 20, "start", " font-size=\"13\"", title)
    for (t = 0; t * y_step <= y_most * 1.0001; t++) {
        line(left, py(t * y_step), left + width, py(t * y_step), t ? "#ddd" : "#333")
        text(left - 6, py(t * y_step) + 4, "end", "", t * y_step)
    }
    for (t = 0; t * x_step <= x_most * 1.0001; t++) {
        line(px(t * x_step), top + height, px(t * x_step), top + height + 5, "#333")
        text(px(t * x_step), top + height + 18, "middle", "", t * x_step)
    }
    line(left, top, left, top + height, "#333")
    text(left + width / 2, top + height + 40, "middle", "", across)
    text(0, 0, "middle", sprintf(" transform=\"translate(16 %.1f) rotate(-90)\"", top + height / 2), up)
    for (i = 1; i <= count; i++) {
        path = ""; last = 0
        for (p = 1; p <= points; p++)
            if (y[p, i] ~ /^[0-9.]+$/) {
                path = path sprintf("%s%.1f,%.1f", last ? " " : "", px(x[p]), py(y[p, i]))
                last = p
                end[i] = py(y[p, i])
            }
        if (!last) continue
        printf "<polyline points=\"%s\" fill=\"none\" stroke=\"%s\" stroke-width=\"2\"/>\n", path, colour[i]
        split(path, dots, " ")
        for (p = 1; p in dots; p++) {
            split(dots[p], at, ",")
            printf "<circle cx=\"%s\" cy=\"%s\" r=\"3\" fill=\"%s\"/>\n", at[1], at[2], colour[i]
        }
        # The name stands behind the last point, apart from the one before it.
        place[i] = end[i] + 4
        if (i > 1 && place[i - 1]) {
            gap = place[i] - place[i - 1]
            if (gap >= 0 && gap < 15) place[i] += 15 - gap
            if (gap < 0 && gap > -15) place[i] -= 15 + gap
        }
        text(px(x[last]) + 8, place[i], "start", sprintf(" fill=\"%s\" font-weight=\"bold\"", colour[i]), name[i])
    }
    print "</svg>"
}
