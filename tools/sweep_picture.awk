# Draws two sweeps of one design: voters in per cent of the copies against the pairs that are too near, plain and lean. From the top folder:
#   awk -f tools/sweep_picture.awk plain.txt lean.txt > docs/choosing.svg
# Each file holds what `tmr sweep` prints, the first with `--form plain`, the second with `--form lean`.

function log10(x) { return log(x) / log(10) }
function x_at(near) { return left + (log10(near) - low) / (high - low) * width }
function y_at(percent) { return top + height - percent / most * height }

FNR == 1 { form++ }
$1 == "size" {
    n = ++count[form]
    size[form, n] = $2; percent[form, n] = $8; near[form, n] = $14
    if (first == "" || $14 + 0 < first + 0) first = $14
    if ($14 + 0 > last + 0) last = $14
    if ($8 + 0 > most + 0) most = $8
}
END {
    left = 60; top = 24; width = 540; height = 260
    low = int(log10(first)); high = int(log10(last)) + 1
    most = int(most / 20 + 1) * 20
    print "<svg xmlns=\"http://www.w3.org/2000/svg\" width=\"660\" height=\"340\" font-family=\"monospace\" font-size=\"13\">"
    print "<rect width=\"660\" height=\"340\" fill=\"white\"/>"
    for (p = 0; p <= most; p += 20) {
        printf "<line x1=\"%d\" y1=\"%.1f\" x2=\"%d\" y2=\"%.1f\" stroke=\"#ddd\"/>\n", left, y_at(p), left + width, y_at(p)
        printf "<text x=\"%d\" y=\"%.1f\" text-anchor=\"end\" fill=\"#777\">%d %%</text>\n", left - 6, y_at(p) + 4, p
    }
    for (e = low; e <= high; e++) {
        printf "<line x1=\"%.1f\" y1=\"%d\" x2=\"%.1f\" y2=\"%d\" stroke=\"#ddd\"/>\n", x_at(10 ^ e), top, x_at(10 ^ e), top + height
        printf "<text x=\"%.1f\" y=\"%d\" text-anchor=\"middle\" fill=\"#777\">10^%d</text>\n", x_at(10 ^ e), top + height + 18, e
    }
    color[1] = "#b33"; color[2] = "#36a"; name[1] = "plain"; name[2] = "lean"
    for (f = 1; f <= 2; f++) {
        points = ""
        for (i = 1; i <= count[f]; i++) points = points sprintf("%.1f,%.1f ", x_at(near[f, i]), y_at(percent[f, i]))
        printf "<polyline points=\"%s\" fill=\"none\" stroke=\"%s\" stroke-width=\"1.5\"/>\n", points, color[f]
        for (i = 1; i <= count[f]; i++) {
            printf "<circle cx=\"%.1f\" cy=\"%.1f\" r=\"3.5\" fill=\"%s\"/>\n", x_at(near[f, i]), y_at(percent[f, i]), color[f]
            printf "<text x=\"%.1f\" y=\"%.1f\" fill=\"%s\">%d</text>\n", x_at(near[f, i]) + 6, y_at(percent[f, i]) - 6, color[f], size[f, i]
        }
        printf "<text x=\"%d\" y=\"%d\" fill=\"%s\">%s</text>\n", left + width - 60, top + 16 * f, color[f], name[f]
    }
    printf "<text x=\"%d\" y=\"%d\" text-anchor=\"middle\">pairs that are too near (near)</text>\n", left + width / 2, top + height + 40
    printf "<text x=\"%d\" y=\"%d\">voters, in per cent of the copies; at each point the size</text>\n", left, 16
    print "</svg>"
}
