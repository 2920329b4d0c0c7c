# Takes lines "time <draw|read|differ> <symbology> <size> <side> <ns>", keeps the shortest of each and prints the tables.

BEGIN {
    split("Code 39,Code 39 full ASCII,Codabar,Industrial 2 of 5,Interleaved 2 of 5,Matrix 2 of 5,EAN-13,EAN-8,UPC-A", name, ",")
    title["library"] = "this library"
    title["plain"] = "plain C"
    title["second"] = "independent Rust"
    title["zint"] = "zint"
    title["zbar"] = "zbar"
}

$1 == "time" {
    key = $2 " " $3 " " $4 " " $5
    if (!(key in best) || $6 < best[key])
        best[key] = $6
    known[$2 " " $5] = 1
}

function cell(what, s, size, side,    key) {
    key = what " " s " " size " " side
    return key in best ? sprintf("%.0f", best[key]) : "-"
}

# The geometric mean of side a's times by side b's, over the symbologies of this size for which both sides
# and side c have one. Sets `over` to their number.
function mean(what, size, a, b, c,    s, k, sum) {
    over = 0
    sum = 0
    for (s = 1; s <= 9; s++) {
        k = what " " s " " size " "
        if ((k a) in best && (k b) in best && (k c) in best) {
            sum += log(best[k a] / best[k b])
            over++
        }
    }
    return over ? exp(sum / over) : 0
}

function table(what, heading, peer,    columns, n, column, i, j, s, size, line, k) {
    n = split("library plain second " peer, columns, " ")
    printf "\n%s, ns a strip\n\n| symbology | labels |", heading
    line = "|---|---|"
    for (i = 1; i <= n; i++)
        if ((what " " columns[i]) in known) {
            printf " %s |", title[columns[i]]
            line = line "---:|"
        }
    printf " library by plain C |\n%s---:|\n", line
    for (j = 1; j <= 2; j++) {
        size = j == 1 ? "short" : "long"
        for (s = 1; s <= 9; s++) {
            k = what " " s " " size " "
            if (!((k "plain") in best))
                continue
            printf "| %s | %s |", name[s], (s > 6 ? "fixed" : size)
            for (i = 1; i <= n; i++)
                if ((what " " columns[i]) in known)
                    printf " %s |", cell(what, s, size, columns[i])
            printf " %.2f |\n", best[k "library"] / best[k "plain"]
        }
    }
}

function means(what, heading, side,    j, size, r, p, words) {
    if (!((what " " side) in known))
        return
    for (j = 1; j <= 2; j++) {
        size = j == 1 ? "short" : "long"
        r = mean(what, size, "library", "plain", side)
        words = size == "short" ? "short and fixed" : "long"
        if (!over)
            continue
        if (side == "plain") {
            printf "| %s | all | %s, %d | %.2f | | |\n", heading, words, over, r
            continue
        }
        p = mean(what, size, side, "plain", side)
        printf "| %s | %s | %s, %d | %.2f | %.2f | %.2f |\n", heading,
            "those that " title[side] " has", words, over, r, p, r / p
    }
}

END {
    table("draw", "Drawing", "zint")
    table("read", "Reading, 16 labels over and over", "zbar")
    table("differ", "Reading, 1,024 labels that differ", "")
    printf "\nGeometric means of the ratios\n\n"
    print "| | symbologies | labels, number | library by plain C | peer by plain C | library by peer |"
    print "|---|---|---|---:|---:|---:|"
    means("draw", "drawing", "plain")
    means("draw", "drawing", "second")
    means("draw", "drawing", "zint")
    means("read", "reading", "plain")
    means("differ", "reading labels that differ", "plain")
    means("read", "reading", "second")
    means("read", "reading", "zbar")
}
