#!/bin/sh
# Draws docs/layers.svg from crates.txt and the headings of docs/ARCHITECTURE.md: a box a layer, with its crates in it,
# and an arrow where crates of a layer use crates of a lower one and no layer between leads there.
#
#   sh docs/layers.sh          writes the figure
#   sh docs/layers.sh --check  says whether the figure is current
set -eu
LC_ALL=C
export LC_ALL
cd "$(dirname "$0")"

draw() {
    awk '
    # the way from what a call says to what holds of a world
    BEGIN {
        split("kdb_places iprop_truths replica_steps kdb_histories kdb_worlds world_laws performed_plans primary_core " \
            "primary_rekeying primary_loading primary_worlds primary_events replica_core replica_events kadm_top run_events", names, " ")
        for (i in names) on_way[names[i]] = 1
    }
    # the headings of the other document, in their order
    FNR == NR {
        if ($0 ~ /^### /) heading[++headings] = substr($0, 5)
        next
    }
    /^# / {
        layer[++layers] = substr($0, 3)
        next
    }
    /^[a-z]/ {
        name = $1
        sub(/:$/, "", name)
        at[name] = layers
        crate[layers, ++crates[layers]] = name
        for (i = 2; i <= NF; i++) if ($i in at && at[$i] < layers) uses[layers, at[$i]] = 1
    }
    function text(x, y, size, style, words) {
        gsub(/&/, "\\&amp;", words)
        gsub(/</, "\\&lt;", words)
        printf "<text x=\"%d\" y=\"%d\" font-size=\"%d\"%s>%s</text>\n", x, y, size, style, words
    }
    # whether a layer between leads there
    function leads(high, low,  between) {
        for (between = low + 1; between < high; between++)
            if (((high, between) in uses || leads(high, between)) && ((between, low) in uses || leads(between, low))) return 1
        return 0
    }
    END {
        if (layers != headings) {
            print "crates.txt has " layers " layers, ARCHITECTURE.md " headings > "/dev/stderr"
            exit 1
        }
        for (n = 1; n <= layers; n++) if (layer[n] != heading[n]) {
            print "another heading in ARCHITECTURE.md: " heading[n] > "/dev/stderr"
            exit 1
        }
        width = 900; left = 16; inner = 12; gap = 30; row = 26; letter = 7; y = 44
        # the highest first
        for (n = layers; n >= 1; n--) {
            top[n] = y
            x = left + inner; line = 0
            for (k = 1; k <= crates[n]; k++) {
                wide = length(crate[n, k]) * letter + 14
                if (x + wide > left + width - inner) { x = left + inner; line++ }
                px[n, k] = x; py[n, k] = y + 30 + line * row; pw[n, k] = wide
                x += wide + 8
            }
            bottom[n] = y + 30 + (line + 1) * row + 4
            y = bottom[n] + gap
        }
        high = y - gap + 16
        printf "<svg xmlns=\"http://www.w3.org/2000/svg\" width=\"%d\" height=\"%d\" viewBox=\"0 0 %d %d\" font-family=\"monospace\">\n", width + 2 * left + 40, high, width + 2 * left + 40, high
        print "<title>The layers of crates</title>"
        print "<defs><marker id=\"tip\" viewBox=\"0 0 8 8\" refX=\"7\" refY=\"4\" markerWidth=\"8\" markerHeight=\"8\" orient=\"auto\"><path d=\"M0 0 L8 4 L0 8 z\" fill=\"#555\"/></marker></defs>"
        printf "<rect width=\"%d\" height=\"%d\" fill=\"#fff\"/>\n", width + 2 * left + 40, high
        printf "<rect x=\"%d\" y=\"14\" width=\"14\" height=\"14\" rx=\"3\" fill=\"#cfe6d4\" stroke=\"#3a7d4c\"/>\n", left
        text(left + 22, 26, 12, "", "the way from the clauses of a call to an event, a history and a world")
        for (n = layers; n >= 1; n--) {
            printf "<rect x=\"%d\" y=\"%d\" width=\"%d\" height=\"%d\" rx=\"6\" fill=\"#f6f6f4\" stroke=\"#888\"/>\n", left, top[n], width, bottom[n] - top[n]
            text(left + inner, top[n] + 20, 13, " font-weight=\"bold\"", layer[n])
            for (k = 1; k <= crates[n]; k++) {
                name = crate[n, k]
                fill = (name in on_way) ? "fill=\"#cfe6d4\" stroke=\"#3a7d4c\"" : "fill=\"#fff\" stroke=\"#bbb\""
                printf "<rect x=\"%d\" y=\"%d\" width=\"%d\" height=\"20\" rx=\"3\" %s/>\n", px[n, k], py[n, k], pw[n, k], fill
                text(px[n, k] + 7, py[n, k] + 14, 11, "", name)
            }
        }
        side = 0
        for (n = layers; n >= 1; n--) for (m = n - 1; m >= 1; m--) if ((n, m) in uses && !leads(n, m)) {
            if (m == n - 1) {
                printf "<path d=\"M%d %d V%d\" stroke=\"#555\" fill=\"none\" marker-end=\"url(#tip)\"/>\n", left + width / 2, bottom[n], top[m]
            } else {
                x = left + width + 10 + 8 * side++
                printf "<path d=\"M%d %d H%d V%d H%d\" stroke=\"#555\" fill=\"none\" marker-end=\"url(#tip)\"/>\n", left + width, bottom[n] - 12, x, top[m] + 12, left + width
            }
        }
        print "</svg>"
    }
    ' ARCHITECTURE.md ../crates.txt
}

if [ "${1:-}" = "--check" ]; then
    if draw | cmp -s - layers.svg; then
        echo "docs/layers.svg is current"
    else
        echo "docs/layers.svg is not current: sh docs/layers.sh" >&2
        exit 1
    fi
else
    draw > layers.svg.new
    mv layers.svg.new layers.svg
fi
