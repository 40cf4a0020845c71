#!/usr/bin/env bash
# No chain of crates in crates.txt is longer than eight; and each crate stands in the drawing of docs/ARCHITECTURE.md, once, at its
# height (crates of tests on a line of their own), beside a paragraph that names it. With --write the drawing is made anew, with each
# crate in the column where it stood, a new one where it was written, on any line.
set -u
top="$(cd "$(dirname "$(readlink -f "${BASH_SOURCE[0]}")")/.." && pwd)"
look() {
    awk -v write="${1:-}" '
    FNR == NR {
        if ($0 ~ /^[^#]/) { split($0, side, ":"); split(side[1], head, " "); needs[head[1]] = side[2]; order[++count] = head[1] }
        next
    }
    /^```/ { drawing = !drawing && !drawn; drawn = 1 }
    # the columns begin where their names do
    drawing && /commands/ {
        for (rest = $0; match(rest, /[a-z,]+( [a-z,]+)*/); rest = substr(rest, RSTART + RLENGTH)) {
            title[++columns] = substr(rest, RSTART, RLENGTH)
            begins[columns] = length($0) - length(rest) + RSTART
        }
    }
    drawing {
        if ($1 ~ /^[0-9]$/ || $1 == "tests") height = $1
        for (rest = $0; match(rest, /[a-z0-9_]+/); rest = substr(rest, RSTART + RLENGTH)) {
            name = substr(rest, RSTART, RLENGTH)
            if (!(name in needs)) continue
            stands[name] = height; times[name]++
            for (c = 1; c <= columns; c++) if (begins[c] <= length($0) - length(rest) + RSTART) column[name] = c
        }
    }
    !drawing {
        for (rest = $0; match(rest, /\*\*[a-z0-9_]+\*\*/); rest = substr(rest, RSTART + RLENGTH)) told[substr(rest, RSTART + 2, RLENGTH - 4)] = 1
    }
    { line[++lines] = $0; if (drawing) drawn_line[lines] = 1 }
    function depth(name,  uses, i, n, d, most) {
        if (!(name in needs)) return 0
        if (name in known) return known[name]
        n = split(needs[name], uses, " ")
        for (i = 1; i <= n; i++) { d = depth(uses[i]); if (d > most) { most = d; via[name] = uses[i] } }
        return known[name] = most + 1
    }
    function complain(what) { print "docs/ARCHITECTURE.md: " what > "/dev/stderr"; bad = 1 }
    function is_of_tests(name) { return name ~ /_tests$/ }
    # the rows of the drawing, with the crates of one height and column below each other in the order of crates.txt
    function draw(  h, c, k, row, rows, cell, tall, text) {
        text = "    "
        for (c = 1; c <= columns; c++) {
            wide[c] = length(title[c])
            for (k = 1; k <= count; k++) if (column[order[k]] == c && !is_of_tests(order[k]) && length(order[k]) > wide[c]) wide[c] = length(order[k])
            text = text sprintf(" %-" (wide[c] + 2) "s", title[c])
        }
        put(text)
        for (h = most; h >= 1; h--) {
            rows = 1
            split("", cell); split("", tall)
            for (k = 1; k <= count; k++) {
                if (known[order[k]] != h || is_of_tests(order[k])) continue
                c = column[order[k]]
                cell[++tall[c], c] = order[k]
                if (tall[c] > rows) rows = tall[c]
            }
            for (row = 1; row <= rows; row++) {
                text = row == 1 ? sprintf(" %d  ", h) : "    "
                for (c = 1; c <= columns; c++) text = text sprintf(" %-" (wide[c] + 2) "s", cell[row, c])
                put(text)
            }
        }
    }
    function put(text) { sub(/ +$/, "", text); print text }
    END {
        for (name in needs) {
            if (depth(name) > most) { most = depth(name); top = name }
            due = is_of_tests(name) ? "tests" : depth(name)
            if (times[name] != 1 || (!write && stands[name] != due)) complain(name " has to stand once in the drawing, at " due " (tests/layers.sh --write)")
            if (!(name in told)) complain("no paragraph has **" name "**")
        }
        if (write) {
            if (bad) exit 1
            for (i = 1; i <= lines; i++) {
                if (drawn_line[i] && line[i] ~ /commands/) draw()
                if (line[i] ~ /^ (toolchain|tests) /) behind = 1
                if (!drawn_line[i] || behind || line[i] ~ /^```/) print line[i]
            }
            exit
        }
        for (name = top; name != ""; name = via[name]) chain = chain " " name
        print "layers: the longest chain has " most " crates:" chain
        exit most > 8 || bad
    }
' "$top/crates.txt" "$top/docs/ARCHITECTURE.md"
}

if [ "${1:-}" = --write ]; then
    made="$(look --write)" && printf '%s\n' "$made" >"$top/docs/ARCHITECTURE.md"
else
    look
fi
