#!/bin/sh
# Writes the table of crates in docs/ARCHITECTURE.md from crates.txt, between the two marker comments there:
#   sh docs/table.sh
# A part of the table is a layer of crates.txt (a comment that begins with a capital), and a row is a crate: its name;
# how deep it stands, which is 1 for a crate that stands on no other of the repository, and else one more than the
# deepest of those on which it stands; the comment before its line; and the crates on which it stands, without those on
# which one of these stands already. Cells that are too long go on in the next row.
set -eu
top=$(CDPATH= cd -- "$(dirname -- "$0")/.." && pwd)
text="$top/docs/ARCHITECTURE.md"
table=$(mktemp)
new=$(mktemp)
trap 'rm -f "$table" "$new"' EXIT

awk '
    # whether the crate a stands on the crate b, maybe by others
    function reaches(a, b, list, count, i) {
        if ((a, b) in known) return known[a, b]
        count = split(under[a], list, " ")
        for (i = 1; i <= count; i++) {
            if (list[i] == b || reaches(list[i], b)) return known[a, b] = 1
        }
        return known[a, b] = 0
    }
    function deep(a, list, count, i, most, d) {
        if (a in depth) return depth[a]
        count = split(under[a], list, " ")
        most = 0
        for (i = 1; i <= count; i++) {
            if (list[i] in under) {
                d = deep(list[i])
                if (d > most) most = d
            }
        }
        return depth[a] = most + 1
    }
    function nearest(a, list, count, i, j, kept, found) {
        count = split(under[a], list, " ")
        found = ""
        for (i = 1; i <= count; i++) {
            kept = 1
            for (j = 1; j <= count; j++) {
                if (j != i && reaches(list[j], list[i])) kept = 0
            }
            if (kept) found = found (found == "" ? "" : " ") list[i]
        }
        return found
    }
    # the lines of a cell of this width, in cell[name, 1] and so on; answers how many
    function wrapped(name, text, width, words, count, i, lines, line) {
        count = split(text, words, " ")
        lines = 0
        line = ""
        for (i = 1; i <= count; i++) {
            if (line != "" && length(line) + 1 + length(words[i]) > width) {
                cell[name, ++lines] = line
                line = ""
            }
            line = line (line == "" ? "" : " ") words[i]
        }
        cell[name, ++lines] = line
        return lines
    }
    function row(name, depth, what, over) {
        printf "| %-19s | %-4s | %-50s | %-34s |\n", name, depth, what, over
    }
    /^# [A-Z]/ && !/^# One line a crate/ { layer = substr($0, 3); next }
    /^# / { said = substr($0, 3); next }
    /^[a-z]/ {
        name = $1
        sub(/:$/, "", name)
        sub(/^[a-z_]*: */, "")
        under[name] = $0
        order[++crates] = name
        what[name] = said
        where[name] = layer
    }
    END {
        for (k = 1; k <= crates; k++) {
            name = order[k]
            if (where[name] != last) {
                last = where[name]
                printf "\n### %s\n\n", last
                row("Crate", "Deep", "What it has", "Over")
                print "|---|---|---|---|"
            }
            a = wrapped("what", what[name], 50)
            b = wrapped("over", nearest(name), 34)
            lines = a > b ? a : b
            for (i = 1; i <= lines; i++) {
                row(i == 1 ? name : "", i == 1 ? deep(name) : "", i <= a ? cell["what", i] : "",
                    i <= b ? cell["over", i] : "")
            }
        }
        print ""
    }
' "$top/crates.txt" >"$table"

awk -v table="$table" '
    /^<!-- the table of crates/ {
        print
        while ((getline line < table) > 0) print line
        skipped = 1
        begun = 1
        next
    }
    /^<!-- the end of the table/ { skipped = 0; ended = 1 }
    !skipped { print }
    END { if (!begun || !ended) exit 1 }
' "$text" >"$new" || {
    echo "docs/table.sh: docs/ARCHITECTURE.md has not both markers" >&2
    exit 1
}
cat "$new" >"$text"
