# Prints the arrows between crates, a line `crate used` for each. From crates.txt it takes those that do not follow from others; from
# docs/ARCHITECTURE.md those of its picture, in which `──── ` leads from the crates before it to those behind it, and a line of a
# tree from the crate above it that stands one step to the left.

FILENAME ~ /crates.txt/ && /^[a-z]/ {
    crate = $1
    sub(/:$/, "", crate)
    known[crate] = 1
    for (i = 2; i <= NF; i++)
        if ($i in known) {
            direct[crate, $i] = reach[crate, $i] = 1
            for (other in known)
                if (($i, other) in reach) { reach[crate, other] = 1; indirect[crate, other] = 1 }
        }
}

/^## / { picture = /^## The arrows/ }

# The bytes of a step in a tree differ from character to character, so steps are counted as words.
FILENAME ~ /ARCHITECTURE/ && picture && /^    / {
    sub(/^    /, "")
    gsub(/├── |└── /, "+ ")
    gsub(/│   |    /, "+ ")
    depth = gsub(/\+ /, "")
    parts = split($0, part, / ──── /)
    if (depth > 0) arrows(above[depth - 1], part[1])
    above[depth] = part[1]
    for (i = 1; i < parts; i++) arrows(part[i], part[i + 1])
}

function arrows(from, to, f, t, n, m, i, k) {
    n = split(from, f, ", ")
    m = split(to, t, ", ")
    for (i = 1; i <= n; i++)
        for (k = 1; k <= m; k++) print f[i], t[k]
}

END {
    for (arrow in direct)
        if (!(arrow in indirect)) { split(arrow, pair, SUBSEP); print pair[1], pair[2] }
}
