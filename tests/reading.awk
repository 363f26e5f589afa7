# Reads files of definitions, then code, then files of theorems. A definition is needed where a contract or the statement of a theorem names it,
# or a definition that is needed. Prints "FILE LINES" for each file of definitions, and "unneeded FILE:NAME" for what is needed by none. Files
# that open with "Closed tests" come last: what only they need is needed by none.

# Rattle.tree.specs.Tree is the file crates/tree/specs/Tree.antt.
function home(path,   crate) {
    if (path !~ /^Rattle[.]/) return ""
    sub(/^Rattle[.]/, "", path)
    crate = path; sub(/[.].*/, "", crate)
    sub(/^[^.]*[.]/, "", path)
    if (path !~ /^specs[.]/) return ""
    sub(/^specs[.]/, "", path)
    return "crates/" crate "/specs/" path ".antt"
}

# The words of a line, without its comment. A projection is written tight and stays at its word, as in x.new.
function words(text) {
    sub(/(^| )-- .*$/, "", text)
    gsub(/[^A-Za-z0-9_'.-]+/, " ", text)
    return split(text, word, " ")
}

# The definition that a word means in a file, or nothing. What follows a dot is a name in a file that was imported whole, or else a projection.
function meant(file, w,   part) {
    split(w, part, ".")
    w = part[1]
    if ((file, w) in aliases) return defined[aliases[file, w], part[2]]
    if ((file, w) in defined) return defined[file, w]
    return (file, w) in scope ? defined[scope[file, w], w] : ""
}

# All that a root needs.
function reach(d,   i) {
    top = 0; stack[++top] = d
    while (top > 0) {
        d = stack[top--]
        if (d == "" || needed[d]) continue
        needed[d] = 1
        for (i = 1; i <= uses[d]; i++) stack[++top] = meant(of[d], use[d, i])
    }
}

function roots(closed_ones,   c, half, i, n, found) {
    for (c = 1; c <= asked; c++) {
        split(ask[c], half, "\t")
        n = words(half[2]); found = 0
        for (i = 1; i <= n; i++) root[++found] = meant(half[1], word[i])
        for (i = 1; i <= found; i++) if (root[i] != "" && closed[of[root[i]]] == closed_ones) reach(root[i])
    }
}

FNR == 1 { current = ""; record = 0; data = 0; statement = 0; specs = FILENAME ~ /\/specs\//; code = FILENAME ~ /[.]rt$/; closed[FILENAME] = /^-- Closed tests/ ? 1 : 0 }

/^(ghost )?use / {
    line = $0; sub(/^(ghost )?use /, "", line); sub(/;$/, "", line)
    if (line ~ / as [^}]*$/) { split(line, half, " as "); aliases[FILENAME, half[2]] = home(half[1]); next }
    path = line; sub(/[.][{].*/, "", path); file = home(path)
    sub(/.*[{]/, "", line); sub(/[}].*/, "", line)
    n = split(line, name, ", ")
    if (file != "") for (i = 1; i <= n; i++) { split(name[i], half, " as "); scope[FILENAME, half[2] != "" ? half[2] : half[1]] = file }
    next
}

specs && /^module / { record = 0; data = 0; next }

specs && /^ *(unfoldable |abbrev )?pub [^ ]+ / && !(record && /^  pub /) {
    line = $0; sub(/^ *(unfoldable |abbrev )?pub /, "", line)
    record = line ~ /^(record|data) /; data = line ~ /^data /
    sub(/^(record|data) /, "", line); sub(/ .*/, "", line)
    current = FILENAME ":" line
    defined[FILENAME, line] = current; order[++total] = current; of[current] = FILENAME
}

# a case of a data type stands for the type
specs && data && /^  [a-z_-]+ : / { defined[FILENAME, $1] = current }

specs && current != "" && !/^ *--/ && !/^ *$/ {
    lines[current]++
    n = words($0)
    for (i = 1; i <= n; i++) if (!seen[current, word[i]]++) use[current, ++uses[current]] = word[i]
}

# a clause without its own name; what a ghost parameter is, and what a ghost field or the invariant of a model says
code && /^ *(requires|ensures)/ { sub(/^ *(requires|ensures)[*]?( [a-z0-9_]+)? [{]/, ""); ask[++asked] = FILENAME "\t" $0 }
code && /^ *(pub )?ghost [a-zA-Z_]+(: [{]| = [{])/ { sub(/^ *(pub )?ghost [a-zA-Z_]+(:| =) [{]/, ""); ask[++asked] = FILENAME "\t" $0 }

!specs && !code && /^ *pub [^ ]+ : / { statement = 1; ask[++asked] = FILENAME "\t" $0; next }
!specs && !code && /^ *(unfolding |[^ ]+ [^:]*= ?|[^ ]+ =)/ { statement = 0 }
!specs && !code && statement { ask[++asked] = FILENAME "\t" $0 }

END {
    roots(0)
    for (i = 1; i <= total; i++) if (!closed[of[order[i]]] && !needed[order[i]]) print "unneeded " order[i]
    roots(1)
    for (i = 1; i <= total; i++) {
        d = order[i]
        if (closed[of[d]] && !needed[d]) print "unneeded " d
        if (!(of[d] in sum)) files[++count] = of[d]
        sum[of[d]] += lines[d]
    }
    for (i = 1; i <= count; i++) print files[i], sum[files[i]]
}
