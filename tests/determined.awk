# Reads the files of theorems crates/CRATE/proofs/Determined.antt, then the code of the libraries. A theorem is about the function whose
# contract it imports, and has that function's name: the one of tree::parent_of is parent_of_determined, and, where two types share a name,
# those of rank::Rank::ask and rank::Send::ask are rank_ask_determined and send_ask_determined. What `pub use` passes on is judged where it is
# written.

function complain(what) { print "determined: " what; bad = 1 }

function without(text, part,   i) {
    i = index(text, part)
    return i ? substr(text, 1, i - 1) substr(text, i + length(part)) : "no " part
}

# The theorem says: two replies t and u to one call, each as the contract has it, are the same, and so is every `&mut` at exit. No more premises.
# That of a generic function says it whatever its constants and types are: it names them first, and hands all of them to both contracts, in order.
function determines(said, as,   start, i, at, generic, given) {
    i = index(said, "(κs : ")
    generic = substr(said, 1, i - 1); said = substr(said, i)
    if (generic !~ /^([(][^():]+ : [^():]+[)] )*$/) return 0
    while (match(generic, /^[(][^:]+ : /)) {
        given = given substr(generic, 2, RLENGTH - 4) " "
        sub(/^[^)]*[)] /, "", generic)
    }
    if (given != "") gsub(/[.]Post-at /, ".Post ", said)
    start = "(κs : Lfts _) (a : _) (t u : _) (x y : _) → " as ".Post " given "κs a t x → " as ".Post " given "κs a u y → "
    if (index(said, start) != 1) return 0
    said = substr(said, length(start) + 1)
    said = without(said == "t ≡ u" ? "(t ≡ u)" : said, "(t ≡ u)")
    for (i = 1; i <= params; i++) {
        if (param[i] ~ /&([^ ]+ )?mut /) said = without(said, "(x" at ".0.now ≡ y" at ".0.now)")
        at = at ".1"
    }
    gsub("×", "", said)
    return said ~ /^[() ]*$/
}

# The theorem says: whatever the arguments, what is asked of them holds.
function asks_nothing(said, as) { return said == "(κs : Lfts _) (a : _) → " as ".Pre κs a" }

# The theorem with this ending about the function: under its name, or under those of its type and its own.
function about(ending,   own, both) {
    own = name "_" ending
    both = tolower(scope[depth - 1]) "_" own
    return depth > 0 && (crate, both) in theorem ? theorem[crate, both] : theorem[crate, own]
}

function judge(   i, path, as) {
    path = module
    for (i = 0; i < depth; i++) path = path scope[i] "."
    as = alias[crate, path name]
    path = crate "." path name; gsub(/[.]/, "::", path)
    sub(/<.*>[(]/, "(", header); sub(/^[^(]*[(]/, "", header); sub(/[)].*/, "", header)
    params = split(header, param, ",")
    seen[path] = 1
    if (index(" " exceptions " ", " " path " ")) return
    functions++
    if (as == "" || !determines(about("determined"), as))
        complain(path " has no theorem in crates/" crate "/proofs/Determined.antt that it leaves nothing open")
    if (!index(" " entries " ", " " path " ")) return
    if (asks) complain(path " is an entry point and has a requires")
    if (!asks_nothing(about("asks_nothing"), as))
        complain(path " is an entry point and has no theorem in crates/" crate "/proofs/Determined.antt that it asks nothing")
}

FNR == 1 {
    split(FILENAME, part, "/"); crate = part[2]; named = ""; header = ""; code = FILENAME ~ /[.]rt$/
    module = FILENAME; sub(/^[^\/]*\/[^\/]*\/src\//, "", module); sub(/[.]rt$/, ".", module); gsub("/", ".", module)
    if (module == "lib.") module = ""
}

!code && /^use .*[.]Reads as / {
    path = $2; sub(/^.*[.]proofs[.]/, "", path); sub(/[.]Reads$/, "", path)
    if ($2 == "Rattle." crate ".proofs." path ".Reads") alias[crate, path] = $4
}
!code && !/^ / { named = "" }
!code && /^pub [^ ]+ : / { named = $2; gsub("-", "_", named); sub(/^pub [^ ]+ : /, "") }
!code && named != "" {
    sub(/^ +/, " "); sub(/Lfts [0-9]+/, "Lfts _"); sub(/[(]t u : [^:]*[)] [(]x y : _[)]/, "(t u : _) (x y : _)")
    theorem[crate, named] = theorem[crate, named] $0
}

code && /^ *(pub )?(mod|impl)[ <].*[{]$/ { i = (match($0, /[^ ]/) - 1) / 4; scope[i] = $(NF - 1); sub(/<.*/, "", scope[i]) }
code && /^ *pub (extern "C" )?fn / {
    depth = (match($0, /[^ ]/) - 1) / 4; asks = 0; header = " "
    name = $0; sub(/^.*fn /, "", name); sub(/[(<].*/, "", name)
}
code && header != "" {
    header = header $0
    if (/(^| )requires[*]?( |$)/) asks = 1
    if (/[{]/ && !/^ *(requires|ensures)/) { judge(); header = "" }
}

END {
    split(exceptions, exception, " ")
    for (i in exception) if (!(exception[i] in seen)) complain("there is no function " exception[i])
    n = split(entries, entry, " ")
    for (i = 1; i <= n; i++) if (!(entry[i] in seen)) complain("there is no entry point " entry[i])
    if (!bad) print "determined: " functions " public functions, each leaves nothing open; " n " entry points ask nothing"
    exit bad
}
