# Turns the kit's module into one for any processor: awk -v face=FACE.c -f portable.awk FACE.ll MODULE.ll >
# PORTABLE.ll, all three as text.
#
# The module has each exported call twice: the proved function, with every slice as its start and its length, every struct by
# pointer, the answer too but for one of two fields, which is a pair, and a face by x86-64's calling convention. The faces go, since
# the face has them; the proved functions get the names and the declarations that the face calls them by, and where the answer is a
# pair a function that stores it. What the face calls and the module lacks, or has with other types, ends this with one line and status 1,
# and so does a call of the module that the face lacks: names inside the module are the kit's own matter and may change with it.

function fail(text) {
    print text > "/dev/stderr"
    failed = 1
    exit 1
}

# The name between a given start and the parenthesis after it.
function name_after(start,    rest) {
    rest = substr($0, index($0, start) + length(start))
    sub(/"?\(.*/, "", rest)
    return rest
}

# The parameters of the line, as they stand.
function parameters(    rest) {
    rest = substr($0, index($0, "(") + 1)
    return substr(rest, 1, index(rest, ")") - 1)
}

# What the line returns, with or without what is said of it beside its type.
function returned(    rest) {
    rest = substr($0, 1, index($0, "@") - 2)
    sub(/^(declare|define internal) /, "", rest)
    return rest
}
function plain(type) {
    gsub(/(noundef|signext|zeroext|dso_local) ?/, "", type)
    sub(/ +$/, "", type)
    return type
}

# The types alone of a list of parameters.
function types(list,    n, part, i, all) {
    n = split(list, part, / *, */)
    for (i = 1; i <= n; i++) {
        sub(/ .*/, "", part[i])
        all = all " " part[i]
    }
    return all
}

# The face's parameters with the names that a definition needs.
function named(list,    n, part, i, all) {
    n = split(list, part, / *, */)
    for (i = 1; i <= n; i++)
        all = all (i > 1 ? ", " : "") part[i] " %a" (i - 1)
    return all
}

# A function for the face that stores the pair which a function of the module answers with.
function storing(call, name, pair,    n, part, i, type, all) {
    n = split(given[call], part, / *, */)
    for (i = 2; i <= n; i++) {
        type = part[i]
        sub(/ .*/, "", type)
        all = all (i > 2 ? ", " : "") type " %a" (i - 1)
    }
    return "\ndefine void @proved_" call "(" named(given[call]) ") {\n  %pair = call " pair " " name "(" all ")\n  store " pair \
        " %pair, ptr %a0\n  ret void\n}\n"
}

FNR == 1 { file++ }

file == 1 && /^declare .*@proved_/ {
    call = name_after("@proved_")
    result[call] = returned()
    given[call] = parameters()
}
file == 1 && /^define .*@toggleash_/ { faced[name_after("@toggleash_")] }
file == 1 { next }

/^target / { next }
/^define .*@toggleash_/ {
    call = name_after("@toggleash_")
    if (!(call in faced))
        fail("the module has the call toggleash_" call ", and " face " does not")
    dropping = 1
}
dropping {
    if (/^}/)
        dropping = 0
    next
}
/^define internal .*@"(toggleash|resolver|packing|shortener|damper)_c::((copies|local|six)::)?toggleash_/ {
    call = name_after("::toggleash_")
    is_pair = plain(returned()) ~ /^[{]/
    taken = (is_pair ? " ptr" : "") types(parameters())
    answer = is_pair ? "void" : plain(returned())
    if (!(call in given) || types(given[call]) != taken || plain(result[call]) != answer)
        fail("the module has toggleash_" call " with other types than " face ": " $0)
    found[call]
    if (is_pair) {
        match($0, /@"[^"]*"/)
        pairs = pairs storing(call, substr($0, RSTART, RLENGTH), plain(returned()))
    } else
        $0 = "define " result[call] " @proved_" call "(" named(given[call]) ")" substr($0, index($0, ")") + 1)
}
# The module has each field of a pair in memory where x86-64 has it: the second one at 8 bytes where it is a pointer. A load of such a
# pair as one would look for a pointer of 32 bits at 4, so each field is loaded from its place.
/= load [{] [a-z0-9]+, ptr [}], ptr / {
    pair = $1
    first = $0
    sub(/^.*= load [{] /, "", first)
    sub(/,.*/, "", first)
    from = $0
    sub(/^.*[}], ptr /, "", from)
    sub(/,.*/, "", from)
    print "  " pair ".first = load " first ", ptr " from
    print "  " pair ".place = getelementptr i8, ptr " from ", i64 8"
    print "  " pair ".second = load ptr, ptr " pair ".place"
    print "  " pair ".half = insertvalue { " first ", ptr } poison, " first " " pair ".first, 0"
    print "  " pair " = insertvalue { " first ", ptr } " pair ".half, ptr " pair ".second, 1"
    next
}
/= load [{].*, ptr[ ,}].*[}], ptr / { fail("the module loads more than a pair with a pointer as one: " $0) }
{
    gsub(/captures\(none\)/, "nocapture") # the word that older readers of such text know too
    gsub(/ "target-cpu"="[^"]*"/, "")
    print
}

END {
    if (failed)
        exit 1
    for (call in given)
        if (!(call in found))
            fail("the module has no function toggleash_" call)
    printf "%s", pairs
}
