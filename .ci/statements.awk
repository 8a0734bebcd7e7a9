# Looks at the public functions of .rt files: see .ci/statements. Variables: views, loose. Prints a line a fault, then the count of functions.

function said(what) { told = told name ": " what "\n" }

# Has the text the word w?
function has(text, w) { return (" " text " ") ~ ("[^A-Za-z0-9_.]" w "[^A-Za-z0-9_]") }

# The length of the balanced run that begins the text. The > of an arrow shuts nothing.
function run(text, open, shut,    i, c, depth) {
    for (i = 1; i <= length(text); i++) {
        c = substr(text, i, 1)
        if (c == ">" && substr(text, i - 1, 1) ~ /[-=]/) continue
        if (c == open) depth++
        if (c == shut && --depth == 0) return i
    }
    said("is not understood")
    return length(text)
}

# A fact of an `ensures`: what does it determine?
function fact(f,    cut, left, right, words, n) {
    cut = index(f, " ≡ ")
    left = substr(f, 1, cut - 1)
    right = substr(f, cut + length(" ≡ "))
    # not a definition: the result itself
    if (!cut || right ~ /\.(new|exit)| ≡ / || has(right, "result")) return
    if (left ~ /^[A-Za-z0-9_]+\.new$/) {
        sub(/\.new$/, "", left)
        behind[left] = 1
        return
    }
    n = split(left, words, " ")
    if (words[n] == "result" && (n == 1 || words[1] in view)) result = 1
}

# fact, or (fact) × (fact)
function ensured(text,    facts, n, i) {
    gsub(/^ +| +$/, "", text)
    # of every number
    sub(/^\([a-z]+ : ℕ\) → /, "", text)
    # one fact of several of which only some need hold, or one of some value
    if (text ~ /→|↔|⊎|∨|¬|≢|∥|⌝| : /) return
    n = split(text, facts, /\) × \(/)
    if (n > 1) {
        sub(/^\(/, "", facts[1])
        sub(/\)$/, "", facts[n])
    }
    for (i = 1; i <= n; i++) fact(facts[i])
}

# The function whose name begins `all`.
function one(crate,    params, gives, n, clause, p, ensures) {
    told = ""
    result = 0
    for (p in behind) delete behind[p]
    match(all, /^[A-Za-z0-9_]*/)
    name = crate "::" substr(all, 1, RLENGTH)
    all = substr(all, RLENGTH + 1)
    if (all ~ /^ *</) all = substr(all, run(all, "<", ">") + 1)
    n = run(all, "(", ")")
    params = substr(all, 1, n)
    all = substr(all, n + 1)
    n = match(all, / (ensures|requires|ghost)\*?( +[A-Za-z0-9_]+:?)? *\{|[{;]/)
    gives = substr(all, 1, n - 1)
    all = substr(all, n)
    while (match(all, /^ *(ensures|requires|ghost)\*?( +[A-Za-z0-9_]+:?)? *\{/)) {
        clause = substr(all, 1, RLENGTH)
        sub(/^ */, "", clause)
        sub(/[ {].*/, "", clause)
        all = substr(all, RSTART + RLENGTH - 1)
        n = run(all, "{", "}")
        if (clause ~ /^requires/) said("has a requires")
        # (a starred clause speaks of memory)
        if (clause == "ensures") {
            ensures++
            ensured(substr(all, 2, n - 2))
        }
        all = substr(all, n + 1)
    }
    if (!ensures) said("has no ensures")
    if (ensures && gives ~ /->/ && !result) said("does not determine its result")
    sub(/&('[a-z_]+ +)?mut +self/, "self: &mut Self", params)
    while (ensures && match(params, /[A-Za-z0-9_]+: &('[a-z_]+ +)?mut /)) {
        p = substr(params, RSTART, RLENGTH)
        sub(/:.*/, "", p)
        params = substr(params, 1, RSTART - 1) substr(params, RSTART + RLENGTH)
        if (!(p in behind)) said("does not determine what stands behind " p)
    }
    if (ensures && params ~ /&('[a-z_]+ +)?mut /) said("has a &mut inside a parameter, which this does not read")
    functions++
    if (!(name in known)) printf "%s", told
    else known[name] = known[name] != "not there" ? "there twice" : told == "" ? "tight" : "loose"
}

# What an impl's `ghost f_gives = { λ x r. r ≡ DEFINITION }` says of its f, as an `ensures` of f.
function told_of_methods(block,    clause, f, last, n) {
    while (match(block, /ghost +[a-z_]+_gives *= *\{ *λ [^.{}]*\. [^{}]*\};/)) {
        clause = substr(block, RSTART, RLENGTH)
        block = substr(block, 1, RSTART - 1) substr(block, RSTART + RLENGTH)
        f = clause
        sub(/^ghost +/, "", f)
        sub(/_gives.*/, "", f)
        last = clause
        sub(/\. .*/, "", last)
        sub(/.* /, "", last)
        sub(/^[^.]*\. +/, "", clause)
        sub(/ *\};$/, "", clause)
        if (index(clause, last " ≡ ") == 1 && !has(substr(clause, length(last) + 1), last)) clause = "result" substr(clause, length(last) + 1)
        if (!match(block, "[^A-Za-z0-9_]fn +" f "\\([^{}]*\\{")) continue
        n = RSTART + RLENGTH - 2
        block = substr(block, 1, n) "ensures { " clause " } " substr(block, n + 1)
    }
    return block
}

# A method of a public trait, or of an impl of a trait, is public with no word pub: it gets one.
function open_methods(    before, head, n, block) {
    before = ""
    while (match(all, /[^A-Za-z0-9_](pub +(unsafe +)?trait|impl)[^A-Za-z0-9_][^{;]*\{/)) {
        head = substr(all, RSTART, RLENGTH)
        before = before substr(all, 1, RSTART + RLENGTH - 2)
        all = substr(all, RSTART + RLENGTH - 1)
        n = run(all, "{", "}")
        block = told_of_methods(substr(all, 1, n))
        if (head ~ /^.pub/ || head ~ / for /) gsub(/ fn +/, " pub fn ", block)
        before = before block
        all = substr(all, n + 1)
    }
    all = before all
}

# Tests promise nothing.
function leave_tests(    before) {
    before = ""
    while (match(all, /#\[cfg\(test\)\] *mod +[a-z_]+ *\{/)) {
        before = before substr(all, 1, RSTART - 1)
        all = substr(all, RSTART + RLENGTH - 1)
        all = substr(all, run(all, "{", "}") + 1)
    }
    all = before all
}

function look(    crate) {
    crate = file
    sub(/\/src\/.*/, "", crate)
    sub(/.*\//, "", crate)
    if (index(all, "/*")) print file ": has a /* comment, which this does not read"
    # the ; of an array's type ends no head
    gsub(/; *[A-Za-z0-9_:]+\]/, "]", all)
    leave_tests()
    open_methods()
    while (match(all, /[^A-Za-z0-9_]pub +(([a-z]+|"") +)*fn +/)) {
        all = substr(all, RSTART + RLENGTH)
        one(crate)
    }
    all = " "
}

BEGIN {
    n = split(views, list, " ")
    for (i = 1; i <= n; i++) view[list[i]] = 1
    n = split(loose, list, " ")
    for (i = 1; i <= n; i++) known[list[i]] = "not there"
    all = " "
}
FNR == 1 {
    look()
    file = FILENAME
}
{
    # neither a string nor a character nor a comment is code
    gsub(/b?'([^'\\]|\\[^xu]|\\x[0-9a-fA-F][0-9a-fA-F]|\\u\{[0-9a-fA-F_]+\})'/, "0")
    gsub(/b?"([^"\\]|\\.)*"/, "\"\"")
    sub(/\/\/.*/, "")
    rest = $0
    gsub(/""/, "", rest)
    if (rest ~ /"|r#/) print FILENAME ": has a string that this does not read"
    all = all $0 " "
}
END {
    look()
    for (p in known) if (known[p] != "loose") print p ": is listed as loose, and is " known[p]
    print functions " functions"
}
