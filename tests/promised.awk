# The reader of tests/promised: it finds each public function's head in Rattle's text, and judges it. What it cannot read it reports.

BEGIN {
    # where an operator comes from: with another meaning, what reads as an equality would be none
    prelude = "Rattle.std.specs.Prelude"
    enter(home, "◌≡◌ ◌+◌ ◌-◌ ◌*◌ ◌/◌ ◌%◌ ◌^◌ ◌≤◌ ◌<◌ ◌&&◌ ◌||◌ ◌∷◌ ◌++◌ ◌==◌ if◌then◌else◌", prelude)
    # what may stand in a value besides names and numerals
    enter(in_value, "( ) + - * / % ^ && || ∷ ++ [] ==", 1)
    # words of clauses and antt's own, which are no names
    enter(reserved, "result data record deriving module where use mod pub package using open as unfoldable abbrev axiom unfold unfolding", 1)
    enter(reserved, "ruleset mutual infix infixl infixr elim let in do Type coe fcoe tcoe hcom com V vin vproj inS outS", 1)
}

function enter(table, words, value,    n, word) {
    for (n = split(words, word, " "); n > 0; n--) table[word[n]] = value
}

FNR == 1 { end_file(); begin_file() }
{ read($0) }
END {
    end_file()
    print count + 0 " public functions read"
    if (count < least) print "at least " least " were to be found"
    exit bad || count < least
}

function report(line, who, what) {
    print file ":" line ": " who ": " what
    bad = 1
}

function wrong(what) {
    report(head_line, token_at[1], what)
}

# ---- the text, token by token

function begin_file() {
    file = FILENAME
    mode = lead = item = ""
    comments = text = in_head = brought = first_public = 0
    split("", alias)
}

function end_file() {
    if (file == "") return
    if (mode == "use" || comments || text) report(last_line, "the file", "ends within an import, a comment or a text")
    if (in_head && !is_public) report(head_line, token_at[1], "is open at the end of the file")
    if (in_head) end_head()
    if (first_public && !brought) report(first_public, "the file", "does not bring in ◌≡◌ of " prelude)
}

# mode: "" for Rattle's text; antt's is that of a "clause" and of a ghost "member", from its { to its }, and of a "use", to its ;
function read(rest,    size, token) {
    last_line = FNR
    spaced = 1
    while (rest != "") {
        if (comments) {
            if (match(rest, /\/\*|\*\//)) {
                comments += substr(rest, RSTART, 2) == "/*" ? 1 : -1
                rest = substr(rest, RSTART + 2)
            } else rest = ""
        } else if (text) {
            text = !match(rest, /^([^"\\]|\\.)*"/)
            rest = text ? "" : substr(rest, RLENGTH + 1)
        } else if (match(rest, /^[ \t\r]+/)) {
            spaced = 1
            rest = substr(rest, RLENGTH + 1)
        } else if (mode != "") {
            size = match(rest, /^[^ \t\r(){}.;,@"]+/) ? RLENGTH : 1
            token = substr(rest, 1, size)
            # a . that leads to a field, or from a module's name to one of its names
            if (token == "." && !spaced && rest ~ /^\.[^ \t\r]/) token = "::"
            if (token ~ /^--|"/ || rest ~ /^\{-/ || !is_quoted(token) && token ~ /«|»/)
                report(FNR, in_head ? token_at[1] : "the file", "has a comment or a text in antt, which is not read")
            rest = substr(rest, size + 1)
            spaced = 0
            take_antt(token)
        } else if (rest ~ /^\/\//) rest = ""
        else if (rest ~ /^\/\*/) {
            comments = 1
            rest = substr(rest, 3)
        } else {
            if (rest ~ /^b?r#*"/) report(FNR, "the file", "has a raw text, which is not read")
            if (match(rest, /^b?r?#*"/)) {
                text = 1
                token = "\""
            } else if (match(rest, /^b?\047(\\.[^\047]*|[^\\\047])\047/)) token = "0"
            else {
                if (!match(rest, /^([A-Za-z0-9_]+|->|::)/)) RLENGTH = 1
                token = substr(rest, 1, RLENGTH)
            }
            rest = substr(rest, RLENGTH + 1)
            take(token)
        }
    }
}

# a name that is also a word of antt's, as a clause writes it
function is_quoted(token) {
    return token ~ /^«[A-Za-z0-9_]+»$/
}

# the name itself
function bare(token) {
    gsub(/«|»/, "", token)
    return token
}

# lead has the tokens since the last item or part of one
function take(token) {
    if (in_head) {
        take_head(token)
        return
    }
    if (lead ~ / ghost$/) {
        mode = token == "use" ? "use" : "member"
        sizes = level = 0
        # a trait's member or a type's field that is ghost: NAME = { .. }; or NAME: { .. },
        if (mode == "member" && token !~ /^[a-z_]+$/) report(FNR, "the file", "has a ghost member in a form that is not read")
    }
    if (token == "fn") {
        is_public = lead ~ / pub( const| unsafe| async| extern| ")*$| extern( ")?$/
        in_head = 1
        tokens = depth = clause = 0
        split("", token_at)
    }
    # a promise speaks of what is lent by its parameter, so nothing is lent in another way
    if (token ~ /^(struct|enum|type)$/) item = token
    if (token ~ /^(fn|impl|const|static|mod|use)$/) item = ""
    if (item != "" && token == "&") report(FNR, "the file", "has a reference inside a " item)
    lead = token ~ /^[;{},\]]$/ ? "" : lead " " token
}

# a head goes from the function's name to its body's {
function take_head(token) {
    token_at[++tokens] = token
    if (tokens == 1) {
        head_line = FNR
        in_head = token ~ /^[A-Za-z_]/
    }
    if (token == "pub" || token == "fn") report(FNR, token_at[1], "has " token " in its head")
    if (token ~ /^[([]$/) depth++
    if (token ~ /^[])]$/) depth--
    if (depth != 0) return
    if (token ~ /^(requires|ensures|ghost)$/) clause = 1
    if (token == "{" && clause) {
        mode = "clause"
        level = 1
        clause = 0
    } else if (token == "{" || token == ";") end_head()
}

function take_antt(token) {
    if (mode == "use") {
        if (token == ";") {
            mode = ""
            lead = ""
            judge_use()
        } else imported[++sizes] = token
        return
    }
    if (mode == "clause") token_at[++tokens] = token
    level += (token == "{") - (token == "}")
    if (level == 0 && (mode == "clause" || token == "}")) mode = lead = ""
}

function end_head() {
    in_head = 0
    mode = lead = ""
    if (is_public) judge()
}

# ---- what a file brings in: MODULE.{NAME, ..} or MODULE as NAME

function judge_use(    k, module, what) {
    for (k = 1; k < sizes && imported[k + 1] ~ /^(\.|::)$/; k += 2) module = module (k == 1 ? "" : ".") imported[k]
    if (imported[k] == "{" && imported[sizes] == "}") {
        while (++k < sizes) {
            what = imported[k]
            if (what ~ /◌/ && home[what] != module) report(FNR, "the file", "brings in " what " from " module)
            if (what == "◌≡◌" && home[what] == module) brought = 1
            if (imported[++k] != "," && k != sizes) report(FNR, "the file", "brings in " what " in a form that is not read")
        }
    } else if (imported[k + 1] == "as" && k + 2 == sizes && imported[sizes] !~ /◌/) alias[imported[sizes]] = 1
    else report(FNR, "the file", "has an import in a form that is not read")
}

# ---- a public function

function judge(    answer, word, ensured, is_read, from) {
    count++
    lents = 0
    is_read = 1
    split("", told)
    split("", given)
    if (!first_public) first_public = head_line
    at = 2
    if (!parameters()) {
        wrong("has a parameter in a form that is not read")
        return
    }
    if (token_at[at] == "->") {
        at++
        answer = type()
        if (answer == "" || answer == "&mut") {
            wrong("has an answer of a type that is not read")
            return
        }
    }
    while (token_at[at] ~ /^(requires|ensures)$/) {
        word = token_at[at++]
        # the clause may have a name
        if (token_at[at] != "{") at++
        if (token_at[at] != "{") {
            wrong("has a clause in a form that is not read")
            return
        }
        from = ++at
        for (level = 1; at <= tokens && level > 0; at++) level += (token_at[at] == "{") - (token_at[at] == "}")
        if (word == "requires") wrong("requires something")
        else {
            ensured = 1
            if (!equalities(from, at - 2)) is_read = 0
        }
    }
    if (ensured && is_read) all_told(answer)
    if (!ensured) wrong("promises nothing")
    if (token_at[at] == "") wrong("is open at the end of the file")
    else if (token_at[at] != "{") wrong("has " token_at[at] " before its body")
}

# (NAME: TYPE, ..), or self in one of its forms; what is lent to be written is kept
function parameters(    x, kind) {
    if (token_at[at++] != "(") return 0
    while (token_at[at] != ")") {
        kind = "value"
        if (token_at[at] == "mut") at++
        else if (token_at[at] == "&") {
            kind = reference()
            if (token_at[at] != "self") return 0
        }
        x = token_at[at++]
        if (x !~ /^[A-Za-z_]/) return 0
        if (x != "self") {
            if (token_at[at++] != ":") return 0
            kind = type()
        }
        if (kind == "") return 0
        given[x] = 1
        if (kind == "&mut") lent[++lents] = x
        if (token_at[at] == ",") at++
        else if (token_at[at] != ")") return 0
    }
    at++
    return 1
}

function reference() {
    if (token_at[++at] != "mut") return "&"
    at++
    return "&mut"
}

# what a type says of lending; "" for a type that has references inside, or another form
function type(    kind) {
    kind = token_at[at] == "&" ? reference() : "value"
    return plain() ? kind : ""
}

function plain() {
    if (token_at[at] != "[") return path()
    at++
    if (!plain()) return 0
    if (token_at[at] == ";") {
        at++
        if (!path()) return 0
    }
    return token_at[at++] == "]"
}

function path() {
    if (token_at[at++] !~ /^[A-Za-z0-9_]+$/) return 0
    if (token_at[at] == "<") return inner()
    if (token_at[at] != "::") return 1
    at++
    return path()
}

# the types inside of Option<..> and Result<.., ..>, none of them a reference; () is one too
function inner() {
    do {
        at++
        if (token_at[at] == "(" && token_at[at + 1] == ")") at += 2
        else if (!plain()) return 0
    } while (token_at[at] == ",")
    return token_at[at++] == ">"
}

# ---- its promises: the tokens a to b of a clause

# one equality, or several in parentheses, joined by × and by nothing else
function equalities(a, b,    k, deep, from) {
    from = a
    for (k = a; k <= b; k++) {
        deep += (token_at[k] == "(") - (token_at[k] == ")")
        if (deep == 0 && token_at[k] == "×") {
            if (!enclosed(from, k - 1)) return 0
            from = k + 1
        }
    }
    if (from > a || closing(a) == b) return enclosed(from, b)
    return equality(a, b)
}

function enclosed(a, b) {
    if (closing(a) == b) return equalities(a + 1, b - 1)
    wrong("joins by × what is not in parentheses of its own")
    return 0
}

# where the parenthesis at a closes; 0 for none
function closing(a,    k, deep) {
    for (k = a; token_at[a] == "(" && k <= tokens; k++) {
        deep += (token_at[k] == "(") - (token_at[k] == ")")
        if (deep == 0) return k
    }
    return 0
}

function equality(a, b,    k, deep, middle, left) {
    for (k = a; k <= b && deep >= 0; k++) {
        deep += (token_at[k] == "(") - (token_at[k] == ")")
        if (deep == 0 && token_at[k] == "≡" && !middle) middle = k
    }
    if (deep != 0 || middle <= a || middle >= b) {
        wrong("promises something else than an equality")
        return 0
    }
    for (k = a; k < middle; k++) left = left (token_at[k] ~ /^(::|\))$/ || token_at[k - 1] ~ /^(::|\()$/ || k == a ? "" : " ") bare(token_at[k])
    gsub(/::/, ".", left)
    for (k = middle + 1; k <= b; k++) {
        if (!is_value(k)) {
            wrong("has " (token_at[k] == "::" ? bare(token_at[k - 1]) "." token_at[k + 1] : token_at[k]) " in what " left " equals")
            return 0
        }
    }
    told[left]++
    return 1
}

# Whether the token may stand in a value: a name, a numeral, what is in_value, a field of what was given, and a name of a module where it can be no operator.
# The answer and what is left at the end may not: they would be told by themselves.
function is_value(k,    token, before) {
    token = token_at[k]
    if (token in reserved || bare(token) ~ /^(result|exit)$/) return 0
    if (bare(token) == "new" && token_at[k - 1] == "::") return 0
    if (token == "::") {
        before = bare(token_at[k - 1])
        if (before in given || before == ")" || token_at[k - 2] == "::") return 1
        return before in alias && token_at[k - 2] ~ /^(\(|≡)$/
    }
    return token ~ /^[A-Za-z0-9_]+\047?$/ || is_quoted(token) || token in in_value
}

# each of the answer and what was lent is told once, and nothing else is
function all_told(answer,    k, left) {
    if (answer == "value") is_told("result", "what the answer is")
    if (answer == "&") {
        is_told("result.now", "which bytes the answer has")
        is_told("result.ref_ptr", "which part of what was lent the answer is")
    }
    for (k = 1; k <= lents; k++) is_told(lent[k] ".new", "what " lent[k] " then holds")
    for (left in told) wrong("says something of " left ", which is neither its answer nor lent to be written")
}

function is_told(left, what) {
    if (told[left] != 1) wrong(told[left] ? "says more than once " what : "does not say " what)
    delete told[left]
}
