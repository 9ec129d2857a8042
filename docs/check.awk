# Reads the paths of all files and folders, one to a line; docs/check says what is held to what.

{ there[$0] = 1; paths[NR] = $0 }

END {
    in_order = "sort -t: -k1,1 -k2,2n"
    # the kit's libraries; a word of Rust, one that tells a form, and files that a reader has or writes
    split("libc io os std check bytes", kit, " ")
    for (i in kit) of_kit[kit[i]] = 1
    split("Option f_of Cargo.toml my.txt 01-scope.md", word, " ")
    for (i in word) known[word[i]] = 1
    for (i = 1; i <= NR; i++) learn(paths[i])
    for (i = 1; i <= NR; i++) if (paths[i] ~ /^docs\/requests\/.*\.md$/) newest = paths[i]
    for (i = 1; i <= NR; i++) if (is_document(paths[i])) hold_document(paths[i])
    hold_edits()
    hold_functions()
    hold_statements()
    hold_crates()
    close(in_order)
    if (broken) { print "docs/check: " broken " broken"; exit 1 }
    print "docs/check: " held " references hold; " edits " edits, " functions " public functions and " statements " statements are told"
}

function is_document(path) {
    if (path == "docs/PORT.md" || path == "docs/DESIGN-PASS.md") return 0
    return path ~ /^(README|docs\/[^\/]*|host\/README|bench\/README)\.md$/ || holds_no_words(path)
}

# Requests tell what has gone, and a package's README the words of its own text forms.
function holds_no_words(path) { return path == newest || path ~ /^host\/[^\/]*\/README\.md$/ }

function broke(where, what) { print where ": " what | in_order; broken++ }

# ---- what is there

function learn(path,    part, n, stem) {
    n = split(path, part, "/")
    stem = part[n]
    sub(/\.[a-z]*$/, "", stem)
    if (path ~ /\/must-fail\/.*\.edit$/) { edit[part[2] "/" stem] = 1; return }
    known[stem] = known[part[n]] = 1
    if (path ~ /^crates\/[^\/]*$/) crate[part[2]] = 1
    else if (path ~ /\.antt$/) learn_module(path, part[2])
    else if (path ~ /^(crates|host|bench)\/.*\.(rt|rs)$/) learn_code(path, part)
    else if (path ~ /^host\/include\/.*\.h$/) learn_header(path)
    else if (path ~ /\/Cargo\.toml$/) learn_package(path, part[1] "/" part[2])
}

function declare(module, name) { declared[module, name] = known[name] = 1 }

# A declaration begins its line; members of a type, and public names of a section, stand further in.
function learn_module(path, owner,    module, line, of_type, at, n, name, i) {
    module = path
    sub(/\.antt$/, "", module)
    while ((getline line < path) > 0) {
        if (line ~ /^[^ -]/) of_type = line ~ /^(pub )?(record|data) /
        else if (line !~ (of_type ? "^  [^ -]" : "^  *pub ")) continue
        if (line ~ /^abbrev pub [A-Z][A-Za-z0-9]* : Type 0$/) statement[owner, third(line)] = module ": " third(line)
        if (path ~ /\/proofs\// && line ~ /^pub [^ ]* : [A-Z][A-Za-z0-9]*$/) learn_theorem(owner, module, line)
        sub(/^ */, "", line)
        while (sub(/^(abbrev|unfoldable|pub|record|data) /, "", line)) { }
        at = index(line " ", " : ")
        if (!at) continue
        line = substr(line, 1, at - 1)
        sub(/ [({].*/, "", line)
        n = split(line, name, " ")
        for (i = 1; i <= n; i++) declare(module, name[i])
    }
    close(path)
}

function third(line,    word) { split(line, word, " "); return word[3] }

# A statement's theorem stands in its crate, or else in any other.
function learn_theorem(owner, module, line,    word) {
    split(line, word, " ")
    theorem[owner, word[4]] = theorem[owner, word[4]] " " module ":" word[2]
    elsewhere[word[4]] = elsewhere[word[4]] " " module ":" word[2]
}

function learn_code(path, part,    module, folder, line, name, library) {
    module = path
    sub(/\.r[ts]$/, "", module)
    folder = part[1] "/" part[2]
    library = part[1] == "crates" && ((folder "/src/lib.rt") in there)
    while ((getline line < path) > 0) {
        if (!match(line, /(^|[ (])(fn|struct|enum|const|mod|type) [A-Za-z_][A-Za-z0-9_]*/)) continue
        name = substr(line, RSTART, RLENGTH)
        sub(/.* /, "", name)
        declare(module, name)
        declare(folder, name)
        if (library && line ~ /^ *pub (extern "C" )?fn /) public[part[2], name] = path
        if (library && line ~ /^ *pub extern "C" fn /) exported[part[2], name] = 1
    }
    close(path)
}

# Numbers with a name: `#define NAME`, and `NAME =` in an enum.
function learn_header(path,    line, name) {
    while ((getline line < path) > 0)
        for (; match(line, /(#define WHIPSAIL_[A-Z0-9_]+)|(WHIPSAIL_[A-Z0-9_]+ =)/); line = substr(line, RSTART + RLENGTH)) {
            name = substr(line, RSTART, RLENGTH)
            gsub(/#define | =/, "", name)
            known[name] = 1
        }
    close(path)
}

# The folder of each Rust package of host/ and bench/.
function learn_package(path, folder,    line) {
    while ((getline line < path) > 0)
        if (line ~ /^name = "/) { gsub(/^name = "|"$/, "", line); package[line] = folder; break }
    close(path)
}

# ---- what the documents name

function hold_document(path,    line, number, text, began, fenced) {
    in_cut = 0
    edits_of = ""
    while ((getline line < path) > 0) {
        number++
        if (line ~ /^```/) { fenced = !fenced; continue }
        hold_paths(path ":" number, line)
        if (fenced) { if (path == "README.md") hold_layer(path ":" number, line); continue }
        # a span of code may go on in the next line
        if (text == "") began = number
        text = text == "" ? line : text " " line
        if (gsub(/`/, "`", text) % 2) continue
        hold_text(path, path ":" began, text)
        text = ""
    }
    close(path)
}

function hold_text(path, where, text,    n, part, i, row, cell) {
    row = text ~ /^\|/
    if (row || text ~ /^(- |#|$)/) edits_of = ""
    if (text ~ /^## /) in_cut = path == "docs/DECISIONS.md" && text == "## The cut"
    n = split(text, part, "`")
    for (i = 1; i <= n; i++) {
        if (i % 2 == 0) hold_span(path, where, part[i], in_cut && row && cell == 1)
        else if (row && (cell += gsub(/\|/, "|", part[i])) && part[i] ~ /\|/) edits_of = ""
    }
}

function hold_span(path, where, span, of_cut) {
    if (of_cut) { in_the_cut[span] = 1; if (!(span in crate)) broke(where, "the cut has `" span "`, which is no crate") }
    if (span ~ /^crate(\/|::)/) return # tells the form of a reference
    if (span ~ /^[a-z_0-9]*\/(specs|proofs|src)\/[^ ]/) hold_names(path, where, span)
    else if (span ~ /^[a-z_0-9]*\/must-fail\/[^ ]*$/) hold_edit(path, where, span)
    else if (span ~ /^[A-Za-z_0-9]*(::[A-Za-z_0-9]*)+$/) hold_code(path, where, span)
    else if (span ~ /^[A-Za-z0-9_.-]+\/[A-Za-z0-9_.\/-]*$/) hold_relative(path, where, span)
    else if (!holds_no_words(path) && span ~ /^[A-Za-z][A-Za-z0-9_.-]*$/) hold_word(path, where, span)
}

# `crate/specs/Module: name, name .field`
function hold_names(path, where, span,    at, module, n, name, i) {
    at = index(span ": ", ": ")
    module = "crates/" substr(span, 1, at - 1)
    sub(/\.rt$/, "", module)
    if (!((module ".antt") in there) && !((module ".rt") in there)) { broke(where, "no module " substr(span, 1, at - 1)); return }
    n = split(substr(span, at + 2), name, /, | \.| /)
    for (i = 1; i <= n; i++) {
        held++
        if ((module, name[i]) in declared) told[path, module ":" name[i]] = 1
        else broke(where, module " declares no `" name[i] "`")
    }
}

function hold_edit(path, where, span,    label) {
    label = span
    sub(/^.*\/must-fail\//, "", label)
    edits_of = span
    sub(/\/.*/, "", edits_of)
    tell_edit(path, where, label)
}

function tell_edit(path, where, label) {
    held++
    if ((edits_of "/" label) in edit) told[path, edits_of "/" label] = 1
    else broke(where, "no edit " edits_of "/must-fail/" label)
}

# `crate::name`, `crate::Type::name`, `package::name`, `Type::name`
function hold_code(path, where, span,    n, part, i, owner, other) {
    n = split(span, part, "::")
    owner = "crates/" part[1]
    other = package[part[1]]
    if (part[1] in of_kit) return
    for (i = 2; i <= n; i++) {
        held++
        if (!(part[1] in crate) && other == "") { if ((part[1] in known) && (part[i] in known)) continue }
        else if (((owner, part[i]) in declared) || ((other, part[i]) in declared)) { told[path, part[1] "::" part[n]] = 1; continue }
        broke(where, "`" span "`: no `" part[i] "` there")
    }
}

# A word is a label where an edit was named before it, and a name otherwise; tests of the model may be either.
function hold_word(path, where, span) {
    if (span !~ /[_-]|[a-z][A-Z]|^[A-Z][a-z]|\.[a-z]/) return
    if (edits_of != "" && span ~ /[_-]/ && !is_test(span)) { tell_edit(path, where, span); return }
    held++
    if (!(span in known)) broke(where, "`" span "` is declared nowhere")
    told[path, span] = 1
}

function is_test(name) { return (("host/model", name) in declared) }

# Paths from the root, in any text. rt makes out/ in a crate.
function hold_paths(where, line,    n, part, i, word) {
    gsub(/crates\/(crate|NAME)(\/[A-Za-z\/.-]*)?/, "", line) # tells the form of a path
    gsub(/[^A-Za-z0-9_.\/*-]/, " ", line)
    n = split(line, part, " ")
    for (i = 1; i <= n; i++) {
        word = part[i]
        sub(/[.\/]*$/, "", word)
        if (word !~ /^(docs|host|bench|crates|tools|\.ci)\// || word ~ /^crates\/[^\/]*\/out(\/|$)/) continue
        held++
        if (!is_there(word)) broke(where, "no " word)
    }
}

# In a span also from crates/, from the document's folder or one in it; target/ is made, and each crate has specs/.
function hold_relative(path, where, span,    folder) {
    sub(/\/$/, "", span)
    if (span ~ /^((docs|host|bench|crates|tools|target|\.ci)(\/.*)?|specs|proofs|src)$/) return
    held++
    folder = path
    sub(/[^\/]*$/, "", folder)
    path = folder span
    while (sub(/[^\/]+\/\.\.\//, "", path)) { }
    if (!(path in there) && !(("crates/" span) in there) && !is_there(folder "*/" span)) broke(where, "no " span)
}

function is_there(word,    i, pattern) {
    if (word !~ /\*/) return word in there
    pattern = word
    gsub(/\./, "\\.", pattern)
    gsub(/\*/, "[^/]*", pattern)
    for (i = 1; i <= NR; i++) if (paths[i] ~ ("^" pattern "$")) return 1
    return 0
}

# A line of README's layers: crates, two spaces, what they are.
function hold_layer(where, line,    n, name, i) {
    if (line !~ /^ [a-z]/) return
    sub(/^ /, "", line)
    sub(/  .*/, "", line)
    n = split(line, name, " · ")
    for (i = 1; i <= n; i++) {
        in_layers[name[i]] = 1
        if (!(name[i] in crate)) broke(where, "the layers have " name[i] ", which is no crate")
    }
}

# ---- what the files have

function hold_edits(    key, path) {
    for (key in edit) {
        edits++
        path = key
        sub(/\//, "/must-fail/", path)
        if (!(("docs/PROMISES.md", key) in told)) broke("crates/" path ".edit", "docs/PROMISES.md does not name this edit")
    }
}

# An exported function goes by its own name.
function hold_functions(    key, part, name) {
    for (key in public) {
        functions++
        split(key, part, SUBSEP)
        name = (key in exported) ? part[2] : part[1] "::" part[2]
        if (!(("docs/PROMISES.md", name) in told))
            broke(public[key], "docs/PROMISES.md does not name the public function " name)
    }
}

function hold_statements(    key, part, theorems, n, name, i, found) {
    for (key in statement) {
        statements++
        split(key, part, SUBSEP)
        theorems = (key in theorem) ? theorem[key] : elsewhere[part[2]]
        n = split(theorems, name, " ")
        found = 0
        for (i = 1; i <= n; i++) if (("docs/PROMISES.md", name[i]) in told) found = 1
        if (!n) broke(statement[key], "no theorem has this statement")
        else if (!found) broke(statement[key], "docs/PROMISES.md names no theorem of it:" theorems)
    }
}

function hold_crates(    name) {
    for (name in crate) {
        if (!(name in in_layers)) broke("crates/" name, "README.md has it in no layer")
        if (!(name in in_the_cut)) broke("crates/" name, "docs/DECISIONS.md has it not in the cut")
    }
}
