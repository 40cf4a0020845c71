#!/usr/bin/env bash
# What the documents name is there: each call, clause, type, definition and file in the tables of docs/CLAIMS.md and of the crates' READMEs;
# in docs/DEFINITIONS.md each identifier and its place, and each term once; in the other documents each call `crate::function` with the clauses
# that a line names behind it; each path from the top; README.md's lines of Rattle; each bench in bench/README.md. Each crate's README points
# to docs/CLAIMS.md, and each public call of a crate is named there or in that README. A row names between backticks a call (`Type::method`,
# `crate::function`, or alone), then clauses of it; where a row of a README begins empty, its calls are those above. The sources are read by
# their layout, which the gate keeps. With --list it writes the public calls.
set -u
top="$(cd "$(dirname "$(readlink -f "${BASH_SOURCE[0]}")")/.." && pwd)"
cd "$top" || exit 1
shopt -s globstar nullglob

crates=() sources=() specs=() readmes=()
while read -r crate; do
    case "$crate" in *_tests) continue ;; esac
    crates+=("$crate")
    readmes+=("crates/$crate/README.md")
    for file in "crates/$crate"/src/**/*.rt; do
        case "$file" in */tests.rt | */tests/*) ;; *) sources+=("$file") ;; esac
    done
    specs+=("crates/$crate"/specs/**/*.antt)
done < <(sed -e '/^#/d' -e '/^$/d' -e 's/[ :].*//' crates.txt)

# the lines of code that README.md shows stand in the crate that it names
failed=0
while IFS= read -r line; do
    grep -qF -- "$line" crates/shared_accounts/src/main.rt && continue
    echo "README.md: no line of crates/shared_accounts/src/main.rt is: $line" >&2
    failed=1
done < <(awk '/^```/ { code = $0 == "```rust"; next } code && !/^\/\//' README.md)

# a file names something
names() { grep -qF -- "$2" "$1" || { echo "$1: it doesn't name $2" >&2; failed=1; }; }
for script in bench/*.sh bench/preload/run.sh; do names bench/README.md "\`${script#bench/}\`"; done
for file in "${readmes[@]}"; do names "$file" docs/CLAIMS.md; done

others=(README.md bench/README.md examples/README.md)
for file in docs/*.md; do
    case "$file" in docs/CLAIMS.md | docs/DEFINITIONS.md) ;; *) others+=("$file") ;; esac
done

# the files and folders that the documents name by their paths from the top; what is built isn't looked for
while IFS=: read -r file line path; do
    path="${path#"${path%%[a-z]*}"}"
    case "$path" in *NAME* | *FILE* | *'*'* | */out/* | crates/my_*) continue ;; esac
    [ -e "${path%[.,]}" ] && continue
    echo "$file, line $line: there is no $path" >&2
    failed=1
done < <(grep -noE '(^|[^A-Za-z0-9_/.-])(crates|docs|tests|bench|examples|bin|include)/[A-Za-z0-9_./*-]+' docs/*.md "${readmes[@]}" README.md bench/README.md examples/README.md)

awk -v crates="${crates[*]}" -v list="${1:-}" '
function complain(what) { print where ": " what > "/dev/stderr"; bad++ }

# ---- the sources ----

# the type or trait of an `impl` or a `trait`, and which trait is implemented
function begin_owner(line,  parts, trait) {
    sub(/ *\{.*$/, "", line)
    sub(/^(pub )?(unsafe )?/, "", line)
    gsub(/->|&|mut /, "", line)
    while (gsub(/<[^<>]*>/, "", line)) { }
    sub(/ where .*$/, "", line)
    trait = ""
    if (line ~ /^trait /) { split(line, parts, /[ :]+/); owner = parts[2]; is_trait[owner] = 1 }
    else {
        sub(/^impl */, "", line)
        if (line ~ / for /) { split(line, parts, / for /); trait = parts[1]; line = parts[2] }
        sub(/^.*::/, "", trait); sub(/^.*::/, "", line)
        owner = line
        traits_of[owner] = traits_of[owner] " " trait
    }
    is_type[owner] = 1
}

function begin_call(line, visible,  name) {
    name = line
    sub(/^.*fn /, "", name); sub(/[^a-z0-9_].*$/, "", name)
    call = (owner != "" ? owner : crate) "::" name
    if (!(call in is_call)) calls_named[name] = calls_named[name] " " call
    is_call[call] = 1
    calls_at[owner] = calls_at[owner] " " call
    within[crate, call] = 1
    if (owner == "" || owner in is_trait) stands_alone[call] = 1
    if (visible) { open_call[++count] = call; crate_of[count] = crate; owner_of[count] = owner; module_of[count] = module }
}

function note_exports(line,  n, words, i) {
    sub(/^pub use /, "", line)
    gsub(/[a-z_0-9]+::/, " ", line)
    n = split(line, words, /[^A-Za-z0-9_]+/)
    for (i = 1; i <= n; i++) exported[crate, words[i]] = 1
}

function read_source(  path, name, target) {
    if (FNR == 1) {
        split(FILENAME, path, "/")
        crate = path[2]; module = path[4]; owner = call = ""
        sub(/\.rt$/, "", module)
    }
    if ($0 ~ /^ *\/\//) return
    if (FILENAME ~ /\/src\/lib\.rt$/) {
        if ($0 ~ /^pub mod /) { name = $3; sub(/;/, "", name); exported[crate, "module", name] = 1 }
        if ($0 ~ /^pub use /) using = 1
        if (using) note_exports($0)
        if ($0 ~ /;/) using = 0
    }
    if ($0 ~ /^(pub )?(unsafe )?(trait|impl)[ <]/) begin_owner($0)
    else if ($0 ~ /^}/) owner = call = ""
    else if ($0 ~ /^(pub )?(struct|enum|type) /) {
        name = $0
        sub(/^(pub )?(struct|enum|type) /, "", name); sub(/[^A-Za-z0-9_].*$/, "", name)
        is_type[name] = 1
        if ($0 ~ /^(pub )?type /) { target = $0; sub(/^[^=]*= */, "", target); sub(/[^A-Za-z0-9_].*$/, "", target); alias[name] = target }
    }
    if ($0 ~ /^(    )?(pub )?(unsafe |const |extern "C" )*fn [a-z]/) begin_call($0, $0 ~ /^ *pub / || owner in is_trait)
    if (call != "" && $0 ~ /^ *(ensures|requires) [A-Za-z]/) { is_clause[call, $2] = 1; names_clause[$2] = 1 }
}

function read_definitions(  name, path) {
    name = $0
    if ($0 ~ /^ +(pub )?[a-z_]+ :/) { sub(/^ +(pub )?/, "", name); sub(/ .*$/, "", name); is_field[definition, name] = 1; field[name] = 1 }
    else if ((sub(/^ *abbrev (pub )?/, "", name) || sub(/^(pub )?(record |data )?/, "", name)) && name ~ /^[A-Za-z]/) {
        sub(/[^A-Za-z0-9_].*$/, "", name)
        split(FILENAME, path, "/")
        is_defined[path[2], name] = 1
        defined[name] = 1
        if (name ~ /^[A-Z]/) is_definition[name] = 1
        definition = name
    }
}

# ---- what a name is ----

# the call of that name at a type, at what the type is another name of, or by a trait of it
function at_type(type, name,  n, parts, i) {
    if ((type "::" name) in is_call) return type "::" name
    if (type in alias) return at_type(alias[type], name)
    if (type in traits_of) {
        n = split(traits_of[type], parts, " ")
        for (i = 1; i <= n; i++) if ((parts[i] "::" name) in is_call) return parts[i] "::" name
    }
    return ""
}

function has_clause(call, clause,  side, n, parts, i) {
    if ((call, clause) in is_clause) return 1
    split(call, side, "::")
    if (!(side[1] in traits_of)) return 0
    n = split(traits_of[side[1]], parts, " ")
    for (i = 1; i <= n; i++) if ((parts[i] "::" side[2], clause) in is_clause) return 1
    return 0
}

function add_call(call) { calls[++call_count] = call; return 1 }

# adds what is so called to what the row speaks of; false where there is nothing
function add_subject(word,  side, found, n, parts, i, some) {
    if (split(word, side, "::") == 2) {
        if ((found = at_type(side[1], side[2])) != "") { types[++type_count] = side[1]; return add_call(found) }
        if ((side[1], side[2]) in exported) {
            if (side[2] in is_type) { types[++type_count] = side[2]; return 1 }
            n = split(calls_named[side[2]], parts, " ")
            for (i = 1; i <= n; i++) if (parts[i] in stands_alone) some = add_call(parts[i])
        }
        return some
    }
    if (word in is_type) { types[++type_count] = word; return 1 }
    if (word in is_definition) { definitions[++definition_count] = word; return 1 }
    if (word in is_crate) { here[++crate_count] = word; some = 1 }
    for (i = type_count; i >= 1; i--) if ((found = at_type(types[i], word)) != "") return add_call(found)
    n = (word in calls_named) ? split(calls_named[word], parts, " ") : 0
    for (i = 1; i <= n; i++) for (found = 1; found <= crate_count; found++) if ((here[found], parts[i]) in within) some = add_call(parts[i])
    if (some && !(word in is_crate)) return 1
    for (i = 1; i <= n; i++) if (parts[i] in stands_alone) some = add_call(parts[i])
    return some
}

# whether a call of the row has a clause of that name, or a definition of it that field
function is_of_row(word,  i, j, n, type, parts) {
    for (i = 1; i <= call_count; i++) if (has_clause(calls[i], word)) return 1
    for (i = 1; i <= definition_count; i++) if ((definitions[i], word) in is_field) return 1
    for (i = 1; i <= type_count; i++) {
        type = (types[i] in alias) ? alias[types[i]] : types[i]
        n = (type in calls_at) ? split(calls_at[type], parts, " ") : 0
        for (j = 1; j <= n; j++) if (has_clause(parts[j], word)) return 1
    }
    for (i = 1; i <= crate_count; i++) {
        if ((here[i], word) in is_defined) return 1
        for (j = 1; j <= count && !call_count; j++) if (crate_of[j] == here[i] && has_clause(open_call[j], word)) return 1
    }
    return 0
}

function clear() { call_count = type_count = definition_count = crate_count = 0 }

function is_there(file) { return file in is_file || ("crates/" file) in is_file || ("crates/" here[1] "/" file) in is_file }

# the names between backticks of a text, calls first, since they may stand behind their clauses; how many
function look_at(text,  n, parts, i, word, later, some) {
    n = split(text, parts, "`")
    later = ""
    for (i = 2; i <= n; i += 2) {
        word = parts[i]
        some++
        if (word ~ /\.antt$/) { if (!is_there(word)) complain("there is no file " word) }
        else if (word !~ /^[A-Za-z_][A-Za-z0-9_]*(::[a-z_][A-Za-z0-9_]*)?$/ || word == "Send" || word == "Sync") continue
        else if (word in names_clause || word ~ /^[a-z_]+$/ && !(word in calls_named) && !(word in is_crate)) later = later " " word
        else if (!add_subject(word)) complain("nothing is called `" word "`")
    }
    n = split(later, parts, " ")
    for (i = 1; i <= n; i++) if (!is_of_row(parts[i]) && !add_subject(parts[i])) complain("`" parts[i] "` is no clause of what stands beside it")
    return some
}

# ---- the documents ----

function read_claims(  cells, n) {
    if ($0 !~ /^\|/) { columns = 0; return }
    n = split($0, cells, "|")
    if (cells[n - 1] ~ /^ *(Call|Function) and clause *$/) { columns = 1; return }
    if (!columns || cells[n - 1] ~ /^-+$/) return
    clear()
    if (!look_at(cells[n - 1])) complain("a row without a call")
    rows++
}

function read_readme(  cells, path) {
    if ($0 !~ /^\|/) { columns = 0; return }
    split(FILENAME, path, "/")
    split($0, cells, "|")
    if (cells[2] ~ /^ *(Call|Function|Export) *$/) { columns = cells[3] ~ /^ *Clauses? *$/ ? 2 : 1; return }
    if (!columns || cells[2] ~ /^-+$/) return
    if (cells[2] ~ /`/) { clear(); here[++crate_count] = path[2] }
    look_at(cells[2] (columns == 2 ? cells[3] : ""))
    rows++
}

# the terms of docs/DEFINITIONS.md, each once, its identifiers and where they stand
function read_terms(  cells, n, parts, i, word) {
    if ($0 !~ /^\| / || split($0, cells, "|") < 5 || cells[2] ~ /^ *Term *$/) return
    if (cells[2] in terms) complain("the term \"" cells[2] "\" stands there twice")
    terms[cells[2]] = 1
    n = split(cells[3], parts, "`")
    for (i = 2; i <= n; i += 2) {
        word = parts[i]
        sub(/::.*$/, "", word)
        if (word ~ /^[A-Za-z_]+$/ && !(word in is_type) && !(word in defined) && !(word in calls_named) && !(word in field)) complain("nothing is called `" parts[i] "`")
    }
    n = split(cells[5], parts, "`")
    for (i = 2; i <= n; i += 2) if (!is_there(parts[i]) && !(parts[i] in is_crate) && !(("crates/" parts[i]) in is_folder)) complain("there is no " parts[i])
    rows++
}

function read_text(  rest, word) {
    rest = $0
    clear()
    while (match(rest, /`[a-zA-Z_0-9]+::[a-z_0-9]+`|[Cc]lauses? `[a-z_]+`(, `[a-z_]+`)*(,? and `[a-z_]+`)?/)) {
        word = substr(rest, RSTART, RLENGTH)
        rest = substr(rest, RSTART + RLENGTH)
        if (word ~ /^`/) {
            gsub(/`/, "", word)
            clear()
            if (!add_subject(word)) complain("nothing is called `" word "`")
            named++
        } else if (call_count) look_at(word)
    }
}

BEGIN { n = split(crates, every, " "); for (i = 1; i <= n; i++) is_crate[every[i]] = 1 }
FNR == 1 { is_file[FILENAME] = 1; folder = FILENAME; sub(/\/[^\/]*$/, "", folder); is_folder[folder] = 1 }
FILENAME ~ /\.rt$/ { read_source(); next }
FILENAME ~ /\.antt$/ { read_definitions(); next }
{ where = FILENAME ", line " FNR }
FILENAME == "docs/CLAIMS.md" { claims = claims "\n" $0; read_claims(); next }
FILENAME == "docs/DEFINITIONS.md" { read_terms(); next }
FILENAME ~ /^crates/ { split(FILENAME, path, "/"); readme[path[2]] = readme[path[2]] "\n" $0; read_readme(); next }
{ read_text() }

END {
    for (other in alias) for (i in is_crate) if ((i, other) in exported) exported[i, alias[other]] = 1
    for (i = 1; i <= count; i++) {
        crate = crate_of[i]
        split(open_call[i], side, "::")
        if (!((crate, owner_of[i] != "" ? owner_of[i] : side[2]) in exported) && !((crate, "module", module_of[i]) in exported)) continue
        public++
        if (list == "--list") print crate, open_call[i]
        pattern = "(^|[^A-Za-z0-9_])" side[2] "([^A-Za-z0-9_]|$)"
        if (claims ~ pattern || readme[crate] ~ pattern) continue
        where = "crates/" crate
        complain("`" open_call[i] "` is named neither in docs/CLAIMS.md nor in its README")
    }
    if (bad) exit 1
    print "claims: what " rows " rows name is there, and each of " public " public calls is named"
}
' "${sources[@]}" "${specs[@]}" crates/{shfl_core/proofs/CacheLines,dir_shards/proofs/Crossing}.antt docs/CLAIMS.md docs/DEFINITIONS.md "${readmes[@]}" "${others[@]}" || failed=1
exit "$failed"
