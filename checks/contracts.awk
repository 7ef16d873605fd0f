# Reads specs (.antt), then sources (.rt), then the table (.md), and prints each row that is wrong: see contracts.sh.

FNR == 1 {
    kind = FILENAME ~ /\.antt$/ ? "spec" : FILENAME ~ /\.rt$/ ? "source" : "table"
    split(FILENAME, parts, "/")
    crate = kind == "table" ? "" : parts[2]
    module = parts[4]
    sub(/\.antt$/, "", module)
    importing = definition = field = owner = via = ""
    in_header = in_contract = in_tests = clause = n = 0
}

# ---- names that a file imports: from[file, name] is the definition that it is, as CRATE.MODULE.NAME

kind != "table" && (importing != "" || /^ *(pub )?(ghost )?use Rattle\./) {
    importing = importing $0
    if (importing !~ /;? *$/ || (importing ~ /\{/ && importing !~ /\}/)) next
    if (match(importing, /Rattle\.[a-z_0-9]+\.specs\.[A-Za-z_0-9]+\.\{.*\}/)) {
        split(substr(importing, RSTART, RLENGTH), where, ".")
        list = importing
        sub(/^[^{]*\{/, "", list)
        sub(/\}.*/, "", list)
        count = split(list, names, ",")
        for (i = 1; i <= count; i++) {
            words = split(names[i], word, " ")
            if (words) from[FILENAME, word[words]] = where[2] "." where[4] "." word[1]
        }
    }
    importing = ""
    next
}

# ---- definitions: text[d] is that of an abbreviation, fields[d] and text[d, field] are those of a record

kind == "spec" && /^(pub )?(abbrev|record) / {
    is_record = /^(pub )?record /
    name = $0
    sub(/^(pub )?(abbrev|record) (pub )?/, "", name)
    sub(/[^A-Za-z_0-9].*/, "", name)
    definition = crate "." module "." name
    file_of[definition] = FILENAME
    named[name] = named[name] " " definition
    records[definition] = is_record
    field = ""
    in_equation = 0
}
kind == "spec" && /^--/ { definition = "" }
kind == "spec" && definition != "" {
    if (!is_record) {
        # Its meaning comes after the `=` of its equations, and isn't in its type.
        if (index($0, name " ") == 1 || index($0, name "=") == 1) {
            in_equation = 1
            text[definition] = text[definition] " " substr($0, index($0, "=") + 1)
        } else if (in_equation && /^ /) text[definition] = text[definition] " " $0
    } else if (/^  (pub )?[a-z_0-9]+ : /) {
        field = $0
        sub(/^ *(pub )?/, "", field)
        sub(/ .*/, "", field)
        fields[definition] = fields[definition] " " field
        text[definition, field] = $0
    } else if (field != "" && $0 !~ /^ *--/) text[definition, field] = text[definition, field] " " $0
}

# ---- functions: clauses[f] are their names, and text[f, clause] what a clause says

function last_name(path) {
    sub(/^[& ]+/, "", path)
    sub(/[^A-Za-z_0-9:].*/, "", path)
    sub(/:$/, "", path)
    sub(/.*::/, "", path)
    return path
}

# The owner of the functions of an impl or a trait, and the trait that an impl is of.
function read_header(header,    depth, i, c, halves) {
    sub(/^(pub )?(unsafe )?/, "", header)
    if (header ~ /^trait /) { owner = last_name(substr(header, 7)); traits[crate "." owner] = 1; return }
    header = substr(header, 5)
    if (header ~ /^</) for (i = 1; i <= length(header); i++) {
        c = substr(header, i, 1)
        depth += (c == "<") - (c == ">" && substr(header, i - 1, 1) != "-")
        if (depth == 0) { header = substr(header, i + 1); break }
    }
    sub(/ where .*/, "", header)
    if (split(header, halves, " for ") == 2) { via = last_name(halves[1]); owner = last_name(halves[2]) }
    else owner = last_name(header)
}

kind == "source" && /^(pub )?mod tests \{/ { in_tests = 1 }
kind == "source" && /^\}/ { owner = via = ""; in_tests = in_header = 0 }
kind == "source" && in_tests { next }
kind == "source" && (in_header || /^(pub )?(unsafe )?(impl|trait)[ <]/) {
    header = (in_header ? header " " : "") $0
    in_header = header !~ /\{/
    if (!in_header) { owner = via = ""; read_header(header) }
    next
}
kind == "source" && owner != "" && /^ *ghost [a-z_0-9]+: / {
    name = $2
    sub(/:.*/, "", name)
    laws[crate "." owner] = laws[crate "." owner] " " name
    text[crate "." owner, name] = $0
}
kind == "source" && /^ *(pub(\([a-z]+\))? )?(const )?(unsafe )?fn [a-z_0-9]/ {
    name = $0
    sub(/^.*[ ]?fn /, "", name)
    sub(/[^a-z_0-9].*/, "", name)
    f = crate "." (owner == "" ? "" : owner "::") name
    instances[f]++
    n = f "#" instances[f]
    file_of[n] = FILENAME
    trait_of[n] = via
    method[n] = name
    in_contract = 1
    clause = ""
}
kind == "source" && in_contract && /^ *(requires|ensures)[ {]/ {
    clause = ""
    if ($1 == "ensures") {
        clause = $2 ~ /^\{/ ? "ensures" : $2
        clauses[n] = clauses[n] " " clause
        text[n, clause] = ""
    }
}
kind == "source" && in_contract && /^ *\{\}?$/ { in_contract = 0 }
kind == "source" && in_contract && clause != "" && $0 !~ /^ *\/\// { text[n, clause] = text[n, clause] " " $0 }

# ---- the table

# The definitions that a name means in a file: its own, the one that it imports, or else any of this name.
function meant(name, file,    own, parts) {
    split(file, parts, "/")
    own = parts[4]
    sub(/\.antt$/, "", own)
    own = parts[2] "." own "." name
    if (own in records) return own
    if ((file, name) in from && from[file, name] in records) return from[file, name]
    if ((file, name) in from) { sub(/.*\./, "", name); name = from[file, name]; sub(/.*\./, "", name) }
    return named[name]
}

# Adds to `cited` the records that a text of a file cites, by itself or through abbreviations.
function cite(said, file,    words, word, i, j, found, count, defs) {
    gsub(/[^A-Za-z_0-9]+/, " ", said)
    words = split(said, word, " ")
    for (i = 1; i <= words; i++) {
        count = split(meant(word[i], file), defs, " ")
        for (j = 1; j <= count; j++) {
            found = defs[j]
            if (found in seen) continue
            seen[found] = 1
            if (records[found]) cited[found] = 1
            else cite(text[found], file_of[found])
        }
    }
}

function wrong(what) {
    printf "checks/contracts.sh: docs/contracts.md:%d: %s\n", FNR, what
    failures = 1
}

function has(list, name) { return index(list " ", " " name " ") > 0 }

# Whether the fields of a path are there, each in a record that what is before it cites.
function follow(key, clause_name, path, count,    i, d, next_said, there, said, file) {
    said = text[key, clause_name]
    file = file_of[key]
    split("", seen); split("", cited)
    cite(said, file)
    for (i = 2; i <= count; i++) {
        there = ""
        next_said = ""
        split("", places)
        for (d in cited) {
            there = there " " d ":" fields[d]
            if (has(fields[d], path[i])) places[d] = text[d, path[i]]
        }
        split("", seen); split("", cited)
        file = ""
        for (d in places) { cite(places[d], file_of[d]); file = d }
        if (file == "") return "no field `" path[i] "` in a record that is cited there; there are" there
    }
    return ""
}

function check_clause(function_name, key, clause_name,    path, count, source, said, i, candidates) {
    count = split(clause_name, path, ".")
    source = key
    if (!(key in clauses) && trait_of[key] != "") {
        # An impl without clauses has those of its trait.
        for (i in clauses) if (method[i] == method[key] && i ~ ("\\." trait_of[key] "::")) source = i
    }
    if (!has(clauses[source], path[1])) {
        wrong("`" function_name "` has no clause `" path[1] "`; it has:" clauses[source])
        return
    }
    said = follow(source, path[1], path, count)
    if (said != "") wrong("`" function_name "`, clause `" clause_name "`: " said)
}

function check(function_name, clause_name,    f, i, k) {
    f = current "." function_name
    if (f in instances) {
        for (k = 1; k <= instances[f]; k++) check_clause(function_name, f "#" k, clause_name)
    } else if (f in traits) {
        if (!has(laws[f], clause_name))
            wrong("the trait `" function_name "` has no law `" clause_name "`; it has:" laws[f])
    } else wrong("no function `" function_name "` in crates/" current "/src")
}

# Puts the names that stand in backquotes in a cell into the array, and returns how many.
function quoted(cell, into,    count, halves, i, found) {
    split("", into)
    count = split(cell, halves, "`")
    for (i = 2; i <= count; i += 2) into[++found] = halves[i]
    return found + 0
}

kind == "table" && /^## / {
    current = $0
    current = quoted($0, heading) ? heading[1] : ""
    functions = 0
}
kind == "table" && current != "" && /^\|/ && $0 !~ /^\|[-|]*$/ {
    split($0, cell, "|")
    if (cell[2] ~ /^ *function/) next
    if (cell[2] !~ /^ *$/) functions = quoted(cell[2], function_names)
    clause_count = quoted(cell[4], clause_names)
    if (!functions || !clause_count) wrong("the row names no function or no clause in backquotes")
    for (a = 1; a <= functions; a++) for (b = 1; b <= clause_count; b++) check(function_names[a], clause_names[b])
    rows++
}

END {
    if (!rows) { print "checks/contracts.sh: docs/contracts.md has no row"; failures = 1 }
    exit failures
}
