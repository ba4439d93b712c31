#!/bin/sh
# Counts the definitions that the promise of `Mailbox::gather` rests on, and compares the counts with docs/MAP.md. A row
# there has a crate, the files of its specs/, each with its number of needed definitions, and their sum. It prints what
# differs, and the status is 0 if nothing does. A definition needs each definition that it names, also in a field.
set -eu
cd "$(dirname -- "$0")/.."
export LC_ALL=C
rows=$(awk -F'|' '/^\| [0-9]/ {
    gsub(/[ `]/, "", $3); gsub(/`/, "", $4)
    sum = $3 == "all" ? total : 0
    n = $3 == "all" ? 0 : split($4, files, ",")
    for (i = 1; i <= n; i++) { split(files[i], it, " "); print $3, it[1], it[2]; sum += it[2] }
    if (sum != $5) print $3, "has the sum", sum
    total += sum
}' docs/MAP.md | sort)
needed=$(find crates/*/specs -name '*.antt' -exec awk '
# counts the definition for which this name stands in this module, also if it is imported, and all that this one needs
function need(module, name, i, path, each) {
    while (!((module, name) in words) && (module, name) in brought) {
        path = brought[module, name]; name = path; sub(/.*[.]/, "", name)
        module = substr(path, 1, length(path) - length(name) - 1)
    }
    if ((module, name) in seen || !((module, name) in words)) return
    seen[module, name]; count[module]++
    for (i = split(words[module, name], each, " "); i > 0; i--) need(module, each[i])
}
FNR == 1 { here = "Rattle." substr(FILENAME, 8, length(FILENAME) - 12); gsub("/", ".", here); name = "" }
{ sub(/--.*/, "") }
/^(pub )?use .*[{]/ {
    from = $0; sub(/^(pub )?use /, "", from); sub(/[{].*/, "", from); gsub(/.*[{]|[}].*/, "")
    for (i = split($0, each, ", *"); i > 0; i--) {
        as = path = each[i]; sub(/.*[. ]/, "", as); sub(/ as .*/, "", path); brought[here, as] = from path
    }
    next
}
/^(abbrev pub|pub record|pub data) / { name = $3; words[here, name] = "" }
name != "" { gsub(/[^A-Za-z0-9_-]+/, " "); words[here, name] = words[here, name] " " $0 }
END { need("Rattle.mb_mailbox.specs.Gathering", "IsGathered"); for (it in count) print it, count[it] }
' {} + | sed 's/^Rattle\.\(.*\)\.specs\./\1 /' | sort)
[ "$rows" = "$needed" ] || { printf '%s\n' "$rows" "$needed" | sort | uniq -u; exit 1; }
