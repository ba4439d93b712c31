#!/bin/sh
# Prints a hash of the sources of a crate: ci/sources.sh mailbox_main
# They are src/**/*.rt of this crate and of all crates of the repository that it uses, and their lines of crates.txt.
set -eu
cd "$(dirname -- "$0")/.."
lines=$(awk -v top="$1" '
    { sub(/#.*/, ""); split($0, half, ":") }
    split(half[1], head, " ") { text[head[1]] = $0; on[head[1]] = half[2] }
    function visit(name, below, count, at) {
        if (!(name in text) || name in seen) return
        seen[name] = 1
        count = split(on[name], below, " ")
        for (at = 1; at <= count; at++) visit(below[at])
    }
    END { visit(top); for (name in seen) print text[name] }' crates.txt | LC_ALL=C sort)
[ -n "$lines" ] || { echo "ci/sources.sh: crates.txt has no $1" >&2; exit 1; }
# (no name of a crate has a space)
{
    echo "$lines"
    find $(echo "$lines" | sed 's|^\([a-z_0-9]*\).*|crates/\1/src|') -name '*.rt' -exec sha256sum {} + | LC_ALL=C sort
} | sha256sum | cut -d' ' -f1
