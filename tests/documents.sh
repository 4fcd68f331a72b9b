#!/usr/bin/env bash
# What the documents say of the sources: the line counts of docs/TRUST.md, and that every definition that docs/RULES.md and
# docs/CHANGING.md name is there.
set -euo pipefail
cd "$(dirname "$0")/.."

wrong=0
say() {
    echo "$1" >&2
    wrong=1
}

# A row of the table: | `folder` | `File`, `File`: words | lines |
while IFS='|' read -r _ folder files lines _; do
    folder=$(tr -d ' `' <<<"$folder")
    lines=$(tr -d ' ' <<<"$lines")
    names=$(grep -oE '`[A-Z][A-Za-z]*`' <<<"${files%%:*}" | tr -d '`')
    there=$(for name in $names; do cat "crates/$folder/$name.antt"; done | wc -l)
    [ "$there" = "$lines" ] || say "docs/TRUST.md: $folder has $there lines, not $lines"
done < <(grep -E '^\| `[a-z]+/specs` \|' docs/TRUST.md)

# `crate/specs/File`: `name`, `name`, ..
while IFS='@' read -r file name; do
    [ -f "crates/$file.antt" ] || { say "no file $file"; continue; }
    grep -qE "(^|[^A-Za-z0-9_-])$name([^A-Za-z0-9_-]|$)" "crates/$file.antt" || say "no $name in $file"
done < <(cat docs/RULES.md docs/CHANGING.md | tr '\n' ' ' | grep -oE '`[a-z]+/specs/[A-Z][A-Za-z]*`:( *`[A-Za-z0-9_]+`,?)+' |
    grep -v '^`crate/' | while read -r line; do
        file=$(cut -d'`' -f2 <<<"$line")
        grep -oE '`[A-Za-z0-9_]+`' <<<"${line#*:}" | tr -d '`' | sed "s|^|$file@|"
    done)

exit "$wrong"
