#!/usr/bin/env bash
# The arrays that the library and riverrun keep are those of docs/PERFORMANCE.md: every one that is written out, copied
# from behind a reference or handed over by value. A list kept beside the flow would be one more.
set -euo pipefail
cd "$(dirname "$0")/.."

# The code of a file without what keeps no array: comments, contracts, texts and attributes; what is written behind a
# reference, which lies where it did; results, since what is answered was made before; the types of lists that are lent;
# indices; lists of nothing; and what is lent once more.
code() {
    sed -E 's|//.*||; /^ *(ghost|requires|ensures|invariant|decreases) /d; s/b"[^"]*"//g; s/#!?\[[^]]*\]//g; s/^ *\*[a-z_]+ \+?= //' "$1" |
        sed -E "s/-> \[.*//; s/&('[a-z]+ )?(mut )?\[+(bool|[iu][0-9]+|usize)(; [0-9]+\])*\]?//g" |
        sed -E 's/([A-Za-z0-9_])\[[^]]*\]/\1/g; s/\[\]//g; s/&(mut )?\*//g'
}
# A written array or a copy, with the name that it is given.
array='([a-z_]+(:| =) )?(\[[^]]*\]?(; [0-9]+\])?|\*[a-z_]+)'
# A line `crate/src/file.rt text` for each array of a folder of crates.
arrays() {
    local file
    find "$1"/*/src -name '*.rt' | while read -r file; do
        code "$file" | { grep -oE "$array" || true; } | sed "s|^|${file#"$1"/} |"
    done | grep -vE '^river(calls|check|plan)/' | sort
}
told() {
    sed -nE 's/^\| `([a-z]+\/src\/[a-z_]+\.rt)` \| `([^`]*)`.*/\1 \2/p' docs/PERFORMANCE.md | sort
}

# A spare list in the summing of runoff, to see that it would be found.
spare=$(mktemp -d)
trap 'rm -rf "$spare"' EXIT
cp -r crates/opening "$spare"
sed -i 's/^    for (row, &water) in/    let mut entering = [0u64; 64];\n&/' "$spare/opening/src/flows.rt"
diff <(arrays "$spare") <(echo 'opening/src/flows.rt entering = [0u64; 64]')

diff <(arrays crates) <(told) || { echo "docs/PERFORMANCE.md: < not told, > not there" >&2; exit 1; }
echo "arrays: $(told | wc -l), as told"
