#!/usr/bin/env bash
# docs/WRONG_VERSIONS.md names every wrong version of crates/*/must-fail, and no other.
set -euo pipefail
cd "$(dirname "$0")/.."

diff <(find crates/*/must-fail -name '*.edit' | sed -E 's|crates/([^/]+)/must-fail/(.*)\.edit|\1/\2|' | sort) \
    <(grep -oE '`[a-z]+/[a-z0-9_]+`' docs/WRONG_VERSIONS.md | tr -d '`' | sort -u) ||
    { echo "docs/WRONG_VERSIONS.md: < not named, > not there" >&2; exit 1; }
