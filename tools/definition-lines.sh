#!/usr/bin/env bash
# How many lines of definitions each file of specs/ has, or those that are named: without imports, comments and blank lines.
set -euo pipefail
cd "$(dirname "$0")/.."
if [ $# = 0 ]; then
    set -- crates/*/specs/*.antt
fi
for file in "$@"; do
    case $file in */Lib.antt) continue ;; esac
    printf '%4d %s\n' "$(grep -vcE '^ *(--|use |pub use |$)' "$file")" "$file"
done
