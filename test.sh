#!/usr/bin/env bash
# Proves and tests every crate, has the inspector read a file as a user would, and then compiles the C library and tests
# the tally's side in Rust against it.
# Its last line is that of `rt ci`: 'N passed, 0 failed'.
set -euo pipefail
cd "$(dirname "$0")"
log=$(mktemp)
trap 'rm -f "$log"' EXIT
rt ci 2>&1 | tee "$log"
if grep -qE '^rt: ok\b.*, [1-9][0-9]* bad' "$log"; then
    echo "a planted mistake no longer fits the text that it changes" >&2
    exit 1
fi
tools/long-lines.sh
./run.sh | diff - crates/inspect/stdout
./c-library.sh
(cd tally && cargo test --offline --release)
tail -n 1 "$log"
