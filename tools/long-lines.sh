#!/usr/bin/env bash
# Lists the lines of README.md and docs/ (but for docs/history) that have more than 120 characters, and fails if there is one.
set -euo pipefail
cd "$(dirname "$0")/.."
export LC_ALL=C.UTF-8
! grep -nE '^.{121,}' README.md docs/*.md
