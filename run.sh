#!/usr/bin/env bash
# Proves and builds the frame inspector, and has it read frames: those of a file, or a telling mix.
set -eu
frames=$(realpath "${1:-"$(dirname "$0")/crates/inspect/stdin"}")
cd "$(dirname "$0")/crates/inspect"
exec rt run -- "$frames"
