#!/usr/bin/env bash
# Proves and builds the demonstration, and has it play the worked examples, each on a bridge of its own.
set -eu
cd "$(dirname "$0")/crates/demo"
exec rt run
