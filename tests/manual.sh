#!/usr/bin/env bash
# Runs the examples of the README and of docs/manual/, and compares each with what the text says that it gives:
# tests/manual.py says how.
set -eu
cd "$(dirname "$0")/.."
[ -n "${AVSSERVE:-}" ] || ./build
AVSSERVE=$(realpath "${AVSSERVE:-bin/avsserve}")
export AVSSERVE
exec tests/manual.py "$@"
