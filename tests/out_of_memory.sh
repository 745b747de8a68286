#!/usr/bin/env bash
# Runs the program with each of its allocations refused in turn, in some minutes, while it renders, answers sessions, and does
# what else it can: tests/in_turn.py says over what, and how each run must end.
#
#     tests/out_of_memory.sh [--step N] [--jobs N] [--only "info both.avs" | --only "session both.avs -"]
set -eu
exec "$(dirname "$0")/in_turn.py" memory "$@"
