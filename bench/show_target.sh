#!/usr/bin/env bash
# How much `show target` takes for a change, beside the peer's `show` of the same journal (../shared/peer).
# Usage: bench/show_target.sh PROGRAM PEER [CHANGES..]     PROGRAM is the built voyager, PEER the built peer or none
set -eu
program=$1
peer=$2
shift 2
exec python3 "$(dirname "$0")/compare.py" "$program" "$peer" show "$@"
