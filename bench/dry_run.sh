#!/usr/bin/env bash
# How much the dry run takes for a change, at 10,000 changes and at 100,000, beside the peer's `show` of the same changes.
# Usage: bench/dry_run.sh PROGRAM PEER [CHANGES..]     PROGRAM is the built voyager, PEER the built peer or none
set -eu
program=$1
peer=$2
shift 2
[ $# -gt 0 ] || set -- 5000 10000 95000 100000
exec python3 "$(dirname "$0")/compare.py" "$program" "$peer" dry-run "$@"
