#!/usr/bin/env python3
"""Measures the cache of released tuples: cache.py PROGRAM [SIZES..]

PROGRAM is the built voy_cases (`rt run` in crates/voy_cases leaves it in out/). It prints the instructions (by valgrind) that a change takes between
one size and the next: to be read and sent to its channel (a case `channel`), and to be asked for its needs, put and dropped at its end besides
(a case `cache`). Of three changes one is an insert, one an update and one a delete; all tuples are different, or each is released by one change and
acquired by another of another row."""

import os
import re
import subprocess
import sys
import tempfile

SCHEMA = (
    '= USERS {"tables":[{"schema_name":"public","table_name":"users","columns":[{"name":"id","type":"bigint"},'
    '{"name":"email","type":"text"}],"primary_key":["id"],"unique_keys":[{"columns":["email"]}]}]}'
)
CHANNELS = 64


def changes(size, apart):
    for at in range(size):
        kind, key = at % 3, at + 1
        if kind == 0:
            tuple_of = f"new{at}" if apart else f"lost{at - 1}"
            yield f'insert ["{key}","{tuple_of}"]'
        elif kind == 1:
            yield f'update ["{key}","old{at}"] to ["{key}","newer{at}"]'
        else:
            yield f'delete ["{key}","lost{at}"]'


def instructions(program, kind, size, apart):
    rows = list(changes(size, apart))
    if kind == "channel":
        rows = [f"{CHANNELS} 0 {row}" for row in rows]
        head = "channel measured USERS"
    else:
        head = f"cache measured USERS {CHANNELS} {2 * size + 8}"
        rows += [f"applied {channel} {size}" for channel in range(CHANNELS)]
    text = "# a measurement\n" + SCHEMA + "\n\n" + head + "\n" + "\n".join(rows) + "\n"
    with tempfile.NamedTemporaryFile() as given:
        given.write(text.encode())
        given.flush()
        tool = ["valgrind", "--tool=callgrind", "--callgrind-out-file=/dev/null", program]
        with open(given.name, "rb") as stdin:
            done = subprocess.run(tool, stdin=stdin, stdout=subprocess.PIPE, stderr=subprocess.PIPE)
    if done.returncode != 0 or not done.stdout.startswith(b"measured: "):
        sys.exit(f"{kind} failed: {done.stdout[:200]!r}")
    if kind == "cache" and not done.stdout.endswith(b" is 0\n"):
        sys.exit("entries are left")
    return int(re.search(rb"Collected : (\d+)", done.stderr).group(1))


def main():
    program = os.path.realpath(sys.argv[1])
    sizes = [int(size) for size in sys.argv[2:]] or [2_000, 20_000]
    for apart in (True, False):
        print("all tuples are different:" if apart else "each tuple is released and acquired:")
        counts = {kind: [instructions(program, kind, size, apart) for size in sizes] for kind in ("channel", "cache")}
        for at in range(1, len(sizes)):
            low, high = sizes[at - 1], sizes[at]
            each = {kind: (counts[kind][at] - counts[kind][at - 1]) / (high - low) for kind in counts}
            print(f"  between {low:,} and {high:,} changes: {each['channel']:,.0f} read and sent, {each['cache'] - each['channel']:,.0f} for the cache")


if __name__ == "__main__":
    main()
