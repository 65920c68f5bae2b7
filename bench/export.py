#!/usr/bin/env python3
"""Measures exports, and compares them with serde_json over the same lines: export.py PROGRAM [SIZES..]

PROGRAM is the built voy_queue_bench (`rt run` in crates/voy_queue_bench leaves it in out/). It prints the instructions (by valgrind) that a change and
a row take at each size, without what an empty recording takes, and at the last size over the first; and what a change takes
over a copy of its line through serde_json, each without going through the lines."""

import os
import re
import subprocess
import sys
import tempfile

HERE = os.path.dirname(os.path.abspath(__file__))
HEADER = b"id,email\n"


def instructions(program, word, schema, given, count):
    with tempfile.NamedTemporaryFile() as file:
        file.write(word.encode() + b"\n" + schema + b"\n" + given)
        file.flush()
        tool = ["valgrind", "--tool=callgrind", "--callgrind-out-file=/dev/null", program]
        with open(file.name, "rb") as stdin:
            done = subprocess.run(tool, stdin=stdin, stdout=subprocess.PIPE, stderr=subprocess.PIPE)
    if done.returncode != 0 or done.stdout != b"%s: %d\n" % (word.encode(), count):
        sys.exit(f"{word} failed: {done.stdout!r}")
    return int(re.search(rb"Collected : (\d+)", done.stderr).group(1))


def recording(size):
    with tempfile.TemporaryDirectory() as place:
        subprocess.run([sys.executable, os.path.join(HERE, "make_journal.py"), place, str(size)], check=True)
        files = []
        for name in ("schema.json", "public.users.csv", "changes.ndjson"):
            with open(os.path.join(place, "recording", name), "rb") as file:
                files.append(file.read())
    return files[0].replace(b"\n", b" "), files[1], files[2]


def main():
    program = os.path.realpath(sys.argv[1])
    sizes = [int(size) for size in sys.argv[2:]] or [10_000, 100_000]
    schema, _, _ = recording(1)
    empty = instructions(program, "export", schema, HEADER + b"\n", 0)
    each = {word: [] for word in ("change", "row", "copy", "lines")}
    for size in sizes:
        _, rows, changes = recording(size)
        runs = {
            "change": ("export", HEADER + b"\n" + changes, empty),
            "row": ("export", rows + b"\n", empty),
            "copy": ("copy", changes, 0),
            "lines": ("lines", changes, 0),
        }
        for word, (ask, given, less) in runs.items():
            each[word].append((instructions(program, ask, schema, given, size) - less) / size)
        shown = ", ".join(f"{word} {each[word][-1]:,.0f}" for word in each)
        print(f"at {size:,}, instructions: {shown}")
    for word in ("change", "row"):
        print(f"  {word} at the last size over the first: {each[word][-1] / each[word][0]:.3f}")
    lines = each["lines"][-1]
    print(f"  change over copy: {(each['change'][-1] - lines) / (each['copy'][-1] - lines):.2f}")


if __name__ == "__main__":
    main()
