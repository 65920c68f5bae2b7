#!/usr/bin/env python3
"""Compares the reader of the queue with serde_json over the same lines: queue.py PROGRAM [SIZES..]

PROGRAM is the built voy_queue_bench (`rt run` in crates/voy_queue_bench leaves it in out/). It prints the instructions (by valgrind) that an event
takes between one size and the next: to go through the lines, to parse each as a JSON document, and to read them as the events of a
committed segment; and what the reader takes over what the parser takes, each without going through the lines."""

import os
import re
import subprocess
import sys
import tempfile

HERE = os.path.dirname(os.path.abspath(__file__))
WORDS = ("lines", "json", "queue")


def instructions(program, word, schema, lines):
    with tempfile.NamedTemporaryFile() as given:
        given.write(word.encode() + b"\n" + schema + b"\n" + lines)
        given.flush()
        tool = ["valgrind", "--tool=callgrind", "--callgrind-out-file=/dev/null", program]
        with open(given.name, "rb") as stdin:
            done = subprocess.run(tool, stdin=stdin, stdout=subprocess.PIPE, stderr=subprocess.PIPE)
    if done.returncode != 0 or done.stdout != b"%s: %d\n" % (word.encode(), lines.count(b"\n")):
        sys.exit(f"{word} failed: {done.stdout!r}")
    return int(re.search(rb"Collected : (\d+)", done.stderr).group(1))


def main():
    program = os.path.realpath(sys.argv[1])
    sizes = [int(size) for size in sys.argv[2:]] or [10_000, 100_000]
    counts = {word: [] for word in WORDS}
    for size in sizes:
        with tempfile.TemporaryDirectory() as place:
            subprocess.run([sys.executable, os.path.join(HERE, "make_journal.py"), place, str(size)], check=True)
            with open(os.path.join(place, "recording", "schema.json"), "rb") as file:
                schema = file.read().replace(b"\n", b" ")
            with open(os.path.join(place, "export", "segment.0.ndjson"), "rb") as file:
                lines = file.read()
        for word in WORDS:
            counts[word].append(instructions(program, word, schema, lines))
    for at in range(1, len(sizes)):
        low, high = sizes[at - 1], sizes[at]
        each = {word: (counts[word][at] - counts[word][at - 1]) / (high - low) for word in WORDS}
        print(f"between {low:,} and {high:,} events, instructions an event:")
        for word in WORDS:
            print(f"  {word}: {each[word]:,.0f}")
        print(f"  queue over json: {(each['queue'] - each['lines']) / (each['json'] - each['lines']):.2f}")


if __name__ == "__main__":
    main()
