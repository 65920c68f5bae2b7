#!/usr/bin/env python3
"""Compares a command of voyager with the peer's `show` over the same changes: compare.py PROGRAM PEER COMMAND [SIZES..]

PEER is the built program of ../shared/peer, or none to leave it out; COMMAND is `show` (show target) or `dry-run`. It
prints, for each program, the instructions that a change takes between one size and the next (by valgrind, where it is
there), the processor time at the largest size as a ratio, three runs of each in turn, and the greatest memory as a ratio.
All that is printed is a ratio or a count of instructions, so that it can be compared between machines."""

import os
import re
import shutil
import subprocess
import sys
import tempfile

HERE = os.path.dirname(os.path.abspath(__file__))
# A dry run of a segment without a cutover event, as these are, ends with status 4.
FINE = (0, 4)
WORDS = {"show": ["show", "target"], "dry-run": ["import", "data", "to", "target", "--dry-run"]}


def instructions(command):
    """The instructions that the command takes, or none where valgrind is not there."""
    if shutil.which("valgrind") is None:
        return None
    tool = ["valgrind", "--tool=callgrind", "--callgrind-out-file=/dev/null"]
    done = subprocess.run(tool + command, stdout=subprocess.DEVNULL, stderr=subprocess.PIPE, text=True)
    if done.returncode not in FINE:
        sys.exit(f"{command} failed")
    return int(re.search(r"Collected : (\d+)", done.stderr).group(1))


def run(command):
    """The processor time of the command in seconds, and the most memory that it held in kilobytes."""
    process = subprocess.Popen(command, stdout=subprocess.DEVNULL)
    _, status, usage = os.wait4(process.pid, 0)
    if os.waitstatus_to_exitcode(status) not in FINE:
        sys.exit(f"{command} failed")
    return usage.ru_utime + usage.ru_stime, usage.ru_maxrss


def main():
    program, peer, words = os.path.realpath(sys.argv[1]), sys.argv[2], WORDS[sys.argv[3]]
    sizes = [int(size) for size in sys.argv[4:]] or [10_000, 30_000, 100_000]
    with tempfile.TemporaryDirectory() as folder:
        places = {size: os.path.join(folder, str(size)) for size in sizes}
        for size, place in places.items():
            subprocess.run([sys.executable, os.path.join(HERE, "make_journal.py"), place, str(size)], check=True)
        commands = {"voyager": lambda place: [program, "--export-dir", place] + words}
        if peer != "none":
            commands["peer"] = lambda place: [os.path.realpath(peer), "show", place]
            ours = subprocess.run(commands["voyager"](places[sizes[0]]), stdout=subprocess.PIPE, check=True).stdout
            theirs = subprocess.run(commands["peer"](places[sizes[0]]), stdout=subprocess.PIPE, check=True).stdout
            if sys.argv[3] == "show" and ours != theirs:
                sys.exit("the programs print other texts")
        for name, command in commands.items():
            counts = [(size, instructions(command(places[size]))) for size in sizes]
            for (low, fewer), (high, more) in zip(counts, counts[1:]):
                if more is not None:
                    print(f"{name}: {(more - fewer) / (high - low):,.0f} instructions a change between {low:,} and {high:,} changes")
        spent = {name: [] for name in commands}
        for _ in range(3):
            for name, command in commands.items():
                spent[name].append(run(command(places[sizes[-1]])))
        if "peer" in spent:
            time = sum(t for t, _ in spent["voyager"]) / sum(t for t, _ in spent["peer"])
            single = " ".join(f"{a / b:.2f}" for (a, _), (b, _) in zip(spent["voyager"], spent["peer"]))
            memory = max(m for _, m in spent["voyager"]) / max(m for _, m in spent["peer"])
            print(f"at {sizes[-1]:,} changes, over the peer: {time:.2f} of the time ({single}), {memory:.2f} of the memory")


main()
