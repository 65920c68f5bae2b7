#!/usr/bin/env python3
"""Runs `rt ci` at the top of a repository and says what each crate cost, in seconds of processor time.

    bench/gate_cost.py [FOLDER]      (this repository where none is given)

The gate's lines go to the error output, and a table to the output. A check is told from its command line: of a crate's proof, of
its tests, or of an edit (which is tried in a folder of its own). Times are read from /proc five times a second, so a check counts up to
a fifth of a second too little; the last line has the whole, as the system counts it.
"""
import os
import resource
import subprocess
import sys
import time

TICKS = os.sysconf("SC_CLK_TCK")
KINDS = ("proof", "tests", "edits")


def told(pid, session):
    """Returns the crate and the kind of work of a check of this session, and its processor time so far, or None."""
    try:
        with open(f"/proc/{pid}/cmdline", "rb") as it:
            words = it.read().decode(errors="replace").split("\0")
        if not words or os.path.basename(words[0]) != "rattle" or "--crate-name" not in words:
            return None
        cwd = os.readlink(f"/proc/{pid}/cwd")
        with open(f"/proc/{pid}/stat") as it:
            fields = it.read().rpartition(")")[2].split()
    except (OSError, ValueError):
        return None
    if int(fields[3]) != session:
        return None
    crate = words[words.index("--crate-name") + 1]
    if "/rt-edit-" in cwd:
        kind = "edits"
    elif "--test" in words:
        kind = "tests"
    else:
        kind = "proof"
    return (crate, kind), (int(fields[11]) + int(fields[12])) / TICKS


def main():
    root = os.path.realpath(sys.argv[1] if len(sys.argv) > 1 else os.path.join(os.path.dirname(__file__), ".."))
    begun = time.time()
    gate = subprocess.Popen(["rt", "ci"], cwd=root, stdout=sys.stderr, start_new_session=True)
    seen = {}
    while gate.poll() is None:
        for pid in os.listdir("/proc"):
            if pid.isdigit():
                found = told(pid, gate.pid)
                if found:
                    seen[pid, found[0]] = found[1]
        time.sleep(0.2)
    spent = resource.getrusage(resource.RUSAGE_CHILDREN)
    costs = {}
    for (_, (crate, kind)), seconds in seen.items():
        costs.setdefault(crate, dict.fromkeys(KINDS, 0.0))[kind] += seconds
    print("| crate | proof | tests | edits | together |\n|---|---|---|---|---|")
    for crate, cost in sorted(costs.items(), key=lambda it: -sum(it[1].values())):
        print(f"| {crate} | {cost['proof']:.0f} | {cost['tests']:.0f} | {cost['edits']:.0f} | {sum(cost.values()):.0f} |")
    counted = sum(sum(it.values()) for it in costs.values())
    print(f"\nchecks {counted:.0f} s; the whole gate {spent.ru_utime + spent.ru_stime:.0f} s of processor time, {time.time() - begun:.0f} s by the clock; status {gate.returncode}")
    return gate.returncode


if __name__ == "__main__":
    sys.exit(main())
