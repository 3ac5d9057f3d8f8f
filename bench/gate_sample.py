#!/usr/bin/env python3
"""Tells what a run of rt ci spends, crate by crate, by looking at its provers once a second.

Usage: bench/gate_sample.py FOLDER, where FOLDER is the repository in which rt ci runs, or is about to. It ends with that run, and
prints the processor seconds of each crate's proof, tests and edits as lines of the table in docs/gate.md, and then the dearest runs
of a prover, each edit by its number in the order of names, and the checks of an unchanged crate that its edits begin and end with.
What a prover spends in its last second is lost, and so is one that is gone within a second. What builds a program isn't counted.
"""
import collections
import os
import sys
import time

TICK = os.sysconf("SC_CLK_TCK")
DEAREST = 40


def words_of(process):
    with open(f"/proc/{process}/cmdline", "rb") as it:
        return [word.decode(errors="replace") for word in it.read().split(b"\0")]


def numbers_of(process):
    with open(f"/proc/{process}/stat") as it:
        return it.read().rsplit(")", 1)[1].split()


def is_below(process, ci):
    """Whether rt ci has started this process, itself or through others."""
    for _ in range(8):
        if process == ci:
            return True
        process = numbers_of(process)[1]
    return False


def find_ci(folder):
    """The process of rt ci in this folder, if there is one."""
    for process in filter(str.isdigit, os.listdir("/proc")):
        try:
            if "ci" in words_of(process)[1:3] and os.readlink(f"/proc/{process}/cwd") == folder:
                return process
        except OSError:
            continue
    return None


def kind_of(process, words):
    """Whether a prover proves a crate, its tests or an edit, and which edit: rt begins each over a folder with its number."""
    if os.path.basename(os.readlink(f"/proc/{process}/cwd")).startswith("rt-edit"):
        begins = words[words.index("--incremental") + 1] if "--incremental" in words else "alone"
        return "edits", os.path.basename(begins)
    return ("tests" if "--test" in words else "proof"), ""


def look(ci, spent):
    """Notes what each prover below rt ci has spent so far."""
    for process in filter(str.isdigit, os.listdir("/proc")):
        try:
            words = words_of(process)
            if not words[0].endswith("/rattle") or "--crate-name" not in words or not is_below(process, ci):
                continue
            numbers = numbers_of(process)
            kind = kind_of(process, words)
        except OSError:
            continue
        key = words[words.index("--crate-name") + 1], *kind, process, numbers[19]
        spent[key] = sum(map(int, numbers[11:13])) / TICK  # without what it waited for: those provers are looked at themselves


def main():
    folder = os.path.realpath(sys.argv[1])
    ci, spent = find_ci(folder), {}
    while ci is None:
        time.sleep(0.2)
        ci = find_ci(folder)
    while os.path.isdir(f"/proc/{ci}"):
        look(ci, spent)
        time.sleep(1)
    rows, runs = collections.defaultdict(collections.Counter), collections.Counter()
    for (crate, kind, which, _, _), seconds in spent.items():
        rows[crate][kind] += seconds
        runs[crate, kind, which] += seconds
    for crate in sorted(rows):
        proof, tests, edits = (rows[crate][kind] for kind in ("proof", "tests", "edits"))
        print(f"| `{crate}` | {proof:.0f} | {tests:.0f} | {edits:.0f} | {proof + tests + edits:.0f} |")
    for (crate, kind, which), seconds in runs.most_common(DEAREST):
        print(f"{seconds:6.0f} {crate} {kind} {which}".rstrip())


if __name__ == "__main__":
    main()
