#!/usr/bin/env python3
"""Runs random scripts by two builds of the program, each with three seeds on real files, and compares what both print, their statuses,
what `dump` shows and the whole devices, byte for byte. The scripts are those of tests/model.py.
Usage: bench/same.py PROGRAM OTHER [SCRIPTS] [SEED]. It ends with status 1 where something differs, and says where."""

import os
import random
import subprocess
import sys
import tempfile

sys.dont_write_bytecode = True
sys.path.insert(0, os.path.join(os.path.dirname(os.path.abspath(__file__)), "..", "tests"))
from model import drawn_script  # pylint: disable=wrong-import-position


def told(program, *words):
    ran = subprocess.run([program, *words], capture_output=True, check=False)
    return ran.returncode, ran.stdout, ran.stderr


def left(path):
    with open(path, "rb") as it:
        return it.read()


def runs_of(program, path, half, units, scripts, seeds):
    """All that a program says and leaves, on a device that begins with bytes of another use."""
    with open(path, "wb") as it:
        it.write(b"\x5a" * 100000)
    said = [told(program, "mkfs", path, "--half", str(half), "--units", str(units))]
    for script in scripts:
        for seed in seeds:
            said.append(told(program, "step", path, "--seed", seed, script))
            said.append(left(path))
    said.append(told(program, "dump", path))
    return [*said, left(path)]


def differs(programs, seed):
    dice = random.Random(seed)
    half = dice.choice([8, 12, 40, 200])
    units = 2 * half + 2 + dice.choice([1, 2, 5, 20, 60, 300, 2000])
    scripts = []
    for number in range(dice.choice([1, 2, 3])):
        lines, _ = drawn_script(dice)
        scripts.append(f"script{number}")
        with open(scripts[-1], "w", encoding="ascii") as it:
            it.write("\n".join(lines) + "\n")
    seeds = [str(dice.randrange(2**32)) for _ in range(3)]
    first, second = (runs_of(program, "device", half, units, scripts, seeds) for program in programs)
    return [at for at, pair in enumerate(zip(first, second)) if pair[0] != pair[1]] or len(first) != len(second)


def main():
    programs = [os.path.abspath(it) for it in sys.argv[1:3]]
    scripts, seed = (int(sys.argv[at]) if len(sys.argv) > at else value for at, value in ((3, 200), (4, 1)))
    failed = 0
    with tempfile.TemporaryDirectory() as room:
        os.chdir(room)
        for number in range(scripts):
            where = differs(programs, seed + number)
            if where:
                failed += 1
                print(f"FAILED  round of seed {seed + number}: {where}")
    print(f"{scripts - failed} passed, {failed} failed")
    return 1 if failed else 0


if __name__ == "__main__":
    sys.exit(main())
