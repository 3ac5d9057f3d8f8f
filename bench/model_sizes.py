#!/usr/bin/env python3
"""Lists the functions of crates by the sizes of the models that rt check has made of them, the largest first.

Usage: bench/model_sizes.py CRATE .., after rt check in the crates' folders. A proof from nothing takes about 20 seconds for the crate and
3 for each megabyte of these models (docs/gate.md). A model that is large beside its function's code has early returns, or an end, at
which values of many cases are dropped: a call of drop() is one step there. The model of a function that is gone stays until the
crate's out/ goes.
"""
import os
import re
import sys

SHOWN = 12


def models_of(crate):
    """The size of each model, with the function's name."""
    place = f"crates/{crate}/out/incremental"
    for folder, _, names in os.walk(place):
        for name in names:
            found = re.fullmatch(rf"Rattle-{crate}-proofs\.(.*)\.Lts\.oantt", name)
            if found:
                yield os.path.getsize(os.path.join(folder, name)), found.group(1)


def main(crates):
    if not crates:
        sys.exit(__doc__)
    os.chdir(os.path.join(os.path.dirname(os.path.abspath(__file__)), ".."))
    for crate in crates:
        models = sorted(models_of(crate), reverse=True)
        if not models:
            sys.exit(f"{crate}: rt check has left no models: run it in crates/{crate} first")
        print(f"{crate}: {len(models)} functions, {sum(size for size, _ in models) / 1e6:.1f} MB")
        for size, name in models[:SHOWN]:
            print(f"{size / 1e6:8.2f}  {name}")


main(sys.argv[1:])
