#!/usr/bin/env python3
"""Lists the names of public definitions that stand in two crates or more, each with its crates, and tells how many names there are.

A name has one meaning in the whole tree, so a second definition under a name is to get another one, or to go. What counts are the
definitions of `specs/`; `mod` isn't one.
"""
import collections
import pathlib
import re

CRATES = pathlib.Path(__file__).resolve().parent.parent / "crates"
DEFINED = re.compile(r"^(?:abbrev |unfoldable |unfolding )*pub (?!use |mod )(?:record |data |abbrev |unfoldable )*([^\s:({]+)", re.MULTILINE)


def main():
    """Prints the list and the numbers."""
    crates = collections.defaultdict(set)
    for file in sorted(CRATES.glob("*/specs/**/*.antt")):
        crate = file.relative_to(CRATES).parts[0]
        for name in DEFINED.findall(file.read_text(encoding="utf-8")):
            crates[name].add(crate)
    twice = {name: found for name, found in crates.items() if len(found) > 1}
    for name, found in sorted(twice.items()):
        print(name, *sorted(found))
    print(f"{len(twice)} of {len(crates)} names stand in two crates or more")


if __name__ == "__main__":
    main()
