#!/usr/bin/env python3
"""Lists the functions that list the kinds of rows: those whose equations or arms name six kinds of rows, or of things, or more.

A function is one of Rust, a definition or a lemma, also one inside another. What counts are the names of kinds in its patterns: in a
definition or lemma before the `=` of an equation, in Rust before the `=>` of an arm. Those in a test or a proof of one function count.
Each line has the file, the function and how many kinds it names; the last one has how many functions there are.
"""
import os
import re

ROWS = {"collection", "onode", "shard", "attribute", "omap_header", "omap_pair", "bitmap"}
THINGS = {"a_collection", "an_onode", "a_shard", "an_attribute", "an_omap_header", "an_omap_pair", "a_bitmap_row"}
MANY = 6

WORD = re.compile(r"[^\s(){},.;:]+")


def kinds(names):
    """How many kinds these names are of: of rows, or of things."""
    return max(len(names & ROWS), len(names & THINGS))


def of_antt(text):
    """Each definition of a file with the names in the heads of its equations. Equations of one function follow each other."""
    found, last = [], None
    for line in text.splitlines():
        indent, words = len(line) - len(line.lstrip()), WORD.findall(line)
        if not words or words[0] in ("--", "use", "pub", "abbrev", "unfoldable", "unfolding", "where", "let", "module"):
            continue
        head, equals, _ = line.partition(" = ")
        if not equals:
            head, equals, _ = line.partition(" =\n") if line.endswith(" =\n") else (line[:-2], line.endswith(" ="), "")
        names = set(WORD.findall(head)[1:])
        if not equals or not kinds(names):
            continue
        if last != (indent, words[0]):
            found.append((words[0], set()))
            last = indent, words[0]
        found[-1][1].update(names)
    return found


def of_rust(text):
    """Each function of a file with the names of its arms, as definitions have them."""
    found = []
    for line in text.splitlines():
        function = re.match(r"\s*(?:pub(?:\([a-z]+\))? )?(?:const )?fn (\w+)", line)
        if function:
            found.append((function[1], set()))
        arm, arrow, _ = line.partition("=>")
        if not found or not arrow:
            continue
        for name in re.findall(r"(?:Row|Thing|RowKey|Key)::(\w+)", arm):
            found[-1][1].add(re.sub(r"(?<!^)(?=[A-Z])", "_", name).lower())
    return found


def main():
    """Prints the list and the number."""
    count = 0
    for place, folders, files in os.walk("crates"):
        folders[:] = sorted(name for name in folders if name != "out")
        for name in sorted(files):
            if not name.endswith((".antt", ".rt")):
                continue
            file = os.path.join(place, name)
            text = open(file, encoding="utf-8").read()
            for function, names in of_antt(text) if name.endswith(".antt") else of_rust(text):
                if kinds(names) >= MANY:
                    print(f"{file} {function} {kinds(names)}")
                    count += 1
    print(count)


if __name__ == "__main__":
    main()
