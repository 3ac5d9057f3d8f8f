#!/usr/bin/env python3
"""Puts all pages of a store's objects on shared blobs, so that what these cost can be compared: each run of pages becomes a blob, whose slots these
pages alone name. Nothing makes blobs so far, so all rows are laid as one record by hand.
Usage: bench/shared_pages.py DEVICE"""
import pathlib
import sys

sys.dont_write_bytecode = True
sys.path.insert(0, str(pathlib.Path(__file__).resolve().parent.parent / "tests"))
from model import UNIT, Blob, Device, Slot, Store, lay


def share_all(store):
    """Has each run of pages on units of an object's own stand on slots of a blob."""
    for it in (it for objects in store.colls.values() for it in objects.values()):
        for first, count, unit in it.extents():
            number = len(store.blobs) + 1
            store.blobs[number] = Blob(unit, count)
            it.pages.update({first + at: (Slot(number, at), it.pages[first + at][1]) for at in range(count)})


def main():
    found = Device(sys.argv[1])
    store = Store(len(found.bytes) // UNIT, found.half)
    store.colls, store.slots, store.number = found.colls, found.slots, found.number
    share_all(store)
    if lay(sys.argv[1], store) is None:
        sys.exit("the rows don't fit in a half")


if __name__ == "__main__":
    main()
