#!/usr/bin/env python3
"""Runs random scripts of 1 to 8 clients, at times of 64, by the built program on real files, and compares what it says and leaves with a second store
that is written here from the documents and shares nothing with the crates: each reply, the last line, `dump`, and the device, read byte
by byte. The model draws from the seed what comes next, as the program does, so it knows in which order clients and steps come. The
device must have exactly the slots, rows and objects of the model, records of the same lengths, in the other half no unit but the stale ones
may differ from zeros, each page must have its checksum, each slot of a shared blob the number of the pages that stand there, and the bitmap
must have exactly the units of objects and of such slots. Most halves are so small that they are switched several times, and what a device
had before it was made may be records of numbers that come next. Between runs shards may be cut otherwise, and pages be put on shared blobs,
by hand. One run in five is killed at a call for a job that is drawn, that of some step, of the opening or of a reply: then the device must
be that of the model after some of the commits, from the first on, with all whose second flush had returned, and all that the replies call
`ok`. Where strace can't trace a program these runs are whole ones, which is said. Before these rounds the program runs scripts whose
replies, slots and records were reckoned by hand.

Usage: tests/model.py [ROUNDS] [SEED] [PROGRAM], or tests/model.py --self-test, which runs the model alone on the scripts that were reckoned
by hand, and compares the events too. It ends with status 1 where something differs, and says in which round, or where no round switched
the halves."""

import copy
import os
import random
import re
import shutil
import struct
import subprocess
import sys
import tempfile
from collections import deque
from dataclasses import dataclass, field, replace
from functools import partial
from typing import NamedTuple

sys.dont_write_bytecode = True  # the module stands beside this file, in the checkout
from log_record import AFTER_BYTE, crc32c, record_units, set_op, slot_unit

UNIT = 4096
OBJECT_LIMIT = 134217728
TRANSACTION_LIMIT = 1048576
OPERATION_LIMIT = 256
VALUE_LIMIT = 65535
ROW_UNITS = 128
RUN_PAGES = 256
SHARD_BYTES = 1200
WRITE_UNITS = 64
DEPTH = 64
MOST_GROUPED = 64

# ---- the checksum


def image(images, kept):
    """What a linear map makes of a number, by its images of the 32 bits."""
    found = 0
    for bit, it in enumerate(images):
        found ^= it * (kept >> bit & 1)
    return found


CHECKSUMS = {}  # of pages
# What one zero byte behind makes of a checksum, what two, four, and so on up to a page.
ZEROS_BEHIND = [[AFTER_BYTE[it & 255] ^ it >> 8 for it in (1 << bit for bit in range(32))]]
for _ in range(12):
    ZEROS_BEHIND.append([image(ZEROS_BEHIND[-1], it) for it in ZEROS_BEHIND[-1]])


def checksum_of_page(page):
    """That of a page or of less. They are kept, since pages of the same byte come again and again."""
    if page not in CHECKSUMS:
        CHECKSUMS[page] = crc32c(page)
    return CHECKSUMS[page]


def checksum(data):
    """CRC-32C, put together of those of the pages."""
    found = 0
    for at in range(0, len(data), UNIT):
        page = bytes(data[at : at + UNIT])
        for power, images in enumerate(ZEROS_BEHIND):
            found = image(images, found) if len(page) >> power & 1 else found
        found ^= checksum_of_page(page)
    return found


# ---- the model


class Slot(NamedTuple):
    """A slot of a shared blob: the blob's number, and which of its slots."""

    blob: int
    index: int

    def next(self, count):
        return Slot(self.blob, self.index + count)


class Blob(NamedTuple):
    """The first unit of a shared blob, and how many slots it has. What it keeps of them follows from the pages that stand there."""

    unit: int
    slots: int


def next_place(place, count):
    """The place so many behind a unit or a slot."""
    return place.next(count) if isinstance(place, Slot) else place + count


@dataclass
class Object:
    """Its size in bytes, for each page that isn't a hole its unit or its slot and its bytes, its attributes, its header, and its omap. Where its
    shards were cut by another rule than a store's, the pages at which they begin."""

    size: int = 0
    pages: dict = field(default_factory=dict)
    attrs: dict = field(default_factory=dict)
    header: bytes = b""
    omap: dict = field(default_factory=dict)
    cut: set = field(default=None, compare=False)

    def page(self, number):
        return self.pages[number][1] if number in self.pages else bytes(UNIT)

    def data(self, first, end):
        end = min(end, self.size)
        held = b"".join(self.page(number) for number in range(first // UNIT, units_in(end)))
        return held[first % UNIT : first % UNIT + max(end - first, 0)]

    def rows(self, coll, name):
        """Its rows: keys and values."""
        owner = coll + b"\0" + name + b"\0"
        rows = {b"O" + owner + b"o": struct.pack("<Q", self.size)}
        rows |= {b"A" + owner + attr: value for attr, value in self.attrs.items()}
        rows |= {b"M" + owner + b"." + key: value for key, value in self.omap.items()}
        rows |= {b"M" + owner + b"-": self.header} if self.header else {}
        return rows | {b"O" + owner + b"o" + struct.pack(">I", first) + b"x": value for first, value in self.shards()}

    def shards(self):
        """The first page and the value of each of its shards: from the front on, an extent joins the last shard where that has at most 1200
        bytes then, and else begins the next. What was cut otherwise stays so until a page comes, goes or moves."""
        shards = []
        for first, count, place in self.extents():
            sums = [checksum_of_page(self.pages[page][1]) for page in range(first, first + count)]
            if isinstance(place, Slot):
                extent = struct.pack("<IHBQH", first, count, 1, *place)
            else:
                extent = struct.pack(f"<IHBI{count}I", first, count, 0, place, *sums)
            joins = shards and (first not in self.cut if self.cut else len(shards[-1][1]) + len(extent) <= SHARD_BYTES)
            if joins:
                shards[-1] = shards[-1][0], shards[-1][1] + extent
            else:
                shards.append((first, extent))
        return shards

    def units(self):
        """The units of its own."""
        return {place for place, _ in self.pages.values() if not isinstance(place, Slot)}

    def extents(self):
        """Its pages as runs [first page, pages, first unit or slot]: both consecutive, at most 256 at a time."""
        runs = []
        for page in sorted(self.pages):
            place = self.pages[page][0]
            last = runs[-1] if runs else None
            is_alike = last and isinstance(last[2], Slot) == isinstance(place, Slot)
            if is_alike and last[0] + last[1] == page and next_place(*last[2:0:-1]) == place and last[1] < RUN_PAGES:
                last[1] += 1
            else:
                runs.append([page, 1, place])
        return runs


def units_in(length):
    """How many units so many bytes take."""
    return (length + UNIT - 1) // UNIT


def escaped(name):
    plain = b"ABCDEFGHIJKLMNOPQRSTUVWXYZabcdefghijklmnopqrstuvwxyz0123456789._-"
    return "".join(chr(byte) if byte in plain else f"%{byte:02X}" for byte in name)


@dataclass(eq=False)
class Transaction:
    """An accepted transaction: its collection and what that has after it, the units that it takes and releases, how many bytes its row
    operations have, by how many bytes it makes the rows of objects longer, whose it is, and the line of its reply. Of its data writes, so
    many are submitted, and so many have ended."""

    coll: bytes
    objects: dict
    taken: list
    released: list
    body: int
    longer: int
    client: object = None
    line: int = 0
    sent: int = 0
    ended: int = 0

    def __post_init__(self):
        self.writes = len(runs_of(self.taken))

    @property
    def need(self):
        """How many units its record would have alone."""
        return units_in(24 + self.body)


def runs_of(units):
    """The runs of consecutive units, each as [first, count]: what one data write is of."""
    runs = []
    for unit in units:
        if runs and sum(runs[-1]) == unit and runs[-1][1] < WRITE_UNITS:
            runs[-1][1] += 1
        else:
            runs.append([unit, 1])
    return runs


class Store:
    """What a store has: collections of objects, shared blobs, free units, and how many bytes the operations have that set the rows of all of
    them. Of its log: the slots, each as its epoch and its first number, the next record's number, how many bytes each record in the active half has,
    and which units of the other half may not be zero. Of a run: how many commits it has. Objects aren't changed, and the objects of a
    collection are replaced as a whole, so that copies share them."""

    def __init__(self, units, half):
        self.units, self.half = units, half
        self.colls, self.blobs, self.free, self.row_bytes = {}, {}, set(range(2 * half + 2, units)), 0
        self.slots, self.number, self.lengths, self.stale = [(0, 0), None], 0, [], set()
        self.accepted, self.room, self.commits = None, 0, 0

    def copy(self):
        other = copy.copy(self)
        other.colls, other.free, other.slots = dict(self.colls), set(self.free), [*self.slots]
        return other

    @property
    def epoch(self):
        return active(self.slots)[0]

    @property
    def tail(self):
        """How many units the records in the active half take."""
        return sum(map(units_in, self.lengths))

    def rows_length(self):
        """How many bytes the record has that sets each row. Without rows there is none."""
        body = self.row_bytes + bits(set(range(2 * self.half + 2, self.units)) - self.free)
        return 24 + body if body else 0

    def rows_units(self):
        return units_in(self.rows_length())

    def with_batch(self, transactions):
        """The store of a device with the record of these transactions behind the others."""
        other = self.copy()
        for it in transactions:
            other.put(it.coll, it.objects)
            other.free = other.free - set(it.taken) | set(it.released)
            other.row_bytes += it.longer
        other.lengths = [*self.lengths, length_of(transactions)]
        other.number, other.commits = self.number + 1, self.commits + len(transactions)
        return other

    def mounted(self, device):
        """The store as a mount finds it on this device: of the other half it knows which units aren't zero."""
        other = self.copy()
        other.stale = device.stale
        return other

    def switched(self):
        """The store of a device whose other half has the record of the rows, and is the active one."""
        other, epoch = self.copy(), self.epoch + 1
        other.slots[epoch % 2] = epoch, self.number
        other.lengths, other.stale = list(filter(None, [self.rows_length()])), set(range(self.tail))
        other.number += len(other.lengths)
        return other

    def rows(self):
        """Its rows, but for the bitmap."""
        return rows_of(self.colls, self.blobs)

    def owned(self):
        """The units of objects and of slots that pages name."""
        made = Rows(self.blobs)
        for coll, objects in self.colls.items():
            made.add_other(coll, objects, None)
        return made.units

    def put(self, coll, objects):
        """Gives a collection these objects; with None it goes."""
        if objects is None:
            self.colls.pop(coll, None)
        else:
            self.colls[coll] = objects

    def refusal(self, coll, name=None):
        if coll not in self.colls:
            return "E1 NoCollection"
        return "E4 NoObject" if name is not None and name not in self.colls[coll] else None

    def change(self, coll, operations):
        """Accepts a transaction of these operations, or says why it is refused: then nothing has changed. What it releases isn't free before
        it is committed."""
        if len(operations) > OPERATION_LIMIT or sum(payload(*it) for it in operations) > TRANSACTION_LIMIT:
            return "E8 TooBig"
        draft, free = Draft(self.colls.get(coll)), len(self.free)
        try:
            for operation in operations:
                draft.take_effect(*operation)
        except Refused as why:
            return str(why)
        if draft.takings > free:
            return f"E9 NoSpace need={draft.takings} free={free}"
        draft.lay(sorted(self.free)[: draft.takings])
        return self.accept(coll, draft.objects)

    def accept(self, coll, objects):
        """Gives a collection these objects, where a half has room for the difference of the rows. With None it goes."""
        before, after = self.colls.get(coll), objects
        for name, it in (objects or {}).items():
            if it.cut and it.pages != before[name].pages:
                objects[name] = replace(it, cut=None)
        old, new = Rows(self.blobs), Rows(self.blobs)
        old.add_other(coll, before, after)
        new.add_other(coll, after, before)
        body = difference(old.rows, new.rows) + bits(old.units ^ new.units)
        need = units_in(24 + body)
        if self.room < need:
            return f"E10 MetaFull need={need} room={self.room}"
        self.free -= new.units - old.units
        self.put(coll, objects)
        longer = set_bytes(new.rows) - set_bytes(old.rows)
        self.accepted = Transaction(coll, objects, sorted(new.units - old.units), sorted(old.units - new.units), body, longer)
        return "ok"

    def getattr(self, coll, name, attr):
        return self.refusal(coll, name) or value_reply("attr", self.colls[coll][name].attrs.get(attr))

    def omapget(self, coll, name, key):
        return self.refusal(coll, name) or value_reply("omap", self.colls[coll][name].omap.get(key))

    def omaphdr(self, coll, name):
        return self.refusal(coll, name) or value_reply("header", self.colls[coll][name].header)

    def read(self, coll, name, offset, length):
        refused = self.refusal(coll, name)
        if refused:
            return refused
        if offset + length > OBJECT_LIMIT:
            return "E7 BadRange"
        return "data " + (self.colls[coll][name].data(offset, offset + length).hex() or "-")

    def sum(self, coll, name):
        return self.refusal(coll, name) or "sum {} {:08x}".format(*sum_of(self.colls[coll][name]))

    def stat(self, coll, name):
        return self.refusal(coll, name) or f"size {self.colls[coll][name].size}"

    def list(self, coll):
        return self.refusal(coll) or "objects" + "".join(" " + escaped(name) for name in sorted(self.colls[coll]))

    def dump(self):
        lines = []
        for coll in sorted(self.colls):
            lines.append(f"coll {coll.decode()}")
            for name in sorted(self.colls[coll]):
                it = self.colls[coll][name]
                lines.append("object {} size {} crc {:08x}".format(escaped(name), *sum_of(it)))
                lines += [f"attr {escaped(attr)} {hex_of(it.attrs[attr])}" for attr in sorted(it.attrs)]
                lines += [f"header {hex_of(it.header)}"] if it.header else []
                lines += [f"omap {escaped(key)} {hex_of(it.omap[key])}" for key in sorted(it.omap)]
        return [*lines, "end"]


def active(slots):
    """The slot that counts: that of the greatest epoch."""
    return max(slot for slot in slots if slot)


class Rows:
    """The rows of a collection that may differ between two states of it, and the units of their objects and blobs."""

    def __init__(self, blobs):
        self.blobs, self.rows, self.units = blobs, {}, set()

    def add_other(self, coll, objects, others):
        """Adds those of a collection's objects that aren't the same in the other state, and those of its blobs."""
        if objects is None:
            return
        self.rows[b"C" + coll] = b""
        for name, it in objects.items():
            if (others or {}).get(name) is not it:
                self.rows |= it.rows(coll, name)
                self.units |= it.units()
        if self.blobs:
            self.add_blobs(counted(objects.values()))

    def add_blobs(self, counts):
        """Adds those of the blobs that pages name, by the counts and the checksums of their slots."""
        for number in {slot.blob for slot in counts}:
            unit, slots = self.blobs[number]
            kept = [counts.get(Slot(number, index), (0, 0)) for index in range(slots)]
            value = struct.pack("<IH", unit, slots) + b"".join(struct.pack("<II", crc, count) for count, crc in kept)
            self.rows[b"X" + struct.pack(">Q", number)] = value
            self.units |= {unit + index for index, (count, _) in enumerate(kept) if count}


def counted(objects):
    """Of each slot on which pages of these objects stand, how many do, and the checksum of their bytes."""
    counts = {}
    for place, held in (page for it in objects for page in it.pages.values()):
        if isinstance(place, Slot):
            counts[place] = counts.get(place, (0, 0))[0] + 1, checksum_of_page(held)
    return counts


def rows_of(colls, blobs):
    """The rows of these collections, their objects and their blobs."""
    made = Rows(blobs)
    for coll, objects in colls.items():
        made.add_other(coll, objects, None)
    return made.rows


class Refused(Exception):
    """Why a transaction is refused, as it is printed."""


def refuse(holds, why):
    if holds:
        raise Refused(why)


class Draft:
    """The objects of a collection while the operations of a transaction take effect, one behind the other; None where the collection is
    missing. A page that the transaction has put has a number below zero for its unit, by how many were taken; they are replaced at the end."""

    def __init__(self, objects):
        self.objects, self.takings = None if objects is None else dict(objects), 0

    def take_effect(self, kind, *words):
        refuse(self.objects is None and kind != "mkcoll", "E1 NoCollection")
        getattr(self, kind)(*words)

    def lay(self, units):
        """Puts the page of each taking on the unit of that number. A page that was put and cleared has had its taking all the same."""
        for name, it in (self.objects or {}).items():
            if any(is_taking(place) for place, _ in it.pages.values()):
                laid = {page: (units[-1 - place] if is_taking(place) else place, held) for page, (place, held) in it.pages.items()}
                self.objects[name] = replace(it, pages=laid)

    def mkcoll(self):
        refuse(self.objects is not None, "E2 CollectionExists")
        self.objects = {}

    def rmcoll(self):
        refuse(self.objects, "E3 NotEmpty")
        self.objects = None

    def touch(self, name):
        self.objects.setdefault(name, Object())

    def write(self, name, offset, word):
        data = data_of(word)
        old, end = self.objects.get(name, Object()), offset + len(data)
        refuse(end > OBJECT_LIMIT, "E8 TooBig")
        pages = {}
        for page in range(offset // UNIT, units_in(end)) if data else ():
            start = page * UNIT
            front, back = max(offset - start, 0), max(end - start, 0)
            held = old.page(page)
            pages[page] = held[:front] + data[max(start - offset, 0) : start + UNIT - offset] + held[back:]
        self.put(name, max(old.size, end) if data else old.size, pages)

    def zero(self, name, offset, length):
        old, end = self.objects.get(name, Object()), offset + length
        refuse(end > OBJECT_LIMIT, "E8 TooBig")
        self.put(name, max(old.size, end) if length else old.size, cleared(old, offset, end))

    def truncate(self, name, size):
        refuse(size > OBJECT_LIMIT, "E8 TooBig")
        old = self.objects.get(name)
        if old is not None:
            self.put(name, size, cleared(old, size, OBJECT_LIMIT) if size < old.size else {})

    def put(self, name, size, pages):
        """Gives an object this size and these bytes of pages, where None is a hole. A page that was put before is changed where it is, and
        each other one takes a unit."""
        after = replace(self.objects.get(name, Object()), size=size)
        after.pages = dict(after.pages)
        for page in sorted(pages):
            place, _ = after.pages.pop(page, (0, None))
            if pages[page] is None:
                continue
            if not is_taking(place):
                self.takings += 1
                place = -self.takings
            after.pages[page] = place, pages[page]
        self.objects[name] = after

    def remove(self, name):
        self.objects.pop(name, None)

    def change_values(self, name, values=(), is_passed_over=False, **parts):
        """Gives an object the attributes, the header or the omap that functions make of it, by these values. Where it is missing it is passed
        over, or the transaction refused."""
        refuse(any(len(value) > VALUE_LIMIT for value in values), "E8 TooBig")
        old = self.objects.get(name)
        refuse(old is None and not is_passed_over, "E4 NoObject")
        if old is not None:
            self.objects[name] = replace(old, **{part: made(old) for part, made in parts.items()})

    def setattr(self, name, attr, word):
        value = data_of(word)
        self.change_values(name, [value], attrs=lambda it: {**it.attrs, attr: value})

    def rmattr(self, name, attr):
        self.change_values(name, attrs=lambda it: without(it.attrs, [attr]))

    def rmattrs(self, name):
        self.change_values(name, is_passed_over=True, attrs=lambda it: {})

    def omapset(self, name, *words):
        keys, values = words[::2], [data_of(word) for word in words[1::2]]
        self.change_values(name, values, omap=lambda it: {**it.omap, **dict(zip(keys, values))})

    def omaprm(self, name, *keys):
        self.change_values(name, omap=lambda it: without(it.omap, keys))

    def omaprmrange(self, name, first, last):
        self.change_values(name, omap=lambda it: without(it.omap, [key for key in it.omap if first <= key < last]))

    def omapclear(self, name):
        self.change_values(name, is_passed_over=True, header=lambda it: b"", omap=lambda it: {})

    def omapheader(self, name, word):
        value = data_of(word)
        self.change_values(name, [value], header=lambda it: value)


def is_taking(place):
    """Whether a transaction that isn't laid yet has put the page."""
    return not isinstance(place, Slot) and place < 0


def payload(_kind, _name=None, *words):
    """How many bytes of an operation count: those of attributes, keys and values, and of data."""
    return sum(len(it) if isinstance(it, bytes) else len(data_of(it)) for it in words if not isinstance(it, int))


def data_of(word):
    """The bytes that a word of a script spells: `hex:` and digits, or `fill:XX:NUM`."""
    form, *rest = word.split(":")
    return bytes.fromhex(rest[0]) if form == "hex" else bytes([int(rest[0], 16)]) * int(rest[1])


def hex_of(data):
    """The digits of bytes, or `-` where there are none."""
    return data.hex() or "-"


def value_reply(kind, value):
    return "E5 NoAttr" if value is None else f"{kind} {hex_of(value)}"


def without(values, keys):
    return {key: value for key, value in values.items() if key not in keys}


def difference(old, new):
    """The bytes of the operations that make rows of others: one for each that is new, has another value, or goes."""
    made = set_bytes({key: value for key, value in new.items() if old.get(key) != value})
    return made + sum(3 + len(key) for key in old if key not in new)


def set_bytes(rows):
    """The bytes of the operations that set these rows."""
    return sum(7 + len(key) + len(value) for key, value in rows.items())


def cleared(old, first, end):
    """What becomes of an object's pages where the bytes from the one to the other are cleared: None is a hole. Holes stay as they are."""
    pages = {}
    for page, (_, held) in old.pages.items():
        front, back = min(max(first - page * UNIT, 0), UNIT), min(max(end - page * UNIT, 0), UNIT)
        if front < back:
            pages[page] = None if back - front == UNIT else held[:front] + bytes(back - front) + held[back:]
    return pages


def bits(units):
    """The bytes of the operations that set the rows of the bitmap with these units, or turn the units' bits there."""
    return (7 + 5 + 16) * len({unit // ROW_UNITS for unit in units})


def sum_of(it):
    return it.size, checksum(it.data(0, it.size))


# ---- the kernel's steps


@dataclass
class Batch:
    """The open batch: its transactions, whether its record is made, and of the pieces of that how many are given and written. Its flushes
    aren't submitted (0), in flight (1) or have ended (2). With the second one the device has had so many calls."""

    transactions: list
    is_sealed: bool = False
    given: int = 0
    written: int = 0
    first: int = 0
    second: int = 0
    calls: int = 0

    @property
    def pieces(self):
        return pieces_of(record_of(self.transactions))


@dataclass
class Checkpoint:
    """The open checkpoint: how many pieces it has, and how many of these are given and written. Its flush, the slot's write and the flush of
    that are as those of a batch."""

    pieces: int
    given: int = 0
    written: int = 0
    flush: int = 0
    slot: int = 0
    slot_flush: int = 0


def length_of(transactions):
    """How many bytes the record has of all their operations, one behind the other."""
    return 24 + sum(it.body for it in transactions)


def record_of(transactions):
    """How many units it has."""
    return units_in(length_of(transactions))


def pieces_of(units):
    return (units + WRITE_UNITS - 1) // WRITE_UNITS


class Kernel:
    """The table of steps of docs/steps.md over a store, on a device that does each submission at once and gives the ends in order. It
    keeps the stores of devices with each front of the commits, and behind each switch; of each commit its transaction, and how many calls
    the device had had with its second flush; and the calls, each with its job. A flush with no write since the last one isn't called."""

    def __init__(self, store):
        self.store, self.states, self.committed = store.copy(), [store.copy()], []
        self.states[0].commits = 0
        self.pending, self.flying, self.batch, self.checkpoint, self.applied = [], deque(), None, None, deque()
        self.reserved, self.events, self.flushes, self.calls, self.is_dirty = 0, 0, 0, [], False

    @property
    def last(self):
        """The store with all commits so far."""
        return self.states[-1]

    def submit(self, client, line, command):
        """The reply to a command. A transaction that is accepted waits in the kernel, for its client."""
        self.store.accepted, self.store.room = None, self.last.half - self.last.rows_units() - self.reserved
        reply = getattr(self.store, command[0])(*command[1:])
        if self.store.accepted:
            self.store.accepted.client, self.store.accepted.line = client, line
            self.reserved += self.store.accepted.need
            self.pending.append(self.store.accepted)
        return reply

    def send(self, job, counted):
        """Submits a write for a job, where its end is counted."""
        self.calls.append(("pwrite64", f"{type(job).__name__} {counted}"))
        self.is_dirty = True
        self.flying.append((job, counted))
        self.events += 1

    def send_flush(self, job, counted):
        """Submits a flush for a job, where it is in flight then."""
        if self.is_dirty:
            self.calls.append(("fdatasync", f"{type(job).__name__} {counted}"))
        self.is_dirty = False
        setattr(job, counted, 1)
        self.flying.append((job, counted))
        self.events += 1
        self.flushes += 1

    def next_unsent(self):
        return next((it for it in self.pending if it.sent < it.writes), None)

    def choice(self):
        """Those whose data writes have all ended and before which none of their collection waits that isn't among them, as many as a batch may
        have."""
        held_back, chosen = set(), []
        for it in self.pending:
            if it.ended == it.writes and it.coll not in held_back:
                chosen.append(it)
            else:
                held_back.add(it.coll)
        return chosen[:MOST_GROUPED]

    def ready(self):
        """The steps that are ready, in the order of the table."""
        batch, check, has_room = self.batch, self.checkpoint, len(self.flying) < DEPTH
        table = [
            (self.data, self.next_unsent() and has_room),
            (self.reap, self.flying),
            (self.take, not batch and not check and self.choice()),
            (self.flush, batch and batch.first == 0 and has_room),
            (self.seal, batch and not batch.is_sealed),
            (self.record, batch and batch.first == 2 and batch.is_sealed and batch.given < batch.pieces and has_room),
            (self.sync, batch and batch.second == 0 and batch.is_sealed and batch.written == batch.pieces and has_room),
            (self.commit, batch and batch.second == 2),
            (self.finish, self.applied),
            (self.check_write, check and check.given < check.pieces and has_room),
            (self.check_flush, check and check.flush == 0 and check.written == check.pieces and has_room),
            (self.slot_write, check and check.flush == 2 and check.slot == 0 and has_room),
            (self.slot_flush, check and check.slot == 2 and check.slot_flush == 0 and has_room),
            (self.switch, check and check.slot_flush == 2),
        ]
        return [step for step, is_ready in table if is_ready]

    def data(self):
        it = self.next_unsent()
        it.sent += 1
        self.send(it, "ended")

    def reap(self):
        job, counted = self.flying.popleft()
        setattr(job, counted, getattr(job, counted) + 1)
        self.events += 1

    def take(self):
        """Opens a batch where its record fits behind the tail, else a checkpoint, which takes nobody."""
        chosen, last = self.choice(), self.last
        if last.tail + record_of(chosen) <= last.half:
            self.batch = Batch(chosen)
            for it in chosen:
                self.pending.remove(it)
        else:
            units = last.rows_units()
            zeros = runs_of(sorted(unit for unit in last.stale if unit >= units))
            self.checkpoint = Checkpoint(pieces_of(units) + len(zeros))
            last.stale = last.stale | set(range(units))

    def flush(self):
        self.send_flush(self.batch, "first")

    def seal(self):
        self.batch.is_sealed = True

    def record(self):
        self.batch.given += 1
        self.send(self.batch, "written")

    def sync(self):
        self.send_flush(self.batch, "second")
        self.batch.calls = len(self.calls)

    def commit(self):
        for it in self.batch.transactions:
            self.store.free |= set(it.released)
            self.reserved -= it.need
            self.committed.append((it, self.batch.calls))
            self.applied.append(it)
        self.states.append(self.last.with_batch(self.batch.transactions))
        self.batch = None

    def finish(self):
        self.applied.popleft().client.waits_for -= 1

    def check_write(self):
        self.checkpoint.given += 1
        self.send(self.checkpoint, "written")

    def check_flush(self):
        self.send_flush(self.checkpoint, "flush")

    def slot_write(self):
        self.checkpoint.slot = 1
        self.send(self.checkpoint, "slot")

    def slot_flush(self):
        self.send_flush(self.checkpoint, "slot_flush")

    def switch(self):
        self.states.append(self.last.switched())
        self.checkpoint = None


class Client:
    """A client: the commands that it has left, each with its line, None for a `wait`; its replies so far, each with its line; and how
    many of its transactions are accepted and not acknowledged."""

    def __init__(self, commands):
        self.left, self.replies, self.waits_for = deque(commands), [], 0

    def is_ready(self):
        """Whether a command other than `wait` is left, and the `wait`s before it are over."""
        while self.left and self.left[0][1] is None and self.waits_for == 0:
            self.left.popleft()
        return bool(self.left) and self.left[0][1] is not None

    def make(self, kernel):
        """Makes its next command."""
        line, command = self.left.popleft()
        reply = kernel.submit(self, line, command)
        self.waits_for += reply == "ok"
        self.replies.append((line, reply))


def run(store, scripts, seed):
    """What is to be printed of a run of these scripts, one a client, and the kernel behind it."""
    kernel, clients, drawn = Kernel(store), [Client(script) for script in scripts], seed
    while choices := [partial(it.make, kernel) for it in clients if it.is_ready()] + kernel.ready():
        drawn = (6364136223846793005 * drawn + 1442695040888963407) % 2**64
        choices[(drawn >> 33) % len(choices)]()
    replies = [(number, *reply) for number, client in enumerate(clients) for reply in client.replies]
    accepted = sum(reply == "ok" for _, _, reply in replies)
    refused = sum(reply.startswith("E") for _, _, reply in replies)
    told = f"accepted={accepted} refused={refused} reads={len(replies) - accepted - refused} commits={len(kernel.committed)}"
    lines = [f"{number}:{line} {reply}" for number, line, reply in replies]
    for number, client in enumerate(clients):
        client.number = number
    return [*lines, f"done {told} free={len(kernel.store.free)}"], kernel


# ---- the device


class BadDevice(Exception):
    """What was read isn't as it should be."""


def expect(holds, what):
    if not holds:
        raise BadDevice(what)


class Device:
    """What a device has, read by its formats: its slots, the units of its log's records, the rows that these make, and the objects that the
    rows show."""

    def __init__(self, path):
        with open(path, "rb") as it:
            self.bytes = it.read()
        self.half = 0
        self.slots = [self.slot(0), self.slot(1)]
        expect(any(self.slots), "no slot is valid")
        self.rows, self.lengths, self.number = self.records(active(self.slots))
        epoch = active(self.slots)[0]
        self.behind, self.stale = self.not_zero(epoch) - set(range(sum(map(units_in, self.lengths)))), self.not_zero(epoch + 1)
        self.colls, self.blobs, self.slots_kept, self.owned, self.marked, self.values = {}, {}, {}, set(), set(), []
        for key in sorted(self.rows):
            if key[:1] == b"X":
                self.read_blob(key, self.rows[key])
        for key in sorted(self.rows):
            self.read_row(key, self.rows[key])
        for key, value in self.values:
            self.read_value(key, value)
        self.judge_counts()
        expect(self.owned == self.marked, f"the bitmap differs in {sorted(self.owned ^ self.marked)[:5]}")

    def at(self, unit, count=1):
        return self.bytes[UNIT * unit : UNIT * (unit + count)]

    def slot(self, at):
        """A slot's epoch and first number, or None where it isn't valid."""
        held = self.at(at)
        if held[:8] != b"BSTORE01" or checksum(held[:-4]) != struct.unpack("<I", held[-4:])[0]:
            return None
        version, units, half, _, epoch, first = struct.unpack("<IIIIQQ", held[8:40])
        expect(version == 1 and units * UNIT == len(self.bytes) and epoch % 2 == at and self.half in (0, half), f"slot {at}")
        expect(not any(held[40:-4]), f"slot {at} has other bytes")
        self.half = half
        return epoch, first

    def first_unit(self, epoch):
        return 2 + self.half * (epoch % 2)

    def not_zero(self, epoch):
        """Which units of the half of this epoch aren't zero."""
        return {unit for unit in range(self.half) if self.at(self.first_unit(epoch) + unit) != bytes(UNIT)}

    def records(self, slot):
        """The rows that the records of a slot make, how many bytes each of these has, and the number that would be next."""
        epoch, number = slot
        start, rows, tail, lengths = self.first_unit(epoch), {}, 0, []
        while tail < self.half and self.at(start + tail)[:4] == b"BREC":
            length, found, count, kept = struct.unpack("<IQII", self.at(start + tail)[4:24])
            units = units_in(24 + length)
            record = self.at(start + tail, units)
            body = record[24 : 24 + length]
            if found != number or tail + units > self.half or checksum(record[:20] + body) != kept:
                break
            expect(not any(record[24 + length :]), f"bytes behind record {number}")
            expect(apply(rows, body) == count, f"the operations of record {number}")
            number, tail = number + 1, tail + units
            lengths.append(24 + length)
        return rows, lengths, number

    def read_row(self, key, value):
        if key[:1] == b"C":
            expect(value == b"", "the value of a collection")
            self.colls[key[1:]] = {}
        elif key[:1] == b"b":
            expect(len(value) == ROW_UNITS // 8 and any(value), "a row of the bitmap")
            first = ROW_UNITS * struct.unpack(">I", key[1:])[0]
            self.marked |= {first + at for at in range(ROW_UNITS) if value[at // 8] >> at % 8 & 1}
        elif key[:1] in (b"A", b"M"):
            # The row of the object comes later.
            self.values.append((key, value))
        elif key[:1] != b"X":
            expect(key[:1] == b"O", f"the key {key!r}")
            coll, name, rest = key[1:].split(b"\0", 2)
            if rest == b"o":
                self.colls[coll][name] = Object(*struct.unpack("<Q", value))
            else:
                expect(len(rest) == 6 and rest[:1] == b"o" and rest[-1:] == b"x", f"the key {key!r}")
                expect(value[:4] == rest[4:0:-1], "the first page of a shard")
                self.read_extents(self.colls[coll][name], value)

    def read_value(self, key, value):
        coll, name, rest = key[1:].split(b"\0", 2)
        expect(name in self.colls.get(coll, {}) and len(value) <= VALUE_LIMIT, f"the row {key!r}")
        it = self.colls[coll][name]
        if key[:1] == b"A":
            it.attrs[rest] = value
        elif rest[:1] == b".":
            it.omap[rest[1:]] = value
        else:
            expect(rest == b"-" and value, f"the key {key!r}")
            it.header = value

    def read_blob(self, key, value):
        number, (unit, slots) = struct.unpack(">Q", key[1:])[0], struct.unpack_from("<IH", value)
        expect(0 < slots <= RUN_PAGES and len(value) == 6 + 8 * slots and number < 2**62, f"blob {number}")
        self.blobs[number] = Blob(unit, slots)
        for index in range(slots):
            self.slots_kept[Slot(number, index)] = struct.unpack_from("<II", value, 6 + 8 * index)

    def judge_counts(self):
        """Each slot has the number of the pages that stand there as its count, and no checksum where none does; a blob has one that counts."""
        counts = counted(it for objects in self.colls.values() for it in objects.values())
        for slot, (_, count) in self.slots_kept.items():
            expect(count == counts.get(slot, (0, 0))[0], f"the count of slot {slot.index} of blob {slot.blob}")
            if count:
                self.own(self.blobs[slot.blob].unit + slot.index)
        expect({slot.blob for slot, (_, count) in self.slots_kept.items() if count} == set(self.blobs), "a blob that no page names")
        expect(not any(crc for crc, count in self.slots_kept.values() if not count), "a checksum of a slot that no page names")

    def own(self, unit):
        expect(unit not in self.owned, f"two owners of unit {unit}")
        self.owned.add(unit)

    def read_page(self, unit, kept):
        held = self.at(unit)
        expect(checksum(held) == kept, f"the checksum of unit {unit}")
        return held

    def read_extents(self, owner, value):
        at = 0
        while at < len(value):
            first, count, kind = struct.unpack_from("<IHB", value, at)
            expect(kind in (0, 1) and 0 < count <= RUN_PAGES, "an extent")
            if kind == 1:
                self.read_slots(owner, first, count, Slot(*struct.unpack_from("<QH", value, at + 7)))
                at += 17
            else:
                (unit,) = struct.unpack_from("<I", value, at + 7)
                self.read_units(owner, first, unit, struct.unpack_from(f"<{count}I", value, at + 11))
                at += 11 + 4 * count

    def read_units(self, owner, first, unit, sums):
        for page, kept in enumerate(sums):
            self.own(unit + page)
            owner.pages[first + page] = unit + page, self.read_page(unit + page, kept)

    def read_slots(self, owner, first, count, place):
        for page in range(count):
            slot = place.next(page)
            expect(slot in self.slots_kept, f"there is no slot {slot.index} of blob {slot.blob}")
            held = self.read_page(self.blobs[slot.blob].unit + slot.index, self.slots_kept[slot][0])
            owner.pages[first + page] = slot, held

    def expect_rows(self, wanted):
        """But for the bitmap it has these rows."""
        for key in sorted(wanted | self.rows):
            expect(key[:1] == b"b" or self.rows.get(key) == wanted.get(key), f"the row of {key!r} is another one")

    def other_records(self):
        """The units that the records take of the slot that doesn't count, as far as they stand."""
        slot = self.slots[1 - active(self.slots)[0] % 2]
        return set(range(sum(map(units_in, self.records(slot)[1])))) if slot else set()

    def differences(self, store):
        """What isn't as this store has it. Of a stale unit anything may be left."""
        parts = ["slots", "number", "lengths", "colls"]
        return [part for part in parts if getattr(self, part) != getattr(store, part)] + ["stale"] * (not self.stale <= store.stale)


def apply(rows, body):
    """Does the operations of a record's body to rows, and says how many there are."""
    at, count = 0, 0
    while at < len(body):
        kind, length = struct.unpack_from("<BH", body, at)
        key, at, count = body[at + 3 : at + 3 + length], at + 3 + length, count + 1
        if kind == 2:
            rows.pop(key, None)
            continue
        (length,) = struct.unpack_from("<I", body, at)
        value, at = body[at + 4 : at + 4 + length], at + 4 + length
        if kind == 3:
            held = rows.get(key, b"")
            width = max(len(held), len(value))
            value = bytes(a ^ b for a, b in zip(held.ljust(width, b"\0"), value.ljust(width, b"\0")))
        expect(kind in (1, 3), f"an operation of kind {kind}")
        if kind == 3 and not any(value):
            rows.pop(key, None)
        else:
            rows[key] = value
    return count


# ---- scripts


def drawn_offset(dice):
    """An offset, often at a border of pages or near one."""
    page = dice.choice([0, 0, 1, 2, 3, 7, dice.randrange(60)])
    return max(UNIT * page + dice.choice([0, 0, 0, -1, 1, 100, dice.randrange(UNIT)]), 0)


def drawn_length(dice, most):
    """A length of less than so many pages, often of whole ones."""
    pages = dice.choice([1, 1, 1, 2, 3, dice.randrange(1, most)])
    return dice.choice([UNIT * pages, UNIT * pages, UNIT - 1, UNIT + 1, dice.randrange(20), dice.randrange(UNIT * pages)])


def drawn_data(dice, most):
    length = drawn_length(dice, most)
    if length < 3 * UNIT and dice.random() < 0.4:
        return "hex:" + dice.randbytes(length).hex()
    return f"fill:{dice.randrange(256):02x}:{length}"


def drawn_value(dice, most):
    """The word of a value, of which few are long, of less than so many pages, and one in many is past the limit."""
    if dice.random() < 0.2:
        length = min(dice.randrange(UNIT * most), VALUE_LIMIT)
        return f"fill:{dice.randrange(256):02x}:{dice.choice([3000, 5000, length, length, length, VALUE_LIMIT, VALUE_LIMIT + 1, 2097152])}"
    return "hex:" + dice.randbytes(dice.choice([0, 1, 3, 30, 100])).hex()


def drawn_key(dice):
    return dice.choice([b"k", b"k1", b"k2", b"l", b"-", b".", b"a b", b"\xff", b"y" * dice.choice([2, 254, 255])])


WEIGHTS = {"mkcoll": 2, "touch": 3, "write": 12, "zero": 5, "truncate": 4, "remove": 2, "read": 5, "sum": 3, "stat": 2, "list": 1}
WEIGHTS |= {"rmcoll": 1, "setattr": 5, "rmattr": 2, "rmattrs": 1, "omapset": 6, "omaprm": 2, "omaprmrange": 2, "omapclear": 1, "omapheader": 3}
WEIGHTS |= {"getattr": 3, "omapget": 3, "omaphdr": 2}
# Arguments at the limit of objects and past it, of which none makes a large object, since its checksum would take long.
AT_LIMIT = {
    "write": [(OBJECT_LIMIT - 1, "fill:5a:2"), (OBJECT_LIMIT, "hex:"), (OBJECT_LIMIT + 1, "hex:"), (2**64 - 1, "hex:00")],
    "zero": [(OBJECT_LIMIT - 1, 2), (OBJECT_LIMIT, 0), (OBJECT_LIMIT + 1, 0), (1, 2**64 - 1)],
    "truncate": [(OBJECT_LIMIT + 1,), (2**64 - 1,)],
}


def drawn_words(dice, kind, most):
    """The arguments behind an object's name. A write has less than so many pages."""
    if kind in AT_LIMIT and dice.random() < 0.03:
        return dice.choice(AT_LIMIT[kind])
    if kind == "write":
        return drawn_offset(dice), drawn_data(dice, most)
    if kind == "zero":
        return drawn_offset(dice), drawn_length(dice, most)
    if kind == "truncate":
        return (dice.choice([drawn_offset(dice), drawn_length(dice, most)]),)
    if kind == "read":
        offset = dice.choice([0, 1, UNIT - 1, UNIT, dice.randrange(40000), OBJECT_LIMIT])
        return offset, dice.choice([0, 1, 2, UNIT, 5000, dice.randrange(20000)])
    return drawn_value_words(dice, kind, most)


def drawn_value_words(dice, kind, most):
    """The arguments of a command of values: keys, and values as words."""
    if kind == "setattr":
        return drawn_key(dice), drawn_value(dice, most)
    if kind == "omapheader":
        return (drawn_value(dice, most),)
    if kind == "omaprmrange":
        return drawn_key(dice), drawn_key(dice)
    if kind in ("rmattr", "getattr", "omapget"):
        return (drawn_key(dice),)
    count = dice.choice([1, 1, 2, 3, 20])
    if kind == "omaprm":
        return tuple(drawn_key(dice) for _ in range(count))
    if kind == "omapset":
        return tuple(word for _ in range(count) for word in (drawn_key(dice), drawn_value(dice, most)))
    return ()


READS = ("read", "sum", "stat", "list", "getattr", "omapget", "omaphdr")
COLLS = [b"1.0_head", b"1.1_head", b"22.ff_head"]
# What changes objects where there is one, whose operations stand in transactions of several.
CHANGES = [kind for kind in WEIGHTS if kind not in (*READS, "mkcoll", "rmcoll")]


def drawn_name(dice):
    return dice.choice([b"a", b"b", b"a b", b"ab", b"\xff\x01", b"x" * dice.choice([1, 40, 255])])


def drawn_command(dice, most):
    """A command of the model, with its arguments."""
    coll, name = dice.choice(COLLS), drawn_name(dice)
    kind = dice.choices([*WEIGHTS], [*WEIGHTS.values()])[0]
    words = () if kind in ("mkcoll", "rmcoll", "list") else (name, *drawn_words(dice, kind, most))
    return (kind, coll, *words) if kind in READS else ("change", coll, [(kind, *words)])


def drawn_block(dice, most):
    """A transaction of several operations on few objects, so that they meet: what was put is changed and cleared, objects and collections go and
    are made again. Some put so many pages here and there that the object has several shards. Few have more operations than may be, or just
    as many."""
    names = [drawn_name(dice) for _ in range(dice.choice([1, 1, 2, 3]))]
    kinds = dice.choice([CHANGES, CHANGES, ["write", "zero", "truncate", "write", "remove"], ["omapset", "omaprm", "omapclear", "setattr"]])
    operations = [("mkcoll",)] if dice.random() < 0.1 else []
    operations += [("touch", name) for name in names if dice.random() < 0.8]
    for _ in range(dice.choice([1, 2, 2, 4, 8, 20])):
        kind = dice.choices(kinds, [WEIGHTS[kind] for kind in kinds])[0]
        operations.append((kind, dice.choice(names), *drawn_words(dice, kind, most)))
    if dice.random() < 0.1:
        operations += [*(("remove", name) for name in names), ("rmcoll",), ("mkcoll",), ("touch", names[0])]
    if dice.random() < 0.1:
        operations += [("write", names[0], UNIT * number, "hex:5a") for number in dice.sample(range(400), dice.choice([20, 100, 200]))]
    if dice.random() < 0.02:
        operations += [("touch", names[0])] * (dice.choice([OPERATION_LIMIT, OPERATION_LIMIT + 1]) - len(operations))
    return "change", dice.choice(COLLS), operations


def spelled(kind, coll, *words):
    """A command as a line of a script: names are bytes, and behind them stand numbers and words of data."""
    return " ".join([kind, coll.decode(), *(escaped(it) if isinstance(it, bytes) else str(it) for it in words)])


def lines_of(dice, kind, coll, *words):
    """The lines of a command: one, or a block."""
    if kind != "change":
        return [spelled(kind, coll, *words)]
    operations = [spelled(kind, coll, *rest) for kind, *rest in words[0]]
    if len(operations) == 1 and dice.random() < 0.9:
        return operations
    noted = [line for it in operations for line in ([it] if dice.random() < 0.9 else [dice.choice(["", "# a note"]), it])]
    return ["begin", *noted, *dice.choice([[], [], [], [""]]), "end"]


def drawn_script(dice):
    """The lines of a script, and its commands, each with its line: None for a `wait`. Half of them make the collections first, and a few
    do nothing but make and take them, so that there may be no row. Some have many a `wait`, so that more finds room."""
    lines, commands = [], []
    making, pauses = dice.choice([0, 0, 0, 3, 3, 3, 120]), dice.choice([0.1, 0.1, 0.8])
    for at in range(dice.choice([0, 5, 30, 120])):
        most = dice.choice([3, 12, 300])
        command = drawn_block(dice, min(most, 40)) if dice.random() < 0.25 else drawn_command(dice, most)
        if at < making:
            command = "change", COLLS[at % 3], [("mkcoll" if at % 6 < 3 else "rmcoll",)]
        if dice.random() < pauses:
            lines.append(dice.choice(["wait", "", "# a note"]))
            if lines[-1] == "wait":
                commands.append((len(lines), None))
        commands.append((len(lines) + 1, command))
        lines += lines_of(dice, *command)
    return lines, commands


# ---- rounds


def printed(program, *words):
    ran = subprocess.run([program, *words], capture_output=True, text=True, check=False)
    expect(ran.returncode == 0, f"the status {ran.returncode} of {words[0]}: {ran.stdout[-80:]!r}")
    return ran.stdout.splitlines()


def expect_same(found, wanted, what):
    for at, pair in enumerate(zip(found, wanted)):
        expect(pair[0] == pair[1], f"line {at + 1} of {what} is {pair[0][:120]!r}, not {pair[1][:120]!r}")
    expect(len(found) == len(wanted), f"{what} has {len(found)} lines, not {len(wanted)}")


def traced(*words):
    """A program under strace: the writes and flushes that it called, one behind the other, and the run."""
    tracer = ["strace", "-qq", "-s", "0", "-o", "trace", "-e", "trace=pwrite64,fdatasync,write"]
    ran = subprocess.run([*tracer, *words], capture_output=True, text=True, check=False)
    with open("trace", encoding="ascii") as it:
        return re.findall(r"^(\w+)\(", it.read(), re.MULTILINE), ran


def can_trace():
    with tempfile.TemporaryDirectory() as room:
        tracer = ["strace", "-qq", "-o", f"{room}/trace", "-e", "inject=getuid:error=EPERM", "true"]
        try:
            return subprocess.run(tracer, capture_output=True, check=False).returncode == 0
        except FileNotFoundError:
            return False


def killed_run(dice, program, seed, names, wanted, kernel):
    """Runs the scripts up to one of the run's calls, and returns the store that the next mount finds. Which calls there are is seen of a run
    on a copy. The first ones are those of the opening, which clears what the last kill left behind the records."""
    shutil.copy("device", "copy")
    calls, _ = traced(program, "step", "copy", "--seed", str(seed), *names)
    of_device = [call for call in calls if call != "write"]
    opening = len(of_device) - len(kernel.calls)
    expect(of_device[opening:] == [call for call, _ in kernel.calls], "the device has other calls than the model's")
    jobs = iter(["opening"] * opening + [job for _, job in kernel.calls])
    kinds = [call if call == "write" else next(jobs) for call in calls]
    kind = dice.choice(sorted(set(kinds)))
    last = dice.choice([at for at, it in enumerate(kinds) if it == kind])
    inject = f"inject={calls[last]}:signal=KILL:when={calls[: last + 1].count(calls[last])}"
    made, ran = traced("-e", inject, program, "step", "device", "--seed", str(seed), *names)
    expect(ran.returncode == -9 and made[:last] == calls[:last], f"the run was killed at call {len(made)} and not at {last + 1}")
    text = "".join(f"{line}\n" for line in wanted)
    expect(text.startswith(ran.stdout), f"it printed {ran.stdout[-80:]!r}")
    said = {line.split()[0] for line in ran.stdout.splitlines() if line.endswith(" ok")}
    done = last - calls[:last].count("write") - opening
    acked = [flushed <= done or f"{it.client.number}:{it.line}" in said for it, flushed in kernel.committed]
    left = Device("device")
    store = next((it for it in kernel.states if not left.differences(it)), None)
    expect(store, f"the device of a run that was killed at {kind} is that of no front of the commits")
    left.expect_rows(store.rows())
    expect(not any(acked[store.commits :]), f"the device has {store.commits} commits, and more were acknowledged")
    expect_same(printed(program, "fsck", "device"), ["findings 0"], "fsck")
    return store.mounted(left)


def whole_run(program, seed, names, wanted, kernel):
    """Runs the scripts to their end, and returns the store that the next mount finds."""
    expect_same(printed(program, "step", "device", "--seed", str(seed), *names), wanted, "step")
    left, store = Device("device"), kernel.last
    expect(not left.differences(store), f"the device has other {left.differences(store)}")
    left.expect_rows(store.rows())
    expect(not left.behind, f"units behind the records aren't zero: {sorted(left.behind)[:5]}")
    lost = store.stale - left.stale - left.other_records()
    expect(not lost, f"units of the other half were cleared: {sorted(lost)[:5]}")
    expect_same(printed(program, "dump", "device"), store.dump(), "dump")
    expect_same(printed(program, "fsck", "device"), ["findings 0"], "fsck")
    return store.mounted(left)


def lay_stale(dice, units):
    """What a device had before it was made: nothing, or in some units whole records, or noise."""
    first = dice.choice([2, 2, dice.randrange(12)])
    held = [bytes(UNIT), b"\xa5" * UNIT, None]
    with open("device", "wb") as it:
        for unit in range(dice.choice([0, units])):
            it.write(dice.choice(held) or record_units(max(unit - first, 0), [set_op(b"C9.0_head", b"")]))


def lay(path, store):
    """Lays all rows of a store on a device that has its pages, as one record in the active half. The store that a mount finds then, or None where
    there are no rows or a half has no room for these."""
    other, rows, owned = store.copy(), store.rows(), store.owned()
    other.row_bytes, other.free = set_bytes(rows), set(range(2 * store.half + 2, store.units)) - owned
    if not rows or other.rows_units() > other.half:
        return None
    for row in {unit // ROW_UNITS for unit in owned}:
        marks = sum(1 << unit % ROW_UNITS for unit in owned if unit // ROW_UNITS == row)
        rows[b"b" + struct.pack(">I", row)] = marks.to_bytes(ROW_UNITS // 8, "little")
    other.lengths, other.stale, slot = [other.rows_length()], set(), store.epoch % 2
    other.slots[slot], other.number = (store.epoch, store.number), store.number + 1
    record = record_units(store.number, [set_op(key, rows[key]) for key in sorted(rows)])
    with open(path, "r+b") as it:
        it.seek(UNIT * slot)
        it.write(slot_unit(store.units, store.half, *other.slots[slot]))
        it.seek(2 * UNIT)
        halves = [record.ljust(UNIT * store.half, b"\0"), bytes(UNIT * store.half)]
        it.write(halves[slot] + halves[1 - slot])
    return other


def cut_otherwise(dice, store):
    """Lays all rows with shards that are cut anywhere between extents, as another program may have, and with pages on shared blobs, which nothing
    makes so far. The store that a mount finds then, or the same where that can't be."""
    changed = store.copy()
    if dice.random() < 0.6:
        share_pages(dice, changed)
    for coll, objects in changed.colls.items():
        changed.colls[coll] = {name: replace(it, cut=drawn_cut(dice, it)) for name, it in objects.items()}
    other = lay("device", changed)
    if other is None:
        return store
    left = Device("device")
    expect(not left.differences(other), f"the device was laid with other {left.differences(other)}")
    return other


def share_pages(dice, store):
    """Has runs of objects' pages stand on slots of new blobs, and whole pages of the same collection on some of these slots too, whatever they
    had. So some slots are named once or often, and some by no page any more."""
    store.blobs = dict(store.blobs)
    for coll, objects in store.colls.items():
        store.colls[coll] = {name: replace(it, pages=dict(it.pages)) for name, it in objects.items()}
        objects = [*store.colls[coll].values()]
        runs = [(it.pages, run) for it in objects for run in it.extents() if not isinstance(run[2], Slot)]
        for pages, (first, count, unit) in dice.sample(runs, (len(runs) + 1) // 2):
            number = max(store.blobs, default=0) + dice.choice([1, 1, 300])
            store.blobs[number] = Blob(unit, count)
            pages.update({first + at: (Slot(number, at), pages[first + at][1]) for at in range(count)})
        on_slots = [page for it in objects for page in it.pages.values() if isinstance(page[0], Slot)]
        for it in objects if on_slots else ():
            whole = range(it.size // UNIT)
            it.pages.update({at: dice.choice(on_slots) for at in dice.sample(whole, min(len(whole), dice.choice([0, 1, 3, 20])))})


def drawn_cut(dice, it):
    """The pages at which shards begin, if that isn't as the store would cut them: each extent's, some, or the first alone."""
    firsts = [first for first, _, _ in it.extents()]
    some = dice.choice([firsts, dice.sample(firsts, len(firsts) // 3), []])
    return {*firsts[:1], *some} if dice.random() < 0.8 else None


def play(program, may_trace, seed):
    """A round: a new store, and some runs on it. How often the halves were switched."""
    dice = random.Random(seed)
    half = dice.choice([8, 8, 8, 9, 12, 40, 100, 200])
    store = Store(2 * half + 2 + dice.choice([1, 2, 5, 20, 60, 300, 600]), half)
    lay_stale(dice, store.units)
    printed(program, "mkfs", "device", "--half", str(half), "--units", str(store.units))
    store = store.mounted(Device("device"))
    for at in range(dice.choice([1, 2, 3])):
        store = cut_otherwise(dice, store) if at and dice.random() < 0.8 else store
        scripts = [drawn_script(dice) for _ in range(dice.choice([1, 1, 2, 3, dice.randrange(4, 9), 64 if dice.random() < 0.1 else 1]))]
        names = [f"script{number}" for number in range(len(scripts))]
        for name, (lines, _) in zip(names, scripts):
            with open(name, "w", encoding="ascii") as it:
                it.write("\n".join(lines) + dice.choice(["", "\n", "\n"]))
        drawn = dice.randrange(2**32)
        wanted, kernel = run(store, [commands for _, commands in scripts], drawn)
        if dice.random() < 0.2 and may_trace:
            store = killed_run(dice, program, drawn, names, wanted, kernel)
        else:
            store = whole_run(program, drawn, names, wanted, kernel)
    return store.epoch


# ---- the model's own checks


def read_script(lines):
    """The commands of a script, each with its line. No names are escaped."""
    commands, block = [], None
    for at, line in enumerate(lines):
        kind, *words = line.split()
        if kind == "begin":
            block = []
            commands.append((at + 1, ("change", block)))
        elif kind == "end":
            commands[-1] = commands[-1][0], ("change", block[0][0], [operation for _, operation in block])
            block = None
        elif kind == "wait":
            commands.append((at + 1, None))
        else:
            coll, *rest = words
            read = kind, *(it.encode() for it in rest[:1]), *(read_word(it) for it in rest[1:])
            if block is not None:
                block.append((coll.encode(), read))
            elif kind in READS:
                commands.append((at + 1, (kind, coll.encode(), *read[1:])))
            else:
                commands.append((at + 1, ("change", coll.encode(), [read])))
    return commands


def read_word(word):
    """A number, a word of data as it is, or a name."""
    return int(word) if word.isdigit() else word if ":" in word else word.encode()


PAGES_OF_TWO = [
    ["mkcoll 1.0_head", "write 1.0_head a 0 fill:41:4096", "wait", "read 1.0_head a 0 1"],
    ["mkcoll 2.1_head", "write 2.1_head a 0 fill:42:4096", "wait", "read 2.1_head a 0 1"],
    ["touch 1.0_head z"],
]
OF_PAGES = "0:1 ok, 0:2 ok, 0:4 data 41, 1:1 ok, 1:2 ok, 1:4 data 42, "
NO_TOUCH = OF_PAGES + "2:1 E1 NoCollection, done accepted=4 refused=1 reads=2 commits=4 free=44"
FEW_UNITS = [
    ["mkcoll 1.0_head", "write 1.0_head a 0 fill:41:4096", "write 1.0_head a 0 fill:42:4096", "wait", "write 1.0_head b 0 fill:43:4096"],
    ["write 1.0_head c 0 fill:44:4096", "write 1.0_head c 0 fill:45:4096", "list 1.0_head"],
]
PARTS_OF_PAGES = [
    ["mkcoll 1.0_head", "write 1.0_head a 4090 fill:41:10", "wait", "read 1.0_head a 4088 12", "zero 1.0_head a 4095 2", "wait",
     "read 1.0_head a 4094 4", "truncate 1.0_head a 4096", "zero 1.0_head a 0 8192", "stat 1.0_head a", "remove 1.0_head a", "wait",
     "list 1.0_head"],
]
OF_PARTS = ("0:1 ok, 0:2 ok, 0:4 data 000041414141414141414141, 0:5 ok, 0:7 data 41000041, 0:8 ok, 0:9 ok, 0:10 size 8192, 0:11 ok, "
            "0:13 objects, done accepted=6 refused=0 reads=4 commits=6 free=46")
NO_UNIT = [
    ["mkcoll 1.0_head", "write 1.0_head a 4095 hex:4142", "zero 1.0_head a 0 1", "zero 1.0_head a 0 4096", "wait",
     "truncate 1.0_head a 4097", "write 1.0_head b 0 hex:", "truncate 1.0_head b 134217728", "truncate 1.0_head b 134217729",
     "zero 1.0_head b 134217728 1", "truncate 1.0_head c 1", "remove 2.0_head a", "wait", "read 1.0_head a 4094 3", "stat 1.0_head b",
     "list 1.0_head"],
]
OF_NO_UNIT = ("0:1 ok, 0:2 ok, 0:3 E9 NoSpace need=1 free=0, 0:4 ok, 0:6 ok, 0:7 ok, 0:8 ok, 0:9 E8 TooBig, 0:10 E8 TooBig, 0:11 ok, "
              "0:12 E1 NoCollection, 0:14 data 000042, 0:15 size 134217728, 0:16 objects a b, "
              "done accepted=7 refused=4 reads=3 commits=7 free=1")
VALUES_OF_OMAPS = [
    ["mkcoll 1.0_head", "touch 1.0_head o", "omapset 1.0_head o a hex:01 b hex:02 c hex:03 d hex:04", "omaprmrange 1.0_head o b d",
     "omaprmrange 1.0_head o a a", "omapset 1.0_head o d hex:05 d hex:", "wait", "omapget 1.0_head o a", "omapget 1.0_head o b",
     "omapget 1.0_head o d", "omaphdr 1.0_head o", "omapclear 1.0_head p", "omaprm 1.0_head p a", "rmcoll 1.0_head"],
]
OF_OMAPS = ("0:1 ok, 0:2 ok, 0:3 ok, 0:4 ok, 0:5 ok, 0:6 ok, 0:8 omap 01, 0:9 E5 NoAttr, 0:10 omap -, 0:11 header -, 0:12 ok, "
            "0:13 E4 NoObject, 0:14 E3 NotEmpty, done accepted=7 refused=3 reads=3 commits=7 free=46")
VALUES_OF_ATTRS = [
    ["mkcoll 1.0_head", "touch 1.0_head o", "setattr 1.0_head o n hex:", "setattr 1.0_head q n fill:00:65536", "setattr 1.0_head q n hex:01",
     "setattr 9.9_head q n fill:00:65536", "setattr 9.9_head q n fill:00:1048576", "wait", "getattr 1.0_head o n", "omapheader 1.0_head o hex:41",
     "rmattr 1.0_head o m", "wait", "omaphdr 1.0_head o", "remove 1.0_head o", "touch 1.0_head o", "wait", "getattr 1.0_head o n",
     "omaphdr 1.0_head o"],
]
OF_ATTRS = ("0:1 ok, 0:2 ok, 0:3 ok, 0:4 E8 TooBig, 0:5 E4 NoObject, 0:6 E1 NoCollection, 0:7 E8 TooBig, 0:9 attr -, 0:10 ok, 0:11 ok, "
            "0:13 header 41, 0:14 ok, 0:15 ok, 0:17 E5 NoAttr, 0:18 header -, "
            "done accepted=7 refused=5 reads=3 commits=7 free=46")
EMPTY_AGAIN = [
    ["mkcoll 1.0_head", "touch 1.0_head o", "rmcoll 1.0_head", "remove 1.0_head o", "rmcoll 1.0_head", "touch 1.0_head o", "rmcoll 1.0_head"],
]
OF_EMPTY_AGAIN = ("0:1 ok, 0:2 ok, 0:3 E3 NotEmpty, 0:4 ok, 0:5 ok, 0:6 E1 NoCollection, 0:7 E1 NoCollection, "
                  "done accepted=4 refused=3 reads=0 commits=4 free=46")
# The pages of the first transaction stand on the first unit and on the third, and one was taken for each of three.
PAGES_IN_ONE = [
    ["mkcoll 1.0_head", "begin", "write 1.0_head a 0 fill:61:8192", "write 1.0_head a 4095 hex:7a7a", "zero 1.0_head a 4096 4096",
     "write 1.0_head a 8191 hex:62", "end", "begin", "write 1.0_head b 0 fill:63:4096", "remove 1.0_head b", "end", "wait",
     "read 1.0_head a 4094 4", "read 1.0_head a 8190 2", "list 1.0_head", "begin", "touch 1.0_head q", "setattr 1.0_head missing n hex:01",
     "end", "wait", "stat 1.0_head q"],
]
OF_PAGES_IN_ONE = ("0:1 ok, 0:2 ok, 0:8 ok, 0:13 data 617a0000, 0:14 data 0062, 0:15 objects a, 0:16 E4 NoObject, 0:21 E4 NoObject, "
                   "done accepted=3 refused=2 reads=3 commits=3 free=44")
CLEARED_IN_ONE = [
    ["mkcoll 1.0_head", "begin", "write 1.0_head a 0 fill:61:4096", "zero 1.0_head a 0 4096", "write 1.0_head a 0 hex:62", "end", "begin",
     "write 1.0_head a 0 fill:61:4096", "write 1.0_head a 0 hex:62", "end", "wait", "read 1.0_head a 0 2", "begin", "remove 1.0_head a",
     "write 1.0_head a 0 hex:63", "end"],
]
OF_CLEARED_IN_ONE = ("0:1 ok, 0:2 E9 NoSpace need=2 free=1, 0:7 ok, 0:12 data 6261, 0:13 E9 NoSpace need=1 free=0, "
                     "done accepted=2 refused=2 reads=1 commits=2 free=0")
VALUES_IN_ONE = [
    ["mkcoll 1.0_head", "begin", "touch 1.0_head o", "omapheader 1.0_head o hex:77", "omapset 1.0_head o k hex:01", "end", "wait", "begin",
     "omapset 1.0_head o k2 hex:02", "omapclear 1.0_head o", "omapset 1.0_head o k3 hex:03 k3 hex:04", "end", "wait", "omapget 1.0_head o k",
     "omapget 1.0_head o k2", "omapget 1.0_head o k3", "omaphdr 1.0_head o", "begin", "remove 1.0_head o", "rmcoll 1.0_head", "mkcoll 1.0_head",
     "end", "wait", "list 1.0_head"],
]
OF_VALUES_IN_ONE = ("0:1 ok, 0:2 ok, 0:8 ok, 0:14 E5 NoAttr, 0:15 E5 NoAttr, 0:16 omap 04, 0:17 header -, 0:18 ok, 0:24 objects, "
                    "done accepted=4 refused=2 reads=3 commits=4 free=46")
MOST_IN_ONE = [
    ["begin", *["touch 1.0_head o"] * 257, "end", "mkcoll 1.0_head", "begin", *["touch 1.0_head o"] * 256, "end",
     "begin", *["touch 1.0_head o"] * 257, "end", "list 1.0_head"],
]
OF_MOST_IN_ONE = "0:1 E8 TooBig, 0:260 ok, 0:261 ok, 0:519 E8 TooBig, 0:778 objects o, done accepted=2 refused=2 reads=1 commits=2 free=46"
NO_SPACE, NO_COLL = "E9 NoSpace need=1 free=0", "E1 NoCollection"
# The units of a store with halves of 8, its scripts, the seed, and what is printed.
CHECKS = [(64, PAGES_OF_TWO, seed, NO_TOUCH) for seed in range(8)] + [
    (64, PAGES_OF_TWO, 8, OF_PAGES + "2:1 ok, done accepted=5 refused=0 reads=2 commits=5 free=44"),
    (20, FEW_UNITS, 1, f"0:1 ok, 0:2 ok, 0:3 ok, 0:5 ok, 1:1 {NO_SPACE}, 1:2 {NO_SPACE}, 1:3 objects a, "
     "done accepted=4 refused=2 reads=1 commits=4 free=0"),
    (20, FEW_UNITS, 4, f"0:1 ok, 0:2 ok, 0:3 {NO_SPACE}, 0:5 {NO_SPACE}, 1:1 ok, 1:2 {NO_SPACE}, 1:3 objects a c, "
     "done accepted=3 refused=3 reads=1 commits=3 free=0"),
    (20, FEW_UNITS, 9, f"0:1 ok, 0:2 ok, 0:3 ok, 0:5 ok, 1:1 {NO_COLL}, 1:2 {NO_COLL}, 1:3 objects, "
     "done accepted=4 refused=2 reads=1 commits=4 free=0"),
    (20, FEW_UNITS, 11, f"0:1 ok, 0:2 {NO_SPACE}, 0:3 {NO_SPACE}, 0:5 {NO_SPACE}, 1:1 ok, 1:2 ok, 1:3 objects c, "
     "done accepted=3 refused=3 reads=1 commits=3 free=1"),
    (20, FEW_UNITS, 15, f"0:1 ok, 0:2 ok, 0:3 ok, 0:5 ok, 1:1 {NO_COLL}, 1:2 {NO_COLL}, 1:3 {NO_COLL}, "
     "done accepted=4 refused=3 reads=0 commits=4 free=0"),
    *((64, PARTS_OF_PAGES, seed, OF_PARTS) for seed in range(4)),
    *((20, NO_UNIT, seed, OF_NO_UNIT) for seed in range(4)),
    *((64, *of, seed, told) for seed in range(2) for *of, told in (
        (VALUES_OF_OMAPS, OF_OMAPS), (VALUES_OF_ATTRS, OF_ATTRS), (EMPTY_AGAIN, OF_EMPTY_AGAIN), (PAGES_IN_ONE, OF_PAGES_IN_ONE),
        (VALUES_IN_ONE, OF_VALUES_IN_ONE), (MOST_IN_ONE, OF_MOST_IN_ONE))),
    *((19, CLEARED_IN_ONE, seed, OF_CLEARED_IN_ONE) for seed in range(2)),
]


# Halves that are switched. Behind each line the client waits, so that neither replies nor events depend on the seed. A transaction has six
# events, and two more where it puts a page; a checkpoint has six, and two more for each of its pieces.
MKCOLL, TOUCH, CLEAR = "mkcoll 1.0_head", "touch 1.0_head o", "omapclear 1.0_head o"
PAGES = [MKCOLL, *(f"write 1.0_head a 0 fill:{at % 256:02x}:4096" for at in range(1, 702))]
COLL_AGAIN = [MKCOLL, "rmcoll 1.0_head"] * 20
# The record of the first pair has 24576 bytes, just six units; with one byte more it takes seven. With the last pair the rows have 28648
# bytes, which as one record take just seven.
PAIR, LONGER_PAIR, LONGEST_PAIR = ([MKCOLL, TOUCH, f"omapset 1.0_head o k fill:5a:{size}"] for size in (24531, 24532, 28583))
# These rows have 28654 bytes, and as one record they fill a half of eight units.
FULL_ROWS = [*PAIR, "touch 1.0_head p", "omapset 1.0_head o l fill:5a:3900", "omapset 1.0_head o m fill:5a:60", "touch 1.0_head q"]
# Two of the three units of the pair's record are zero but for a few bytes, and are stale all the same.
ZEROS = [MKCOLL, TOUCH, "omapset 1.0_head o k fill:00:9000", CLEAR, *["touch 1.0_head p"] * 12]
# With a page there are a shard of 40 bytes and a row of the bitmap of 28, and 133 bytes in all but the value. As one record the first rows take
# just seven units, and the others eight.
WITH_PAGE = [[*PAGES[:2], f"omapset 1.0_head a k fill:5a:{size}", "omapclear 1.0_head a"] for size in (28515, 28516)]
# A half that is left with two units of records has these two stale, and not all that were stale before: the last record covers them.
TWO_STALE = [MKCOLL, *[TOUCH] * 8, LONGER_PAIR[2], "touch 1.0_head p"]
# The units of a half, what each byte was before, the lines, how many of the last ones find no room, the free units, the events, and of each
# slot the epoch and the first number.
SWITCHES = [
    (8, 0, PAGES[:41], 0, 45, 374, [(4, 32), (5, 40)]),
    (9, 0, PAGES[:41], 0, 43, 364, [(4, 36), (3, 27)]),
    (8, 0, PAGES, 0, 45, 6612, [(100, 800), (99, 792)]),
    (8, 0, COLL_AGAIN, 0, 46, 270, [(4, 32), (3, 24)]),
    (9, 0, COLL_AGAIN, 0, 44, 278, [(4, 36), (3, 27)]),
    (8, 0, [*PAIR, "touch 1.0_head p"], 0, 46, 32, [(0, 0), (1, 3)]),
    (8, 0, [*LONGER_PAIR, "touch 1.0_head p"], 0, 46, 40, [(2, 4), (1, 2)]),
    (8, 0, [*LONGEST_PAIR, CLEAR], 0, 46, 40, [(2, 4), (1, 2)]),
    (8, 0, [*FULL_ROWS, CLEAR, "remove 1.0_head o"], 2, 46, 80, [(4, 9), (3, 7)]),
    (8, 0, WITH_PAGE[0], 0, 45, 42, [(2, 4), (1, 2)]),
    (8, 0, WITH_PAGE[1], 1, 45, 28, [(0, 0), (1, 2)]),
    (8, 0, ZEROS, 0, 46, 114, [(2, 14), (1, 6)]),
    (8, 0, TWO_STALE, 0, 46, 92, [(2, 10), (3, 12)]),
    (8, 0, PAGES[:17], 0, 45, 152, [(2, 16), (1, 8)]),
    (8, 0xA5, PAGES[:17], 0, 45, 154, [(2, 16), (1, 8)]),
]


def told_of(lines, refused, free):
    """What is printed of so many lines with a `wait` behind each, of which the last ones find no room."""
    accepted = lines - refused
    replies = ["ok"] * accepted + ["E10 MetaFull need=1 room=0"] * refused
    told = [f"0:{2 * at + 1} {reply}" for at, reply in enumerate(replies)]
    return ", ".join([*told, f"done accepted={accepted} refused={refused} reads=0 commits={accepted} free={free}"])


def told_shortly(lines):
    """Of what is printed of a run, the first command that was refused, and the last line."""
    return [*[line for line in lines if " E" in line][:1], lines[-1]]


# Transactions that share a record and its two flushes. Nobody waits, so how many there are of a batch is drawn.
ROW_OF_PAGES = [[MKCOLL, *(f"write 1.0_head a 0 fill:{at:02x}:4096" for at in range(1, 41))]]
# Each client has a collection, and waits for each page; a batch has several of theirs.
CLIENTS = [
    [it for line in [f"mkcoll {at}.0_head", *(f"write {at}.0_head a 0 fill:{page:02x}:4096" for page in range(1, 11))] for it in (line, "wait")]
    for at in range(1, 65)
]
ALL_WELL = "done accepted=704 refused=0 reads=0 commits=704 free=446"
# The units of a half and of the device, the scripts, the seed, what is told shortly, the events, and how many of these submit a flush, where
# that was reckoned.
GROUPED = [
    *((8, 64, ROW_OF_PAGES, seed, "0:9 E10 MetaFull need=1 room=0, done accepted=15 refused=26 reads=0 commits=15 free=45", 58, None)
      for seed in (1, 2)),
    (8, 64, ROW_OF_PAGES, 3, "0:9 E10 MetaFull need=1 room=0, done accepted=16 refused=25 reads=0 commits=16 free=45", 60, None),
    (9, 64, ROW_OF_PAGES, 1, "0:10 E10 MetaFull need=1 room=0, done accepted=13 refused=28 reads=0 commits=13 free=43", 48, None),
    (256, 1024, CLIENTS, 1, ALL_WELL, 1514, 78),
    (256, 1024, CLIENTS, 2, ALL_WELL, 1526, 82),
]
CHECKS += [
    (units, scripts, seed, told, half, 0, events, None, told_shortly, flushes) for half, units, scripts, seed, told, events, flushes in GROUPED
]
# Where a half is too short for the rows of them all and for what waits.
CHECKS += [(1024, CLIENTS, 1, "done accepted=687 refused=17 reads=0 commits=687 free=830", 64, 0, None, None, lambda lines: lines[-1:])]
CHECKS += [
    (64, [[it for line in lines for it in (line, "wait")]], 1, told_of(len(lines), refused, free), half, held, events, slots)
    for half, held, lines, refused, free, events, slots in SWITCHES
]


# Shards. A page whose unit isn't next to those of the pages beside it is an extent of 15 bytes, and 80 of them are a shard of 1200. An operation
# that sets a shard has 25 bytes besides the value, one that drops it 21, that of the onode 28, and one of a row of the bitmap 28; a record has 24
# besides. Each of these stands in a transaction of its own, or 256 in one.
def page(number):
    return f"write 1.0_head a {UNIT * number} fill:{number % 251:02x}:4096"


def blocks(lines):
    return [["begin", *lines[at : at + OPERATION_LIMIT], "end"] for at in range(0, len(lines), OPERATION_LIMIT)]


# Runs of 256 and 44 pages: shards of 1035 and 187 bytes, of which the second write sets the second.
TWO_RUNS = [MKCOLL, "write 1.0_head a 0 fill:61:1048576", "write 1.0_head a 1048576 fill:62:180224"]
# The second shard goes with its pages. A size that changes within a page, or without pages, is the onode alone.
SIZES = [f"truncate 1.0_head a {size}" for size in (1048576, 1048577, OBJECT_LIMIT, 1048576)]
# The last page of 300 comes before all others, so that four shards are dropped, three of 1200 bytes are set, and one of 900; or it is on the unit
# behind the others, in the shard of 44; or it is page 293, in the last shard of four. Its unit is 429, and the first one 130.
FALLING, RISING, SCATTERED = ([MKCOLL, *map(page, pages)] for pages in (range(299, -1, -1), range(300), [7 * at % 300 for at in range(300)]))
# A page before a shard of 1200 bytes makes it two, with another first page, and once it is zeroed they are one again. One behind it makes a second
# shard and leaves the first, and so does its leaving; and a page over the first one is of that shard.
ONE_AND_TWO = [page(0), "zero 1.0_head a 0 4096", page(161), "zero 1.0_head a 659456 4096", page(1)]
# Of 1024 pages on units from 130 on, the first, which goes to unit 1154, in another row of the bitmap; one of the second shard, which goes to
# unit 130, in the row of its own; and one of the last shard of 64, which goes to unit 210.
OVER_ONE = [page(0), page(160), page(2000)]
# The units of a half and of the device, the transactions, the free units, and how many bytes the last records have.
SHARDS = [
    (64, 512, TWO_RUNS, 82, [40, 1196, 292]),
    (64, 512, [*TWO_RUNS, *SIZES], 126, [292, 101, 52, 52, 52]),
    (64, 512, FALLING, 82, [4736]),
    (64, 512, RISING, 82, [292]),
    (64, 512, SCATTERED, 82, [977]),
    (64, 512, [MKCOLL, *blocks([page(2 * at + 1) for at in range(80)]), *ONE_AND_TWO], 302, [1305, 1338, 1319, 120, 73, 1277]),
    (64, 1200, [MKCOLL, *blocks([page(2 * at) for at in range(1024)]), *OVER_ONE], 46, [1305, 1277, 1065]),
    # A hundred shards, of pages on 62 rows of the bitmap.
    (128, 8200, [MKCOLL, *blocks([page(2 * at) for at in range(7921)]), "remove 1.0_head a"], 7942, [3876]),
]
CHECKS += [
    (units, [[it for txn in txns for it in (*([txn] if isinstance(txn, str) else txn), "wait")]], 1,
     f"done accepted={len(txns)} refused=0 reads=0 commits={len(txns)} free={free}", half, 0, None, None, told_shortly, None, lengths)
    for half, units, txns, free, lengths in SHARDS
]


def check(units, scripts, seed, wanted, half=8, held=0, events=None, slots=None, shown=list, flushes=None, lengths=()):
    store = Store(units, half)
    store.stale = set(range(half)) if held else set()
    found, kernel = run(store, [read_script(script) for script in scripts], seed)
    expect_same(shown(found), wanted.split(", "), f"seed {seed}")
    last, after = kernel.last, kernel.store
    expect(last.colls == after.colls and last.free == after.free, f"seed {seed}: the last commit leaves another store")
    expect(events in (None, kernel.events), f"there are {kernel.events} events, not {events}")
    expect(flushes in (None, kernel.flushes), f"there are {kernel.flushes} flushes, not {flushes}")
    expect(slots in (None, last.slots), f"the slots are {last.slots}, not {slots}")
    expect_lengths(last, lengths)


def expect_lengths(it, lengths):
    """The last records of a store or of a device have these lengths."""
    found = it.lengths[len(it.lengths) - len(lengths) :]
    expect(found == list(lengths), f"the last records have {found} bytes, not {lengths}")


def check_program(program, units, scripts, seed, wanted, half=8, held=0, _events=None, slots=None, shown=list, _flushes=None, lengths=()):
    """The same of the program, on a new store. Of its events nothing is seen here."""
    names = [f"script{number}" for number in range(len(scripts))]
    for name, lines in zip(names, scripts):
        with open(name, "w", encoding="ascii") as it:
            it.writelines(f"{line}\n" for line in lines)
    with open("device", "wb") as it:
        it.write(bytes([held]) * UNIT * units)
    printed(program, "mkfs", "device", "--half", str(half), "--units", str(units))
    expect_same(shown(printed(program, "step", "device", "--seed", str(seed), *names)), wanted.split(", "), f"seed {seed}")
    found = Device("device")
    found.expect_rows(rows_of(found.colls, found.blobs))
    expect(slots in (None, found.slots), f"the slots are {found.slots}, not {slots}")
    expect_lengths(found, lengths)


def all_pass(tries):
    """Makes these tries, each with what it is called, and prints which fail. How many pass and fail, in words; whether none fails; and the sum
    of what they gave."""
    failed, given = 0, 0
    for called, attempt in tries:
        try:
            given += attempt() or 0
        except BadDevice as why:
            failed += 1
            print(f"FAILED  {called}: {why}")
    return f"{len(tries) - failed} passed, {failed} failed", failed == 0, given


def main():
    if sys.argv[1:] == ["--self-test"]:
        told, passed, _ = all_pass([("the model's own checks", partial(check, *it)) for it in CHECKS])
        print(told)
        return 0 if passed else 1
    rounds, seed = (int(sys.argv[at]) if len(sys.argv) > at else value for at, value in ((1, 120), (2, 1)))
    top = os.path.dirname(os.path.dirname(os.path.abspath(__file__)))
    program = os.path.abspath(sys.argv[3]) if len(sys.argv) > 3 else f"{top}/crates/bstore/out/bstore"
    if not os.access(program, os.X_OK):
        subprocess.run([f"{top}/bstore"], stdout=subprocess.DEVNULL, check=False)
    tries = [("the program, scripts reckoned by hand", partial(check_program, program, *it)) for it in CHECKS]
    may_trace = can_trace()
    if not may_trace:
        print("skipped runs that are killed: strace can't trace a program here")
    tries += [(f"the model, round of seed {seed + number}", partial(play, program, may_trace, seed + number)) for number in range(rounds)]
    with tempfile.TemporaryDirectory() as room:
        os.chdir(room)
        told, passed, switches = all_pass(tries)
        os.chdir(top)
    print(f"{told}, {switches} switches of halves in the rounds" + ("" if switches else ", where some must be"))
    return 0 if passed and switches else 1


if __name__ == "__main__":
    sys.exit(main())
