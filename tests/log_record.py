#!/usr/bin/env python3
"""Spells a record of the log or a superblock slot by hand, for tests and benchmarks that look at a device's bytes or make their own. It
is written from docs/formats.md and shares nothing with the crates.

Usage: tests/log_record.py NUMBER OP.., the record's number and its operations in hexadecimal digits: it prints the record's units.
tests/log_record.py slot UNITS HALF EPOCH FIRST: it prints the slot's unit."""

import sys

UNIT = 4096


def remainder_of_byte(byte):
    for _ in range(8):
        byte = byte >> 1 ^ (0x82F63B78 if byte & 1 else 0)
    return byte


AFTER_BYTE = [remainder_of_byte(byte) for byte in range(256)]


def crc32c(data):
    """CRC-32C."""
    rest = 0xFFFFFFFF
    for byte in data:
        rest = AFTER_BYTE[(rest ^ byte) & 255] ^ rest >> 8
    return rest ^ 0xFFFFFFFF


def set_op(key, value):
    """The operation that sets a row."""
    return b"\x01" + len(key).to_bytes(2, "little") + key + len(value).to_bytes(4, "little") + value


def record_units(number, ops):
    """The units of the record of this number with these operations."""
    body = b"".join(ops)
    head = b"BREC" + len(body).to_bytes(4, "little") + number.to_bytes(8, "little") + len(ops).to_bytes(4, "little")
    record = head + crc32c(head + body).to_bytes(4, "little") + body
    return record + bytes(-len(record) % UNIT)


def slot_unit(units, half, epoch, first):
    """The unit of a slot, with 32768 as the fewest bytes of a write that isn't deferred."""
    fields = b"".join(number.to_bytes(4, "little") for number in (1, units, half, 32768))
    fields = (b"BSTORE01" + fields + epoch.to_bytes(8, "little") + first.to_bytes(8, "little")).ljust(UNIT - 4, b"\0")
    return fields + crc32c(fields).to_bytes(4, "little")


def spelled(words):
    """What these words say."""
    if words[0] == "slot":
        return slot_unit(*map(int, words[1:]))
    return record_units(int(words[0]), [bytes.fromhex(op) for op in words[1:]])


if __name__ == "__main__":
    sys.stdout.buffer.write(spelled(sys.argv[1:]))
