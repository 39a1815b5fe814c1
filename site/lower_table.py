#!/usr/bin/env python3
"""lower_table.py IN.wasm OUT.wasm: makes the table of functions one with 32-bit places, and drops sections for debugging.

A call through a function pointer takes the function from a table. Where the memory has 64-bit addresses, the linker makes a
table with 64-bit places. node 20 and older tools refuse such a table, and binaryen lowers the memory alone. So here the table
and its elements get 32-bit places, and each indirect call wraps the place that it is given.
"""
import pathlib
import sys
from collections.abc import Callable

CUSTOM, TABLE, ELEMENTS, CODE = 0, 4, 9, 10  # sections
IS_64 = 4  # of the flags of a table
CALL_INDIRECT, WRAP, I32_CONST, I64_CONST, END = 0x11, 0xA7, 0x41, 0x42, 0x0B

# How many numbers in LEB128 follow an operation. Not here: those with none, and those that `past` knows.
NUMBERS = {0x02: 1, 0x03: 1, 0x04: 1, 0x0C: 1, 0x0D: 1, 0x10: 1, 0x11: 2, 0x3F: 1, 0x40: 1, 0x41: 1, 0x42: 1, 0xD0: 1, 0xD2: 1}
NUMBERS |= dict.fromkeys(range(0x20, 0x27), 1) | dict.fromkeys(range(0x28, 0x3F), 2)
FURTHER = {8: 2, 9: 1, 10: 2, 11: 1, 12: 2, 13: 1, 14: 2, 15: 1, 16: 1, 17: 1} | dict.fromkeys(range(8), 0)  # after 0xFC


def number(data: bytes, at: int) -> tuple[int, int]:
    """The number at a place, in LEB128 without sign, and the place after it."""
    value = shift = 0
    while True:
        byte = data[at]
        at += 1
        value |= (byte & 127) << shift
        shift += 7
        if not byte & 128:
            return value, at


def written(value: int) -> bytes:
    """A number in LEB128 without sign."""
    out = bytearray()
    while value > 127:
        out.append(value & 127 | 128)
        value >>= 7
    return bytes([*out, value])


def past(data: bytes, at: int) -> int:
    """The place after the operation at a place.

    Raises
    ------
    SystemExit
        Where the operation is of vectors, of atomic accesses or unknown.
    """
    operation, at = data[at], at + 1
    count = NUMBERS.get(operation, 0)
    if operation == 0x0E:  # br_table
        count, at = number(data, at)
        count += 1
    elif operation == 0x1C:  # select with types
        count, at = number(data, at)
    elif operation == 0xFC:
        further, at = number(data, at)
        if further not in FURTHER:
            sys.exit(f"lower_table.py: operation 0xFC {further} is unknown: add it to FURTHER")
        count = FURTHER[further]
    elif operation in (0x43, 0x44):  # constants of floating point
        return at + (4 if operation == 0x43 else 8)
    elif operation > 0xC4 and operation not in NUMBERS:
        sys.exit(f"lower_table.py: operation {operation:#x} is unknown: add it to NUMBERS")
    for _ in range(count):
        while data[at] & 128:
            at += 1
        at += 1
    return at


def lowered_code(data: bytes) -> bytes:
    """A function's locals and operations, where each indirect call wraps the place that it is given."""
    count, at = number(data, 0)
    for _ in range(count):
        at = number(data, at)[1] + 1
    out, copied = bytearray(), 0
    while at < len(data):
        if data[at] == CALL_INDIRECT:
            out += data[copied:at] + bytes([WRAP])
            copied = at
        at = past(data, at)
    return bytes(out + data[copied:])


def lowered_functions(data: bytes) -> bytes:
    """The section of code."""
    count, at = number(data, 0)
    out = bytearray(written(count))
    for _ in range(count):
        size, at = number(data, at)
        code = lowered_code(data[at:at + size])
        out += written(len(code)) + code
        at += size
    return bytes(out)


def lowered_tables(data: bytes) -> bytes:
    """The section of tables, of which there is one of functions."""
    if data[0] != 1 or data[1] != 0x70:
        sys.exit("lower_table.py: more than one table, or one that is not of functions")
    return bytes([1, 0x70, data[2] & ~IS_64]) + data[3:]


def lowered_elements(data: bytes) -> bytes:
    """The section of elements: lists of functions, each from a place in the first table on."""
    count, at = number(data, 0)
    out = bytearray(written(count))
    for _ in range(count):
        kind, begins = number(data, at)
        if kind != 0 or data[begins] not in (I32_CONST, I64_CONST):
            sys.exit("lower_table.py: elements that are not functions from a fixed place of the first table on")
        after = past(data, begins)
        out += written(kind) + bytes([I32_CONST]) + data[begins + 1:after] + bytes([END])
        functions, at = number(data, after + 1)
        listed = at
        for _ in range(functions):
            at = number(data, at)[1]
        out += written(functions) + data[listed:at]
    return bytes(out)


LOWERED: dict[int, Callable[[bytes], bytes]] = {TABLE: lowered_tables, ELEMENTS: lowered_elements, CODE: lowered_functions}


def lowered(data: bytes) -> bytes:
    """The module with 32-bit places, and without sections that are no code, but for the one of the features."""
    out, at = bytearray(data[:8]), 8
    while at < len(data):
        kind, (size, inner) = data[at], number(data, at + 1)
        at = inner + size
        section = data[inner:at]
        if kind == CUSTOM:
            length, name = number(section, 0)
            if section[name:name + length] != b"target_features":
                continue
        elif kind in LOWERED:
            section = LOWERED[kind](section)
        out += bytes([kind]) + written(len(section)) + section
    return bytes(out)


if __name__ == "__main__":
    pathlib.Path(sys.argv[2]).write_bytes(lowered(pathlib.Path(sys.argv[1]).read_bytes()))
