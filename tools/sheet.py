#!/usr/bin/env python3
"""Turns a readable text into a sheet, and a sheet back into such a text.

    sheet.py make FILE.txt > FILE.sheet
    sheet.py read FILE.sheet > FILE.txt

Lines of the text:

    # a comment, also behind other words
    cache N                               the head: version 1 and the size
    task NUMBER PERIOD DEADLINE TIME...   a record, led by its length
    raw HEX...                            bytes as they are

Nothing is checked, so that damaged sheets can be made as well.
"""

import struct
import sys


def head(size: int) -> bytes:
    return struct.pack(">BH", 1, size)


def record(number: int, *numbers: int) -> bytes:
    fields = struct.pack(f">B{len(numbers)}I", number, *numbers)
    return bytes([len(fields)]) + fields


def make(text: str) -> bytes:
    sheet = b""
    for line in text.splitlines():
        match line.partition("#")[0].split():
            case []:
                pass
            case ["cache", size]:
                sheet += head(int(size))
            case ["task", *numbers]:
                sheet += record(*map(int, numbers))
            case ["raw", *digits]:
                sheet += bytes.fromhex("".join(digits))
            case _:
                raise SystemExit(f"not understood: {line}")
    return sheet


def read(sheet: bytes) -> str:
    """What cannot be read as a head or a record is given raw."""
    lines = []
    at = 0
    if len(sheet) >= 3 and sheet[0] == 1:
        lines.append(f"cache {int.from_bytes(sheet[1:3], 'big')}")
        at = 3
    while at >= 3 and at < len(sheet):
        length = sheet[at]
        fields = sheet[at + 1 : at + 1 + length]
        if length < 9 or length % 4 != 1 or len(fields) < length:
            break
        numbers = struct.unpack(f">B{length // 4}I", fields)
        lines.append(" ".join(map(str, ["task", *numbers])))
        at += 1 + length
    if at < len(sheet):
        lines.append(f"raw {sheet[at:].hex()}")
    return "".join(line + "\n" for line in lines)


def main() -> None:
    match sys.argv[1:]:
        case ["make", path]:
            with open(path, encoding="ascii") as file:
                sys.stdout.buffer.write(make(file.read()))
        case ["read", path]:
            with open(path, "rb") as file:
                sys.stdout.write(read(file.read()))
        case _:
            raise SystemExit("usage: sheet.py make FILE.txt | read FILE.sheet")


if __name__ == "__main__":
    main()
