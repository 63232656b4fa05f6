#!/usr/bin/env python3
"""Writes a static RV64 ELF file from instruction words.

    elf_of_words.py FILE [--at ADDRESS] [--data] WORD [WORD ...]

Words and the address are hexadecimal. The words become one executable segment at ADDRESS (10000), which is the
entry too. With --data, 4,096 writable zero bytes stand at 0x20000.
"""

import struct
import sys


def header(flags, offset, address, file_size, memory_size):
    return struct.pack("<IIQQQQQQ", 1, flags, offset, address, 0, file_size, memory_size, 0)


def elf(words, address, data):
    count = 2 if data else 1
    start = 64 + 56 * count
    code = b"".join(struct.pack("<I", word) for word in words)
    ident = b"\x7fELF" + bytes([2, 1, 1]) + bytes(9)
    head = ident + struct.pack("<HHIQQQIHHHHHH", 2, 243, 0, address, 64, 0, 0, 0, 56, count, 0, 0, 0)
    headers = header(5, start, address, len(code), len(code))
    if data:
        headers += header(6, start, 0x20000, 0, 4096)
    return head + headers + code


def main(arguments):
    address = 0x10000
    data = False
    words = []
    name = arguments.pop(0)
    while arguments:
        argument = arguments.pop(0)
        if argument == "--at":
            address = int(arguments.pop(0), 16)
        elif argument == "--data":
            data = True
        else:
            words.append(int(argument, 16))
    with open(name, "wb") as file:
        file.write(elf(words, address, data))


if __name__ == "__main__":
    if len(sys.argv) < 3:
        sys.exit(__doc__)
    main(sys.argv[1:])
