#!/usr/bin/env python3
"""A ledger line from a logged file, as ledger.c makes it, by ctypes.

usage: ledger.py LIBRARY FILE GROUP CHANNEL

LIBRARY is the shared library: libmdf3.so.1 where it is installed, build/libmdf3.so.1 after make
"""
import ctypes
import math
import os
import struct
import sys

SIZE, COUNT = ctypes.c_size_t, ctypes.c_uint64

# numbers of mdf3.h
OK, NO_ROOM, NO_SUCH = 0, 13, 14


class Refused(Exception):
    """A refusal: number and place."""


class Library:
    def __init__(self, path):
        calls = ctypes.CDLL(path)
        self.calls = calls
        for name, between in [
            ("mdf3_check", []),
            ("mdf3_copy", [ctypes.c_char_p, SIZE]),
            ("mdf3_physical", [COUNT, COUNT, COUNT]),
        ]:
            call = getattr(calls, name)
            call.restype = ctypes.c_uint32
            call.argtypes = [ctypes.c_char_p, SIZE] + between + [ctypes.c_char_p]

    def ask(self, name, image, *between):
        """The number, and place, value, length and kind of the answer."""
        answer = ctypes.create_string_buffer(32)
        number = getattr(self.calls, name)(image, len(image), *between, answer)
        return number, struct.unpack("<4Q", answer.raw)

    def check(self, image):
        number, answer = self.ask("mdf3_check", image)
        if number != OK:
            raise Refused(number, answer[0])

    def copy(self, image):
        # with no room, an image that can be copied gives the length needed
        number, answer = self.ask("mdf3_copy", image, ctypes.create_string_buffer(1), 0)
        if number != NO_ROOM:
            raise Refused(number, answer[0])
        out = ctypes.create_string_buffer(answer[0])
        number, answer = self.ask("mdf3_copy", image, out, len(out))
        if number != OK:
            raise Refused(number, answer[0])
        return out.raw

    def physical(self, image, group, channel, record):
        number, answer = self.ask("mdf3_physical", image, group, channel, record)
        if number != OK:
            raise Refused(number, answer[0])
        return struct.unpack("<d", struct.pack("<Q", answer[1]))[0]


def post(library, image, group, channel):
    """How many records there are, and their values added up."""
    library.check(image)
    kept = library.copy(image)
    count, total = 0, 0.0
    while True:
        try:
            total += library.physical(kept, group, channel, count)
        except Refused as refused:
            if refused.args[0] == NO_SUCH and count > 0:
                return count, total
            # the same numbers lead to the same sample in the file, and tell its place there
            library.physical(image, group, channel, count)
            raise
        count += 1


def read_number(text):
    """A number in decimal digits alone, of 64 bits."""
    if not (text.isascii() and text.isdigit()) or int(text) >= 2**64:
        raise ValueError(text)
    return int(text)


def trouble(what):
    print(what, file=sys.stderr)
    sys.exit(2)


def tell(line):
    try:
        os.fstat(1)
        # names of files may be any bytes
        sys.stdout.buffer.write(os.fsencode(line + "\n"))
        sys.stdout.flush()
    except OSError:
        # nothing is left to be written at the end
        os.dup2(os.open(os.devnull, os.O_WRONLY), 1)
        trouble("standard output: cannot be written")


def main():
    try:
        path, name, group, channel = sys.argv[1:]
        group, channel = read_number(group), read_number(channel)
    except ValueError:
        trouble("usage: ledger.py LIBRARY FILE GROUP CHANNEL")
    try:
        with open(name, "rb") as file:
            image = file.read()
    except (OSError, MemoryError):
        trouble("%s: cannot be read" % name)
    try:
        count, total = post(Library(path), image, group, channel)
    except Refused as refused:
        tell("%s: refused, %d at %d" % ((name,) + refused.args))
        sys.exit(1)
    except (OSError, AttributeError):
        trouble("%s: cannot be loaded" % path)
    except MemoryError:
        trouble("%s: no memory for its copy" % name)
    if not math.isfinite(total):
        trouble("%s: the total is too large" % name)
    tell("%s: %d records, total %.2f" % (name, count, total))


if __name__ == "__main__":
    main()
