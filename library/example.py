#!/usr/bin/env python3
"""Runs a command by the library: as `ipswitch WORDS`, it reads standard input, writes standard output, and ends with the
command's status.

    library/build && python3 library/example.py replay < examples/two-routers.script
"""
import ctypes
import pathlib
import sys

NO_ROOM = 4
SHARED = pathlib.Path(__file__).parent / "out/libipswitch.so"


class Library:
    """The call of ipswitch.h. It keeps to what the header asks of a caller."""

    def __init__(self, path=SHARED):
        self.call = ctypes.CDLL(str(path)).ipswitch_call
        octets, size = ctypes.c_char_p, ctypes.c_size_t
        self.call.argtypes = [octets, size, octets, size, ctypes.POINTER(ctypes.c_uint8), size, ctypes.POINTER(size)]
        self.call.restype = ctypes.c_uint8

    def run(self, words, octets, room=65536):
        """The status of a command, and its output."""
        count = ctypes.c_size_t()
        output = (ctypes.c_uint8 * max(room, 1))()
        status = self.call(words, len(words), octets, len(octets), output, room, ctypes.byref(count))
        if status == NO_ROOM:
            return self.run(words, octets, count.value)
        return status, bytes(output[: count.value])


def main(words):
    status, output = Library().run(" ".join(words).encode(), sys.stdin.buffer.read())
    sys.stdout.buffer.write(output)
    sys.stdout.buffer.flush()
    return status


if __name__ == "__main__":
    sys.exit(main(sys.argv[1:]))
