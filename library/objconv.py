#!/usr/bin/env python3
"""Calls of the library from Python, by ctypes: convert(object, words) and listing(object).

    objconv.py LIBRARY OBJECT WORD ..

LIBRARY is the shared object. Prints how many bytes the conversion of OBJECT has, and its symbols.
"""
import ctypes
import sys

ROOM, DONE, TEXT = 11, 0, 128


class Refused(Exception):
    """A status, and its text."""


class Library:
    """The shared object; one may be used by several threads."""

    def __init__(self, path):
        self.calls = ctypes.CDLL(path)
        room = [ctypes.c_char_p, ctypes.c_size_t, ctypes.POINTER(ctypes.c_size_t)]
        self.calls.objconv_convert.argtypes = [ctypes.c_char_p, ctypes.c_size_t] * 2 + room * 2
        self.calls.objconv_list.argtypes = [ctypes.c_char_p, ctypes.c_size_t] + room * 2

    def convert(self, bytes_, words):
        """The object of these bytes, converted as the words ask, as `-fcoff32`."""
        block = b"".join(word.encode() + b"\0" for word in words)
        return self._call(self.calls.objconv_convert, bytes_, len(bytes_), block, len(block))

    def listing(self, bytes_):
        """The lines of its symbols."""
        return self._call(self.calls.objconv_list, bytes_, len(bytes_)).decode()

    def _call(self, call, *input_):
        size, text_size = ctypes.c_size_t(2 * input_[1]), ctypes.c_size_t()
        text = ctypes.create_string_buffer(TEXT)
        status = ROOM
        while status == ROOM:
            output = ctypes.create_string_buffer(size.value + 1)
            status = call(*input_, output, size.value, size, text, TEXT, text_size)
        if status != DONE:
            raise Refused(status, text.raw[: text_size.value].decode())
        return output.raw[: size.value]


def main():
    library = Library(sys.argv[1])
    with open(sys.argv[2], "rb") as it:
        bytes_ = it.read()
    try:
        output = library.convert(bytes_, sys.argv[3:])
    except Refused as refused:
        print(*refused.args)
        return refused.args[0]
    print(f"{len(output)} bytes")
    print(library.listing(output), end="")
    return 0


if __name__ == "__main__":
    sys.exit(main())
