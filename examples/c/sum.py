#!/usr/bin/env python3
"""Fires a program through the shared library: sum.py build/libdfc.so."""
import ctypes
import sys

LIBRARY = ctypes.CDLL(sys.argv[1])
LIBRARY.dfc_call.restype = ctypes.c_uint8


def dfc(words, text, room=1 << 16):
    """The exit status of dfc with these words and this text, and the bytes that it writes."""
    out, written = ctypes.create_string_buffer(room), ctypes.c_uint64()
    sizes = [ctypes.c_size_t(len(it)) for it in (words, text)]
    status = LIBRARY.dfc_call(words, sizes[0], text, sizes[1], out, ctypes.c_size_t(room), ctypes.byref(written))
    return (status, out.raw[: written.value]) if written.value <= room else dfc(words, text, written.value)


print(dfc(b"fire data=3,4", b"      READ *,I,J\n      PRINT *,I+J\n      END\n"))
print(dfc(b"regions", b"      I=\n      END\n"))
