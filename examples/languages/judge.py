#!/usr/bin/env python3
"""Judges a delivery by a rule text: judge.py LIBRARY MODEL DELIVERY RULES, where LIBRARY is libocl_check.so.

Its output and status are those of `ocl_check judge --text`."""
import ctypes
import pathlib
import sys

MAX_BUDGET = 2**63 - 1


def judge(library, model, delivery, rules):
    """The report on a delivery, or the line of a refusal, with its status; all are bytes."""
    library.ocl_check_judge.restype = ctypes.c_uint8
    room, wants = 4096, ctypes.c_size_t()
    while True:
        out = ctypes.create_string_buffer(room)
        words = [word for it in (model, delivery, rules) for word in (ctypes.c_char_p(it), ctypes.c_size_t(len(it)))]
        status = library.ocl_check_judge(
            *words, ctypes.c_bool(True), ctypes.c_uint64(MAX_BUDGET), out, ctypes.c_size_t(room), ctypes.byref(wants))
        if wants.value <= room:
            return out.raw[:wants.value], status
        room = wants.value


if __name__ == "__main__":
    if len(sys.argv) != 5:
        sys.exit(__doc__)
    report, status = judge(ctypes.CDLL(sys.argv[1]), *(pathlib.Path(it).read_bytes() for it in sys.argv[2:]))
    sys.stdout.buffer.write(report)
    sys.stdout.flush()
    sys.exit(status)
