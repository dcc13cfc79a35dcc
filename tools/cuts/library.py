"""The static library as a shared one, called as a C program calls it."""

import ctypes
import pathlib
import subprocess

from finder import Refused
from log import START, Record

# The layout that is known here, and answers of a call that are no question.
LAYOUT = 3
DONE, NONE = 0, 0xFE

# How a time is told.
NO_TIME, SECOND = 0, 1


class Library:
    """The functions of the log."""

    def __init__(self, archive, work):
        shared = pathlib.Path(work, "liblefkanu.so")
        subprocess.run(
            ["cc", "-shared", "-o", shared, "-Wl,--whole-archive", archive, "-Wl,--no-whole-archive"], check=True
        )
        library = ctypes.CDLL(str(shared))
        octet, number, memory = ctypes.c_uint8, ctypes.c_size_t, ctypes.c_void_p
        self.layout = library.lefkanu_layout_version
        self.layout.restype = ctypes.c_uint32
        self.append_record = library.lefkanu_append
        self.append_record.restype = octet
        kind_and_time = octet, octet, ctypes.c_uint32
        self.append_record.argtypes = memory, number, number, *kind_and_time, ctypes.c_char_p, number, memory
        self.read_record = library.lefkanu_read_record
        self.read_record.restype = octet
        self.read_record.argtypes = memory, number, number, memory

    def append(self, memory, used, kind, time, payload):
        """The new used count, or the question that refuses."""
        new_used = ctypes.c_size_t()
        timed, second = (NO_TIME, 0) if time is None else (SECOND, time)
        answer = self.append_record(
            memory, len(memory), used, kind, timed, second, payload, len(payload), ctypes.byref(new_used)
        )
        return new_used.value if answer == DONE else Refused(answer)

    def read(self, memory, place, end):
        """The record that ends there, "start reached", or the question. The log begins at a place of the memory."""
        numbers = (ctypes.c_size_t * 5)()
        answer = self.read_record(ctypes.byref(memory, place), len(memory) - place, end, numbers)
        if answer != DONE:
            return START if answer == NONE else Refused(answer)
        kind, start, length, timed, second = numbers
        octets = bytes(memory[place + start : place + start + length])
        return Record(kind, second if timed == SECOND else None, start, octets)

    def read_back(self, memory, place, end):
        """The answers back from an end, until one is no record."""
        answers = [self.read(memory, place, end)]
        while isinstance(answers[-1], Record):
            answers.append(self.read(memory, place, answers[-1].start))
        return answers


def lent(octets):
    """Memory of its own with these octets, and no more."""
    return (ctypes.c_uint8 * len(octets)).from_buffer_copy(octets)
