"""hours.py LIBRARY DECK NAME RESULT VALUE.. : runs a deck of lines once for each value of NAME and prints RESULT, the halt and the first
statement that lost digits, or 0. Five digits. The library is the archive of proved calls as a shared object:

    cc -shared -o libluvinqata.so -Wl,--whole-archive target/staticlib/libcalls.a -Wl,--no-whole-archive
    python3 examples/hours.py ./libluvinqata.so examples/gale-hours.txt KNOTS KUBE 46 47
"""

import struct
import sys
from ctypes import CDLL, POINTER, Structure, byref, c_char_p, c_int64, c_size_t, c_uint32, create_string_buffer

LONGEST_OBJECT, LONGEST_TABLE, CELLS, STACK = 68056, 2000, 4096, 40


class Ran(Structure):
    _fields_ = [(name, c_uint32) for name in ("number", "place", "kind", "halt", "steps", "sequence")] + [
        (name, c_size_t) for name in ("cards", "lines")
    ]


class Written(Structure):
    _fields_ = [(name, c_uint32) for name in ("number", "place", "kind", "length")]


class Program:
    """A compiled deck."""

    def __init__(self, library, k, deck):
        self.calls = CDLL(library)
        word = POINTER(c_uint32)
        self.calls.luvinqata_compile.restype = self.calls.luvinqata_map.restype = Written
        self.calls.luvinqata_compile.argtypes = [c_uint32, c_char_p, c_size_t, c_char_p, c_size_t]
        self.calls.luvinqata_map.argtypes = [c_char_p, c_size_t, c_char_p, c_size_t]
        self.calls.luvinqata_run.restype = Ran
        self.calls.luvinqata_run.argtypes = [
            c_char_p, c_size_t, POINTER(c_int64), c_size_t, word, word, word, POINTER(c_int64),
            c_char_p, c_size_t, c_char_p, c_size_t, c_uint32
        ]
        self.object = create_string_buffer(LONGEST_OBJECT)
        compiled = self.calls.luvinqata_compile(k, deck, len(deck), self.object, LONGEST_OBJECT)
        if compiled.number:
            raise SystemExit(f"refused {compiled.number} at {compiled.place}")
        self.length = compiled.length
        table = create_string_buffer(LONGEST_TABLE)
        names = self.calls.luvinqata_map(self.object, self.length, table, LONGEST_TABLE)
        entries = struct.iter_unpack("<8s3I", table.raw[: names.length])
        self.cells = {name.decode().rstrip(): first for name, first, _, _ in entries}

    def run(self, values, allowance=1_000_000):
        """How the run ended, and the store after it. The hours' decks read no card and print no line."""
        store, places = (c_int64 * CELLS)(), (c_int64 * STACK)()
        index, height, mark = c_uint32(), c_uint32(), c_uint32()
        for name, value in values.items():
            store[self.cells[name]] = value
        state = byref(index), byref(height), byref(mark), places
        cards, lines = (b"", 0), (create_string_buffer(1), 0)
        return self.calls.luvinqata_run(self.object, self.length, store, CELLS, *state, *cards, *lines, allowance), store


def main(library, deck, name, result, *values):
    with open(deck, encoding="ascii") as lines:
        cards = "".join(line.rstrip("\r\n").ljust(80) for line in lines)
    program = Program(library, 5, cards.encode())
    for value in values:
        ran, store = program.run({name: int(value)})
        if ran.number:
            print(value, "refused", ran.number)
        else:
            print(value, store[program.cells[result]], "halt", ran.halt, "lost", ran.sequence)


main(*sys.argv[1:])
