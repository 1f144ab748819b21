"""Reads node files, of format 1 and 2, as docs/FORMATS.md describes them.

    nodes = svo_nodes.NodeFile("house.svo")
    nodes.depth, nodes.origin, nodes.side       the grid
    for code, face in nodes.cells(): ..         the filled cells, by ascending code
    nodes.face_of(code)                         the face that a filled cell keeps, or None
    nodes.center(code)                          the middle of a cell, in the units of the grid
    nodes.children(level, code)                 the codes of the filled nodes below a node, on the next level
    nodes.cell_array()                          all cells as an array of NumPy: a row code, x, y, z, face for each
    svo_nodes.place_of(code)                    x, y, z of a cell, counted in cells from the origin

The frame of a file is checked when it is opened. Its words are only followed as far as they are asked for,
and NodeFault comes where one of those leads nowhere; `svo check` checks a file whole. NumPy is needed for
cell_array alone. As a program, `python3 svo_nodes.py [--faces] FILE` lists the cells as `svo cells` does: code, x,
y, z, and with --faces the face.
"""

import mmap
import struct
import sys

HEADER, TRAILER = 48, 32
NAMES = {b"SVOCUBE1": (1, b"SVOCEND1"), b"SVOCUBE2": (2, b"SVOCEND2")}


class NodeFault(Exception):
    """The file is no node file, or a word leads nowhere."""


class NodeFile:
    def __init__(self, path):
        with open(path, "rb") as file:
            size = file.seek(0, 2)
            if size < HEADER + 8 + TRAILER or size % 8:
                raise NodeFault(f"{path}: not a node file")
            self._bytes = mmap.mmap(file.fileno(), 0, access=mmap.ACCESS_READ)
        name, self.depth, zero, *origin, self.side = struct.unpack_from("<8sII4q", self._bytes)
        after, self.records, self.filled, end = struct.unpack_from("<QQQ8s", self._bytes, size - TRAILER)
        self.format, its_end = NAMES.get(name, (0, b""))
        self.origin = tuple(origin)
        is_framed = self.format and end == its_end and zero == after == 0
        if not (is_framed and self.records == (size - HEADER - TRAILER) // 8 and self._is_grid()):
            raise NodeFault(f"{path}: not a node file")

    def _is_grid(self):
        near = all(abs(it) <= 2**30 for it in self.origin)
        return 1 <= self.depth <= 12 and near and self.side >= 1 and self.side << self.depth <= 2**32

    def word(self, number):
        """The mask and the base of a record."""
        word = struct.unpack_from("<Q", self._bytes, HEADER + 8 * number)[0]
        return word & 255, word >> 8

    def _children(self, number):
        """The filled children of a node, each with its number; these are below its own in a node file."""
        mask, base = self.word(number)
        places = [i for i in range(8) if mask >> i & 1]
        if base + len(places) > number:
            raise NodeFault(f"record {number} leads nowhere")
        return [(place, base + at) for at, place in enumerate(places)]

    def cells(self):
        """The filled cells by ascending code, each with the face that it keeps (0 in format 1)."""
        waiting = [(0, 0, self.records - 1)] if self.word(self.records - 1)[0] else []
        while waiting:
            level, code, number = waiting.pop()
            if level == self.depth:
                yield code, self.word(number)[1]
            elif level == self.depth - 1 and self.format == 1:
                mask = self.word(number)[0]
                yield from ((8 * code + i, 0) for i in range(8) if mask >> i & 1)
            else:
                waiting += [(level + 1, 8 * code + i, at) for i, at in reversed(self._children(number))]

    def face_of(self, code):
        """The face that a filled cell keeps (0 in format 1), or None where the cell is not filled."""
        if not 0 <= code < 8**self.depth:
            return None
        number = self._find(self.depth - (self.format == 1), code >> 3 * (self.format == 1))
        if number is None:
            return None
        mask, base = self.word(number)
        return base if self.format == 2 else 0 if mask >> (code & 7) & 1 else None

    def _find(self, level, code):
        """The number of the node of a level with this code, or None where it is not filled."""
        number = self.records - 1
        for up in reversed(range(level)):
            place = code >> 3 * up & 7
            if not self.word(number)[0] >> place & 1:
                return None
            number = dict(self._children(number))[place]
        return number

    def children(self, level, code):
        """The codes, on the next level, of the filled nodes below the node of a level (0 to depth - 1) with this code."""
        if not (0 <= level < self.depth and 0 <= code < 8**level):
            raise ValueError(f"there is no node {code} above the cells on level {level}")
        number = self._find(level, code)
        mask = 0 if number is None else self.word(number)[0]
        return [8 * code + i for i in range(8) if mask >> i & 1]

    def center(self, code):
        """The middle of the cell with this code, in the units of the grid; halves are exact."""
        return tuple(low + self.side * (place + 0.5) for low, place in zip(self.origin, place_of(code)))

    def cell_array(self):
        """The filled cells by ascending code, a row code, x, y, z, face for each (face 0 in format 1)."""
        import numpy

        words = numpy.frombuffer(self._bytes, "<u8", self.records, HEADER)
        codes, numbers = numpy.zeros(1, "<u8"), numpy.full(1, self.records - 1, "<u8")
        for level in range(self.depth):
            mask, base = words[numbers.astype("i8")] & numpy.uint64(255), words[numbers.astype("i8")] >> numpy.uint64(8)
            bits = (mask[:, None] >> numpy.arange(8, dtype="<u8")) & numpy.uint64(1)
            codes = (codes[:, None] * numpy.uint64(8) + numpy.arange(8, dtype="<u8"))[bits == 1]
            below = base[:, None] + numpy.cumsum(bits, axis=1, dtype="<u8") - numpy.uint64(1)
            if self.format == 1 and level == self.depth - 1:
                numbers = None
                break
            if len(codes) >= self.records or numpy.any((below >= numbers[:, None]) & (bits == 1)):
                raise NodeFault("a record leads nowhere")
            numbers = below[bits == 1]
        faces = numpy.zeros(len(codes), "<u8") if numbers is None else words[numbers.astype("i8")] >> numpy.uint64(8)
        places = [sum(((codes >> numpy.uint64(3 * i + axis)) & numpy.uint64(1)) << numpy.uint64(i) for i in range(12)) for axis in range(3)]
        return numpy.stack([codes, *places, faces], axis=1).astype("i8")


def place_of(code):
    """x, y, z of the cell with this Morton code."""
    return tuple(sum((code >> 3 * i + axis & 1) << i for i in range(12)) for axis in range(3))


if __name__ == "__main__":
    if len(sys.argv) not in (2, 3) or sys.argv[1:-1] not in ([], ["--faces"]):
        sys.exit("usage: svo_nodes.py [--faces] FILE")
    for code, face in NodeFile(sys.argv[-1]).cells():
        print(code, *place_of(code), *([face] if len(sys.argv) == 3 else []))
