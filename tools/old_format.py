"""Node files of format 1, which the program reads and does not write."""

import struct


def format_1(nodes):
    """The bytes of the file of format 1 with the grid and the cells of a file."""
    codes = [code for code, _ in nodes.cells()]
    words = []

    def put(level, codes):
        """Puts the words below a node, and gives the node's own."""
        up = 3 * (nodes.depth - 1 - level)
        kids = [[it for it in codes if it >> up & 7 == i] for i in range(8)]
        mask = sum(1 << i for i in range(8) if kids[i])
        if level == nodes.depth - 1:
            return mask
        own = [put(level + 1, it) for it in kids if it]
        base = len(words)
        words.extend(own)
        return mask + 256 * base

    words.append(put(0, codes) if codes else 0)
    head = struct.pack("<8sII4q", b"SVOCUBE1", nodes.depth, 0, *nodes.origin, nodes.side)
    return head + struct.pack(f"<{len(words)}Q", *words) + struct.pack("<QQQ8s", 0, len(words), len(codes), b"SVOCEND1")
