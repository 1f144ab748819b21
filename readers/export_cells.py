"""Writes the cells of a node file for other tools, on standard output:

    python3 export_cells.py ply [--decimals n] FILE > cells.ply      the middles of the cells, with their faces
    python3 export_cells.py nrrd [--decimals n] FILE > cells.nrrd    an image of the filled box: 1 filled, 0 not
    python3 export_cells.py vtk [--decimals n] FILE > cells.vtk      the same for ParaView (legacy VTK, binary)

Places are in the units of the mesh that was built with so many decimals. NumPy makes it quicker where it is there.
"""

import sys

import svo_nodes

# The most samples that an image may have.
MOST = 2**31


def rows(nodes):
    """The filled cells as x, y, z, face."""
    try:
        return nodes.cell_array()[:, 1:].tolist()
    except ImportError:
        return [[*svo_nodes.place_of(code), face] for code, face in nodes.cells()]


def told(number, decimals):
    return f"{number / 10**decimals:.{decimals + 1}f}"


def write_ply(nodes, cells, decimals, out):
    """A point for each cell, in its middle."""
    head = f"ply\nformat ascii 1.0\nelement vertex {len(cells)}\n"
    out.write((head + "".join(f"property double {it}\n" for it in "xyz") + "property uint face\nend_header\n").encode())
    for *place, face in cells:
        middle = [told(low + nodes.side * (it + 0.5), decimals) for low, it in zip(nodes.origin, place)]
        out.write(f"{' '.join(middle)} {face}\n".encode())


class Image:
    """A sample for each cell of the filled box, x first; its corner and its step in units of the mesh."""

    def __init__(self, nodes, cells, decimals):
        low = [min(it[k] for it in cells) for k in range(3)]
        self.size = [max(it[k] for it in cells) - low[k] + 1 for k in range(3)]
        if self.size[0] * self.size[1] * self.size[2] > MOST:
            sys.exit(f"export_cells: an image of {self.size} samples is too large; build with a smaller depth")
        self.samples = bytearray(self.size[0] * self.size[1] * self.size[2])
        for x, y, z, _ in cells:
            self.samples[((z - low[2]) * self.size[1] + y - low[1]) * self.size[0] + x - low[0]] = 1
        self.step = told(nodes.side, decimals)
        self.middle = [told(nodes.origin[k] + nodes.side * (low[k] + 0.5), decimals) for k in range(3)]


def write_nrrd(nodes, cells, decimals, out):
    image = Image(nodes, cells, decimals)
    directions = f"({image.step},0,0) (0,{image.step},0) (0,0,{image.step})"
    head = f"NRRD0004\ntype: uint8\ndimension: 3\nspace dimension: 3\nsizes: {' '.join(map(str, image.size))}\nspace directions: {directions}\n"
    out.write((head + f"space origin: ({','.join(image.middle)})\nkinds: domain domain domain\nencoding: raw\n\n").encode())
    out.write(image.samples)


def write_vtk(nodes, cells, decimals, out):
    image = Image(nodes, cells, decimals)
    head = "# vtk DataFile Version 3.0\nfilled cells\nBINARY\nDATASET STRUCTURED_POINTS\n"
    head += f"DIMENSIONS {' '.join(map(str, image.size))}\nORIGIN {' '.join(image.middle)}\nSPACING {image.step} {image.step} {image.step}\n"
    out.write((head + f"POINT_DATA {len(image.samples)}\nSCALARS filled unsigned_char 1\nLOOKUP_TABLE default\n").encode())
    out.write(image.samples)


WRITERS = {"ply": write_ply, "nrrd": write_nrrd, "vtk": write_vtk}


def main():
    words = sys.argv[1:]
    decimals = int(words[2]) if len(words) == 4 and words[1] == "--decimals" and words[2].isdigit() else 0
    if len(words) not in (2, 4) or words[0] not in WRITERS or (len(words) == 4 and words[1] != "--decimals"):
        sys.exit(__doc__)
    nodes = svo_nodes.NodeFile(words[-1])
    cells = rows(nodes)
    if not cells and words[0] != "ply":
        sys.exit("export_cells: no cell is filled")
    WRITERS[words[0]](nodes, cells, decimals, sys.stdout.buffer)


if __name__ == "__main__":
    main()
