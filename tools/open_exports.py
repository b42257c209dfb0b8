#!/usr/bin/env python3
"""Opens what `gyroid export` writes by VTK's own readers, and holds it to slot 0 of the table.

It wants VTK for Python, on Debian the package python3-vtk9. The last command, admesh, is another reader of STL files;
it says how many edges and normals it had to mend, and there must be none. From the project's root, with `gyroid` on the
path:

    apt-get install python3-vtk9 admesh
    gyroid walk --part docs/core.part -o core.table
    gyroid export core.table -o core.vtk
    gyroid export core.table -o core.stl
    /usr/bin/python3 tools/open_exports.py core.table core.vtk core.stl
    admesh core.stl

All is compared exactly: coordinates are whole ticks, or in a surface half ticks, which 32-bit floats hold, and volumes
are added up as whole numbers. The exit status is 1 where something differs, with a sentence on standard error, and 2
where a file cannot be read.
"""
import struct
import sys
from pathlib import Path

from vtkmodules.vtkCommonCore import vtkIdList
from vtkmodules.vtkFiltersCore import vtkFeatureEdges, vtkMassProperties
from vtkmodules.vtkIOGeometry import vtkSTLReader
from vtkmodules.vtkIOLegacy import vtkUnstructuredGridReader

TICKS = 1024
HALF_TICKS = 2048
STATES = {1: "inside", 2: "outside", 3: "unsettled"}


def stop(status, sentence):
    print(f"open_exports: {sentence}", file=sys.stderr)
    sys.exit(status)


def agree(what, found, wanted):
    """Prints what was found, and ends the program where it is not what is wanted."""
    print(f"{what}: {found}")
    if found != wanted:
        stop(1, f"{what}: {found}, and not {wanted}")


def head(path):
    """The number of cells, the solid volume and the open one in tick cubes: slot 0, as docs/TABLE.md has it."""
    slot = Path(path).read_bytes()[:32]
    if len(slot) < 32:
        stop(2, f"{path} has no slot 0")
    return struct.unpack_from("<IQQ", slot[4:8] + slot[12:28])


def whole(number, scale):
    """A coordinate in millimetres times the scale, which must be a whole number."""
    scaled = number * scale
    if scaled != int(scaled):
        stop(1, f"the coordinate {number} mm is no multiple of 1/{scale} mm")
    return int(scaled)


def opened(reader, path):
    """What a reader of VTK makes of a file; VTK itself says little where there is none."""
    if not Path(path).is_file():
        stop(2, f"there is no file {path}")
    reader.SetFileName(path)
    reader.Update()
    return reader.GetOutput()


def scalars(grid, path, name):
    """The numbers of this name that the grid has for its cells."""
    found = grid.GetCellData().GetArray(name)
    if found is None:
        stop(1, f"{path} has no {name} of its cells")
    return found


def volumes(grid, state):
    """The volume of the grid's boxes for each state, in tick cubes."""
    sums, bounds = dict.fromkeys(STATES, 0), [0.0] * 6
    for cell in range(grid.GetNumberOfCells()):
        grid.GetCellBounds(cell, bounds)
        x0, x1, y0, y1, z0, z1 = (whole(end, TICKS) for end in bounds)
        sums[int(state.GetValue(cell))] += (x1 - x0) * (y1 - y0) * (z1 - z0)
    return sums


def check_cells(path, cells, solid, rest):
    """The cells as a grid: their number, their marks' volumes."""
    reader = vtkUnstructuredGridReader()
    reader.ReadAllScalarsOn()
    grid = opened(reader, path)
    agree(f"{path}, cells", grid.GetNumberOfCells(), cells)
    print(f"{path}, points: {grid.GetNumberOfPoints()}")
    least, most = scalars(grid, path, "depth").GetRange()
    print(f"{path}, depths: {least:.0f} to {most:.0f}")
    sums = volumes(grid, scalars(grid, path, "state"))
    for number, name in STATES.items():
        print(f"{path}, {name}: {sums[number] / TICKS**3:.3f} mm³")
    agree(f"{path}, tick cubes inside", sums[1], solid)
    agree(f"{path}, tick cubes of the rest", sums[2] + sums[3], rest)


def six_volumes(surface):
    """Six times the volume that the triangles enclose, in half-tick cubes."""
    points = [[whole(n, HALF_TICKS) for n in surface.GetPoint(i)] for i in range(surface.GetNumberOfPoints())]
    total, corners = 0, vtkIdList()
    for triangle in range(surface.GetNumberOfCells()):
        surface.GetCellPoints(triangle, corners)
        (a, b, c), (d, e, f), (g, h, i) = (points[corners.GetId(n)] for n in range(3))
        total += a * (e * i - f * h) + b * (f * g - d * i) + c * (d * h - e * g)
    return total


def edges(surface, kind):
    """The number of edges of a kind: Boundary, of one triangle alone; NonManifold, of more than two."""
    found = vtkFeatureEdges()
    found.SetInputData(surface)
    found.BoundaryEdgesOff()
    found.FeatureEdgesOff()
    found.ManifoldEdgesOff()
    found.NonManifoldEdgesOff()
    getattr(found, f"{kind}EdgesOn")()
    found.Update()
    return found.GetOutput().GetNumberOfCells()


def check_surface(path, solid):
    """The surface of the inside cells: it is closed, and encloses the solid volume."""
    # The reader makes one point of those with equal coordinates.
    surface = opened(vtkSTLReader(), path)
    print(f"{path}, triangles: {surface.GetNumberOfCells()}, points: {surface.GetNumberOfPoints()}")
    agree(f"{path}, edges of one triangle alone", edges(surface, "Boundary"), 0)
    print(f"{path}, edges of more than two triangles: {edges(surface, 'NonManifold')}")
    agree(f"{path}, 48 times the tick cubes inside", six_volumes(surface), 48 * solid)
    mass = vtkMassProperties()
    mass.SetInputData(surface)
    print(f"{path}, volume by vtkMassProperties: {mass.GetVolume():.3f} mm³, by slot 0: {solid / TICKS**3:.3f} mm³")


def main(words):
    if len(words) != 3:
        stop(2, "it takes three files: the table, its .vtk and its .stl")
    table, grid, surface = words
    try:
        cells, solid, rest = head(table)
    except OSError as error:
        stop(2, f"cannot read {table}: {error.strerror}")
    check_cells(grid, cells, solid, rest)
    check_surface(surface, solid)


if __name__ == "__main__":
    main(sys.argv[1:])
