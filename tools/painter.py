#!/usr/bin/env python3
"""Tests the painter's order of mesh.py, NOT PROVED: python3 tools/painter.py MESH ..

At points spread over the picture, seen from several sides, the piece that is painted last has to be the nearest of
the triangles there, found by their heights alone.
"""
import sys

sys.dont_write_bytecode = True
import files
import mesh

VIEWS = [(30, 30), (200, 40), (115, 15)]
SPREAD = 18  # points along each side of the picture


def height(piece, x, y):
    """Where the line of sight meets the piece, or none where it passes it by."""
    points = piece.points
    for a, b in zip(points, points[1:] + points[:1]):
        if (b[0] - a[0]) * (y - a[1]) - (b[1] - a[1]) * (x - a[0]) > 0:
            continue
        return None
    normal, offset = piece.plane
    return (offset - normal[0] * x - normal[1] * y) / normal[2]


def turned_left(piece):
    """The piece with its outline seen against the clock."""
    a, b, c = piece.points[:3]
    if mesh.cross(mesh.less(b, a), mesh.less(c, a))[2] > 0:
        return piece
    return piece.part(piece.points[::-1], piece.edges)


def spread(pieces):
    xs = [p[0] for piece in pieces for p in piece.points]
    ys = [p[1] for piece in pieces for p in piece.points]
    for i in range(SPREAD):
        for j in range(SPREAD):
            # Off the even places, where edges of a drawing like to lie.
            u, v = (i + 0.5137) / SPREAD, (j + 0.4871) / SPREAD
            yield min(xs) + u * (max(xs) - min(xs)), min(ys) + v * (max(ys) - min(ys))


def wrong_places(meshes, view):
    pieces = [turned_left(p) for p in mesh.pieces(meshes, mesh.axes(*view)) if p.plane]
    if not pieces:
        return 0, 0
    near = 1e-3 / mesh.Frame(pieces).scale
    order = [turned_left(p) for p in mesh.painted(pieces, near)]
    looked, wrong = 0, 0
    for x, y in spread(pieces):
        nearest = [h for h in (height(p, x, y) for p in pieces) if h is not None]
        painted = [h for h in (height(p, x, y) for p in order) if h is not None]
        looked += bool(nearest)
        wrong += bool(nearest) and (not painted or abs(max(nearest) - painted[-1]) > 4 * near)
    return looked, wrong


def main(files):
    meshes = mesh.read_all(files)
    found = [wrong_places(meshes, view) for view in VIEWS]
    for view, (looked, wrong) in zip(VIEWS, found):
        if wrong or not looked:
            print(f'turn {view[0]}, tilt {view[1]}: {wrong} of {looked} points wrong')
    return int(any(wrong or not looked for looked, wrong in found))


if __name__ == '__main__':
    sys.exit(files.status('painter.py', lambda: main(sys.argv[1:])))
