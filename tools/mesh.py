#!/usr/bin/env python3
"""Turns what sitemesh prints (docs/FORMAT.md 14) into Wavefront OBJ or into a picture, or says whether it is closed:

    target/bin/sitemesh < duct.block | python3 tools/mesh.py obj > duct.obj
    python3 tools/mesh.py svg ground.mesh hospital.mesh duct.mesh --turn 60 --tilt 20 > site.svg
    python3 tools/mesh.py svg examples/site.scene > site.svg
    python3 tools/mesh.py closed examples/gap.mesh
    python3 tools/mesh.py svg --open examples/gap.mesh > gap.svg
    python3 tools/mesh.py svg --smooth examples/pole.mesh > pole.svg

NOT PROVED: this tool is plain Python for people. Nothing of the converter depends on it.

It writes to standard output. Several meshes make one object file or one picture. The picture is seen along parallel
lines, from --turn degrees round the Y axis and --tilt degrees above the ground; of a solid mesh only triangles that
face the eye are drawn. A triangle has one shade, by the mean of its corners' normals; with --smooth it is drawn as
facets without edges, whose shades go from corner to corner, as a terminal shades it. An OBJ file has an object for
each mesh, named after its file, with colours as three numbers more at each point, and without alpha. The points of a
PointSet ('p' lines, which hosts/part.c prints) are dots, and points of the OBJ file.

A scene is a text whose first line is 'scene'; after it each line names a mesh and, if need be, turns, moves and colours it:

    scene
    hospital.mesh
    drum.mesh    rotation 0 0 1 90deg   translation 8.9 31 43   color 0.9 0.9 0.9

Names are from the scene's own folder, and have no spaces, commas or '#'. As in VRML97's Transform, the rotation is an
axis and an angle, in radians or with 'deg', and comes before the translation. The colour is for a mesh that has none.

A mesh is closed if, for any two points, as many edges of its triangles go from the first to the second as back. Points
are told apart by their numbers (the sources), not by where they lie: other colours, normals or texture on the two sides
of an edge never open it, and a position that is not finite does not either; two points at one place do, as at the seam
of an extrusion whose cross-section closes, and so does a face that is listed the wrong way round. 'closed' says it of
each mesh by itself, and names each edge that is open, by its two points and how often each way:

    examples/gap.mesh: open at 4 of 47 edges
    edge 3 4: 0 there, 1 back

The status is 0 where every mesh is closed, and 3 where one is open or has no triangles. In a picture, --open draws the
open edges as red lines over everything, each with its line as title. Only what comes from a block can be asked: parts
have no sources, and their vertices are not joined (docs/FORMAT.md 17.4), so all of them are open. A last line says so of a
mesh that may be a part's, and of an open one whether it is closed where points at one place are taken for one. That
a mesh encloses anything is not said: a wall listed from both sides is closed.

A vertex with a position that is not finite is left out, and so is each triangle or line that uses it; the rest is
drawn, in a picture and in an OBJ file alike (where the vertices are numbered anew). A normal, colour or texture point
that is not finite counts as missing (FORMAT 7.2); for such a colour white is taken, which sitemesh passes. Standard
error says how many of each there were; the status is 0.

Errors, each a line on standard error, status 1, nothing written: a file that cannot be read (it is named), something
that is not a mesh or a scene, a refusal ('no N') or 'long' in place of a mesh, and, to be drawn, meshes of which no
vertex is finite. A call that is not understood, or --open or --smooth without svg, has the status 2.
"""
import math
import os
import struct
import sys

sys.dont_write_bytecode = True
import closure
import files
import scene
from files import Fault, shown

REFUSALS = ['stub', 'edition', 'zero bits', 'list limit', 'length', 'no shape', 'corners',
            'buffer: it needs more than was lent (sitemesh: docs/FORMAT.md 14)', 'attributes', 'pairs']
OPEN = 3  # the status where a mesh is not closed
MISSING = {'n': [0.0] * 3, 'c': [1.0] * 4, 'u': [0.0] * 2}


# ---- reading

class Mesh:
    """A mesh: vertices as lists of floats, triangles, lines or dots as lists of vertex numbers."""

    def __init__(self):
        self.name = ''
        self.solid = self.unlit = False
        self.sources, self.points, self.parts, self.shapes = [], [], {'n': [], 'c': [], 'u': []}, []
        self.colour = None  # that of a scene, for a mesh without colours
        self.lacking = 0  # normals, colours and texture points that are not finite
        self.whole = self  # the mesh of which it is the finite part


def floats(words, count):
    """So many words of eight hexadecimal digits, as floats."""
    if len(words) != count or any(len(word) != 8 for word in words):
        raise ValueError
    return [struct.unpack('>f', bytes.fromhex(word))[0] for word in words]


def whole(word):
    """A whole number of at most nine digits."""
    if not (word.isascii() and word.isdigit() and len(word) < 10):
        raise ValueError
    return int(word)


def is_finite(values):
    return all(map(math.isfinite, values))


def read_vertex(mesh, words):
    mesh.sources.append(whole(words[1]))
    mesh.points.append(floats(words[2:5], 3))
    rest = words[5:]
    while rest:
        missing = MISSING[rest[0]]
        values = floats(rest[1:1 + len(missing)], len(missing))
        mesh.parts[rest[0]].append(values if is_finite(values) else missing)
        mesh.lacking += not is_finite(values)
        rest = rest[1 + len(missing):]


def read_shape(mesh, words):
    """A triangle, a line or a dot."""
    numbers = [whole(word) for word in words[1:]]
    if len(numbers) != {'t': 3, 'l': 2, 'p': 1}[words[0]] or not all(n < len(mesh.points) for n in numbers):
        raise ValueError
    mesh.shapes.append(numbers)


def read_head(mesh, words):
    numbers = {str(k): name for k, name in enumerate(REFUSALS, 1)}
    if words[0] == 'no' and len(words) == 2 and words[1] in numbers:
        what = {'7': 'block or part', '8': 'block or part', '10': 'part'}.get(words[1], 'block')
        raise Fault(f'no mesh: the {what} was refused, number {words[1]}, {numbers[words[1]]}')
    if words == ['long']:
        raise Fault('no mesh: the block was longer than sitemesh reads')
    if words[0] != 'mesh' or len(words) != 6:
        raise Fault('this is not what sitemesh prints')
    mesh.solid, mesh.unlit = words[3] == '1', words[4] == '1'
    return whole(words[1]), whole(words[2])


def check_counts(mesh, vertices, indices):
    lengths = [len(part) for part in mesh.parts.values()]
    is_whole = all(length in (0, vertices) for length in lengths)
    found = sum(len(shape) for shape in mesh.shapes if len(shape) > 1)  # a dot is no index
    if len(mesh.points) != vertices or found != indices or not is_whole:
        raise Fault('the mesh does not have the vertices and indices that its first line says')


def read(lines):
    """The mesh of what sitemesh printed."""
    mesh = Mesh()
    lines = [line.split() for line in lines] or [[]]
    try:
        vertices, indices = read_head(mesh, lines[0] or [''])
    except ValueError:
        raise Fault('line 1: counts are wanted') from None
    for at, words in enumerate(lines[1:], 2):
        try:
            {'v': read_vertex, **dict.fromkeys('lp' if mesh.unlit else 't', read_shape)}[words[0]](mesh, words)
        except (ValueError, KeyError, IndexError):
            raise Fault(f'line {at}: not a line of a mesh') from None
    check_counts(mesh, vertices, indices)
    return mesh


# ---- what cannot be drawn

def finite_part(mesh):
    """The mesh without the vertices that are not finite, and without the triangles or lines that use them."""
    kept = [v for v, point in enumerate(mesh.points) if is_finite(point)]
    places = {v: place for place, v in enumerate(kept)}
    part = Mesh()
    part.name, part.solid, part.unlit, part.colour = mesh.name, mesh.solid, mesh.unlit, mesh.colour
    part.whole = mesh
    part.sources, part.points = [mesh.sources[v] for v in kept], [mesh.points[v] for v in kept]
    part.parts = {mark: [values[v] for v in kept] if values else [] for mark, values in mesh.parts.items()}
    part.shapes = [[places[v] for v in shape] for shape in mesh.shapes if all(v in places for v in shape)]
    return part


def is_dots(mesh):
    return any(len(shape) == 1 for shape in mesh.shapes)


def left_out(mesh, part):
    """What is said of the part, line by line."""
    vertices, shapes = len(mesh.points) - len(part.points), len(mesh.shapes) - len(part.shapes)
    kind = 'points' if is_dots(mesh) else 'lines' if mesh.unlit else 'triangles'
    if vertices:
        yield (f'left out {vertices} of {len(mesh.points)} vertices, which are not finite, '
               f'and with them {shapes} of {len(mesh.shapes)} {kind}')
    if mesh.lacking:
        yield f'{mesh.lacking} normals, colours or texture points are not finite and count as missing'


# ---- Wavefront OBJ

def numbers(values):
    return ' '.join(f'{value:.9g}' for value in values)


def obj_vertices(mesh):
    colours = mesh.parts['c'] or [mesh.colour or []] * len(mesh.points)
    for point, colour in zip(mesh.points, colours):
        yield f'v {numbers(point + colour[:3])}'
    for s, t in mesh.parts['u']:
        yield f'vt {numbers([s, 1 - t])}'  # OBJ counts t from below, the mesh from above
    for normal in mesh.parts['n']:
        yield f'vn {numbers(normal)}'


def obj_corner(mesh, vertex, first):
    """Number of point, texture point and normal; `first` has how many of each stand before."""
    point = str(first['v'] + vertex + 1)
    texture = str(first['u'] + vertex + 1) if mesh.parts['u'] else ''
    normal = str(first['n'] + vertex + 1) if mesh.parts['n'] else ''
    if mesh.unlit or not (texture or normal):
        return point
    return f'{point}/{texture}/{normal}' if normal else f'{point}/{texture}'


def obj(meshes):
    first = {'v': 0, 'u': 0, 'n': 0}
    for mesh in meshes:
        yield f"o {'_'.join(mesh.name.split())}"
        yield from obj_vertices(mesh)
        for shape in mesh.shapes:
            yield ' plf'[len(shape)] + ' ' + ' '.join(obj_corner(mesh, v, first) for v in shape)
        first['v'] += len(mesh.points)
        first['u'] += len(mesh.parts['u'])
        first['n'] += len(mesh.parts['n'])


# ---- the picture: pieces in view coordinates, x to the right, y up, z towards the eye

WIDTH, MARGIN = 960, 24
LIGHT = (-0.50, 0.62, 0.60)
PAPER = '#f3f5f7'
PLAIN = [(0.83, 0.62, 0.36), (0.62, 0.68, 0.74), (0.56, 0.70, 0.58), (0.72, 0.60, 0.72)]
INK = (0.20, 0.24, 0.30)
RED = (0.90, 0.0, 0.0)  # of open edges
DOT = 3  # the radius of a dot
FACETS = 6  # how many facets of a smooth triangle stand along an edge
TRIED = 24  # how many planes are tried at a cut


def dot(a, b):
    return a[0] * b[0] + a[1] * b[1] + a[2] * b[2]


def cross(a, b):
    return (a[1] * b[2] - a[2] * b[1], a[2] * b[0] - a[0] * b[2], a[0] * b[1] - a[1] * b[0])


def less(a, b):
    return (a[0] - b[0], a[1] - b[1], a[2] - b[2])


def mean(vectors):
    return [sum(column) / len(vectors) for column in zip(*vectors)]


def unit(a):
    length = math.sqrt(dot(a, a))
    return (a[0] / length, a[1] / length, a[2] / length) if length > 0 else None


def axes(turn, tilt):
    """The eye's right, up and forward, as vectors of the scene."""
    s, c = math.sin(math.radians(turn)), math.cos(math.radians(turn))
    t, u = math.sin(math.radians(tilt)), math.cos(math.radians(tilt))
    return (c, 0, -s), (-s * t, u, -c * t), (s * u, t, c * u)


def seen(vector, view):
    return tuple(dot(vector, axis) for axis in view)


class Piece:
    """A triangle, a line, a dot, or what a cut left of one. An edge is drawn unless a cut made it."""

    def __init__(self, points, edges, colour, plane=None):
        self.points, self.edges, self.colour, self.plane = points, edges, colour, plane

    def part(self, points, edges):
        return Piece(points, edges, self.colour, self.plane)


def lit(colour, normal):
    """The colour under the light. A normal that looks away is turned round."""
    normal = unit(normal) or (0, 0, 1)
    side = 1 if normal[2] >= 0 else -1
    tone = 0.70 + 0.34 * max(0, side * dot(normal, unit(LIGHT)))
    return [min(1, tone * part) for part in colour]


def weights(facets):
    """Of each facet of a triangle that has so many along an edge, its three corners as parts of the triangle's."""
    def at(i, j):
        return (facets - i - j) / facets, i / facets, j / facets
    for i in range(facets):
        for j in range(facets - i):
            yield at(i, j), at(i + 1, j), at(i, j + 1)
            if i + j < facets - 1:
                yield at(i + 1, j), at(i + 1, j + 1), at(i, j + 1)


def blend(values, parts):
    return tuple(sum(part * x for part, x in zip(parts, column)) for column in zip(*values))


def triangle(mesh, shape, points, plain, view, facets):
    """The pieces of a triangle, with edges where it is one; none for one edge-on or seen from the back of a solid."""
    corners = [points[v] for v in shape]
    normal = unit(cross(less(corners[1], corners[0]), less(corners[2], corners[0])))
    if normal is None or abs(normal[2]) < 1e-6 or (mesh.solid and normal[2] < 0):
        return
    shades = [seen(mesh.parts['n'][v], view) if mesh.parts['n'] else normal for v in shape]
    colours = [mesh.parts['c'][v][:3] if mesh.parts['c'] else plain for v in shape]
    if normal[2] < 0:
        normal = tuple(-x for x in normal)
    for facet in weights(facets):
        middle = mean(facet)
        colour = lit(blend(colours, middle), blend(shades, middle))
        yield Piece([blend(corners, at) for at in facet], [facets == 1] * 3, colour, (normal, dot(normal, corners[0])))


def line(mesh, shape, points):
    """The piece of a line or a dot."""
    colour = mean([mesh.parts['c'][v][:3] for v in shape]) if mesh.parts['c'] else mesh.colour or INK
    return Piece([points[v] for v in shape], [True], colour)


def pieces(meshes, view, facets=1):
    found, plain = [], 0
    for mesh in meshes:
        points = [seen(p, view) for p in mesh.points]
        colour = mesh.colour or PLAIN[plain % len(PLAIN)]
        for shape in mesh.shapes:
            if mesh.unlit:
                found.append(line(mesh, shape, points))
            else:
                found.extend(triangle(mesh, shape, points, colour, view, facets))
        plain += not (mesh.unlit or mesh.parts['c'] or mesh.colour)
    return found


def open_pieces(meshes, view):
    """The open edges as pieces, each with what is said of it. One with a point that is not finite is not drawn."""
    found, lost = [], 0
    for mesh in meshes:
        places = dict(zip(mesh.sources, mesh.points))
        for (p, q), counts in closure.open_edges(closure.ways(closure.triangles(mesh.whole))):
            if p in places and q in places:
                ends = [seen(places[p], view), seen(places[q], view)]
                found.append((Piece(ends, [True], RED), closure.line((p, q), counts)))
            else:
                lost += 1
    if lost:
        files.tell('mesh.py', f'{lost} open edges are not drawn: a point of theirs is not finite')
    return found


# ---- the painter's order: a plane parts the pieces, and what it cuts is cut in two

def heights(piece, plane, near):
    """The heights of the points over the plane, 0 for those that are near it."""
    normal, offset = plane
    found = [dot(normal, p) - offset for p in piece.points]
    return [0 if abs(h) < near else h for h in found]


def is_cut(found):
    return min(found) < 0 < max(found)


def between(a, b, ha, hb):
    t = ha / (ha - hb)
    return tuple(x + t * (y - x) for x, y in zip(a, b))


def cut_line(piece, found):
    a, b = piece.points
    middle = between(a, b, *found)
    low, high = piece.part([a, middle], [True]), piece.part([middle, b], [True])
    return (low, high) if found[0] < 0 else (high, low)


def cut(piece, found):
    """The part below the plane and the part above it."""
    if len(piece.points) == 2:
        return cut_line(piece, found)
    sides = ([], [])
    for k, (a, ha, edge) in enumerate(zip(piece.points, found, piece.edges)):
        b, hb = piece.points[(k + 1) % len(found)], found[(k + 1) % len(found)]
        for side, sign in enumerate((-1, 1)):
            if ha * sign >= 0:
                # From a point on the plane the outline of this side may run along the cut.
                sides[side].append((a, edge and (ha * sign > 0 or hb * sign >= 0)))
        if ha * hb < 0:
            middle = between(a, b, ha, hb)
            for side, sign in enumerate((-1, 1)):
                sides[side].append((middle, edge and hb * sign > 0))
    return tuple(piece.part([p for p, _ in side], [e for _, e in side]) for side in sides)


def best_cutter(group, near):
    """Of some pieces the one whose plane cuts the fewest others and parts the group well."""
    flat = [piece for piece in group if piece.plane]
    step = max(1, len(flat) // TRIED)

    def cost(cutter):
        found = [heights(piece, cutter.plane, near) for piece in group]
        below = sum(max(f) <= 0 for f in found)
        above = sum(min(f) >= 0 for f in found)
        return 8 * sum(map(is_cut, found)) + abs(below - above)
    return min(flat[::step], key=cost)


def parted(group, cutter, near):
    """The pieces below the cutter's plane, on it and above it. The cutter is on it, however its heights are rounded:
    so each part has fewer pieces than the group."""
    below, on, above = [], [], []
    for piece in group:
        found = heights(piece, cutter.plane, near)
        if piece is cutter:
            on.append(piece)
        elif is_cut(found):
            low, high = cut(piece, found)
            below.append(low)
            above.append(high)
        elif min(found) < 0:
            below.append(piece)
        elif max(found) > 0 or not piece.plane:
            above.append(piece)
        else:
            on.append(piece)
    return below, on, above


def depth(piece):
    return mean(piece.points)[2]


def painted(group, near):
    """The pieces from the farthest to the nearest."""
    order, waiting = [], [(group, False)]
    while waiting:
        group, ready = waiting.pop()
        if ready:
            order.extend(group)
        elif any(piece.plane for piece in group):
            below, on, above = parted(group, best_cutter(group, near), near)
            waiting += [(above, False), (on, True), (below, False)]
        else:
            order.extend(sorted(group, key=depth))
    return order


# ---- writing the picture

class Frame:
    """Where the pieces stand on the paper."""

    def __init__(self, group):
        points = [p for piece in group for p in piece.points] or [(0, 0, 0)]
        self.left, self.top = min(p[0] for p in points), max(p[1] for p in points)
        width = max(p[0] for p in points) - self.left
        height = self.top - min(p[1] for p in points)
        self.scale = (WIDTH - 2 * MARGIN) / max(width, height, 1e-9)
        self.width = width * self.scale + 2 * MARGIN
        self.height = height * self.scale + 2 * MARGIN

    def place(self, point):
        x, y = (point[0] - self.left) * self.scale + MARGIN, (self.top - point[1]) * self.scale + MARGIN
        return f'{x:.1f} {y:.1f}'


def paint(colour):
    return '#' + ''.join(f'{round(255 * min(1, max(0, part))):02x}' for part in colour)


def edge_path(places, edges):
    """The drawn edges of a piece as one path."""
    path, pen = '', None
    for k, edge in enumerate(edges):
        if edge:
            path += ('' if pen == k else 'M' + places[k]) + 'L' + places[(k + 1) % len(places)]
            pen = k + 1
    return path


def svg_piece(piece, frame):
    places = [frame.place(p) for p in piece.points]
    if len(places) == 1:
        x, y = places[0].split()
        yield f'<circle cx="{x}" cy="{y}" r="{DOT}" fill="{paint(piece.colour)}"/>'
        return
    if len(places) == 2:
        yield f'<path class="l" color="{paint(piece.colour)}" d="M{places[0]}L{places[1]}"/>'
        return
    yield f'<path color="{paint(piece.colour)}" d="M{"L".join(places)}z"/>'
    edges = edge_path(places, piece.edges)
    if edges:
        yield f'<path class="e" color="{paint([0.9 * part for part in piece.colour])}" d="{edges}"/>'


def svg_open(piece, said, frame):
    a, b = [frame.place(p) for p in piece.points]
    return f'<path class="l" color="{paint(piece.colour)}" d="M{a}L{b}"><title>{said}</title></path>'


def svg(meshes, turn, tilt, facets, is_open_marked):
    view = axes(turn, tilt)
    group = pieces(meshes, view, facets)
    marked = open_pieces(meshes, view) if is_open_marked else []
    if not group and not marked:
        files.tell('mesh.py', 'the picture is empty: no dot, no line, and no triangle that faces the eye')
    frame = Frame(group + [piece for piece, _ in marked])
    near = 1e-3 / frame.scale
    size = f'{frame.width:.0f} {frame.height:.0f}'
    yield f'<svg xmlns="http://www.w3.org/2000/svg" viewBox="0 0 {size}" width="{frame.width:.0f}">'
    yield '<style>path{fill:currentColor;stroke:currentColor;stroke-width:.6;stroke-linejoin:round}'
    yield '.e,.l{fill:none;stroke-linecap:round}.e{stroke-width:.8}.l{stroke-width:2.4}</style>'
    yield f'<rect width="100%" height="100%" rx="12" fill="{PAPER}"/>'
    for piece in painted(group, near):
        yield from svg_piece(piece, frame)
    yield from (svg_open(piece, said, frame) for piece, said in marked)
    yield '</svg>'


# ---- the command line

def object_name(file):
    return 'mesh' if file == '-' else os.path.splitext(os.path.basename(file))[0]


def read_one(name):
    """The meshes of a file, each with the name of its own: one, or those of a scene."""
    folder = '' if name == '-' else os.path.dirname(name)
    found = files.read(name, lambda lines: scene.read(lines, folder) if scene.is_scene(lines) else read(lines))
    if isinstance(found, Mesh):
        return [(name, found)]
    meshes = [(placed.file, files.read(placed.file, read)) for placed in found]
    for placed, (_, mesh) in zip(found, meshes):
        placed.place(mesh)
    return meshes


def read_all(names):
    """The meshes of these files, as far as they can be drawn."""
    meshes, parts = [], []
    for name, mesh in [found for name in names for found in read_one(name)]:
        mesh.name = object_name(name)
        part = finite_part(mesh)
        for what in left_out(mesh, part):
            files.tell('mesh.py', f'{files.source_name(name)}: {what}')
        meshes.append(mesh)
        parts.append(part)
    if any(mesh.points for mesh in meshes) and not any(part.points for part in parts):
        raise Fault('nothing is left to draw')
    return parts


def degrees(option, word):
    try:
        value = float(word)
    except ValueError:
        value = math.nan
    if not math.isfinite(value):
        raise Fault(f"{option}: '{shown(word)}' is not a number of degrees")
    return value


def closed(names):
    """Says of each mesh whether it is closed; the exit status."""
    found = [closure.verdict(files.source_name(name), mesh) for file in names for name, mesh in read_one(file)]
    write(line for _, lines in found for line in lines)
    return 0 if all(is_closed for is_closed, _ in found) else OPEN


def write(lines):
    files.write('-', ''.join(line + '\n' for line in lines).encode(errors='surrogateescape'))


def work():
    parser = files.Parser('mesh.py', __doc__)
    parser.add_argument('form', choices=['obj', 'svg', 'closed'], help='Wavefront OBJ, a picture, or whether it is closed')
    parser.add_argument('files', nargs='*', metavar='MESH',
                        help="a file with what sitemesh printed, or a scene; '-', or no file, is standard input")
    parser.add_argument('--turn', default='30', metavar='DEGREES', help='where the eye is, round the Y axis (30)')
    parser.add_argument('--tilt', default='30', metavar='DEGREES', help='where the eye is, above the ground (30)')
    parser.add_argument('--open', action='store_true', help='in a picture, draw open edges in red, over everything')
    parser.add_argument('--smooth', action='store_true', help="in a picture, shade triangles from corner to corner, by the normals")
    choice = parser.parse_intermixed_args()
    for option in ('open', 'smooth'):
        if getattr(choice, option) and choice.form != 'svg':
            parser.error(f'--{option} is of svg alone')
    turn, tilt = degrees('--turn', choice.turn), degrees('--tilt', choice.tilt)
    if choice.files.count('-') > 1:
        raise Fault('standard input is named twice')
    if choice.form == 'closed':
        return closed(choice.files or ['-'])
    meshes = read_all(choice.files or ['-'])
    facets = FACETS if choice.smooth else 1
    write(obj(meshes) if choice.form == 'obj' else svg(meshes, turn, tilt, facets, choice.open))
    return 0


if __name__ == '__main__':
    sys.exit(files.status('mesh.py', work))
