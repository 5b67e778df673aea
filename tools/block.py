#!/usr/bin/env python3
"""Writes a block (docs/FORMAT.md 2) from a text file, or the numbers of a part (docs/FORMAT.md 17):

    python3 tools/block.py examples/duct.txt duct.block
    python3 tools/block.py - - < wall.txt | target/bin/sitemesh > wall.mesh
    python3 tools/block.py examples/drum.txt drum.part && target/part drum.part > drum.mesh

NOT PROVED: this tool is plain Python for people. Nothing of the converter depends on it.

A line names a field and its values; a line that begins with a number goes on with the list above it.
Names and defaults are those of VRML97, and of X3D for its triangle, fan, strip and quad sets. '#' begins a comment.
The text is UTF-8.

    shape IndexedFaceSet      # the first field; the other shapes stand below
    convex FALSE
    creaseAngle 30deg         # angles in radians, or in degrees with 'deg'
    point 0 0 0, 1 0 0
          1 1 0, 0 1 0        # a line holds whole entries
    coordIndex 0 1 2 3 -1
    colorRGBA 1 0 0 0.5       # colours with alpha; 'color' without

A list that is named without values is present and empty. Beyond VRML97's names: 'texture TRUE' asks for texture
(need_uvs), and one of textureCenter, textureRotation, textureScale, textureTranslation makes the transform present.
X3D's four sets have no creaseAngle; here they have: 0, flat, where it is not given. Their colorPerVertex and
normalPerVertex may only be TRUE, and a quad that is not convex begins at its inward corner or the one opposite.

A part is one of PointSet, Box, Sphere, Cylinder and Cone. It has no block, and sitemesh does not read it: the library has
a call for each, with the numbers that are written here. hosts/part.c reads them, makes the call and prints the mesh;
README says how it is built. Beyond VRML97's names: slices and stacks say how finely it is cut, 32 and 16 where they are
not given. All but a PointSet lie round the origin and have no colour: a scene gives them both (mesh.py --help).

    shape Cylinder
    radius 0.6
    height 0.4
    slices 24
    bottom FALSE

Commas count as spaces, as in VRML97. But a number with a fraction is written with a point: '0,5' alone between
spaces is an error where fractions may stand, unless its comma parts two entries, as in '0 0 0,1 0 0'.

Warnings, each a line on standard error with the line of the text; the block is written, and the status is 0:
  - a run of coordIndex that is not drawn or, in a line set, is broken (FORMAT 6);
  - a triangle or quad of an index that is not drawn, or entries left over at its end (FORMAT 6.4);
  - a run, point or quad that is drawn without its colour, normal or texture point (FORMAT 7); a missing colour is the
    one that the caller chooses: sitemesh passes white, a terminal grey;
  - a shape that draws nothing, a cap that is asked for and not drawn, a list that is not read or is too short;
  - a crossSection whose last point lies beside the first, within a thousandth of its extent, and does not close;
  - a size of a part that is not above 0, where the standard's default is taken, and slices or stacks beyond their range
    (FORMAT 17.2); colours of a PointSet that are too few, which are left out whole (17.5);
  - with --table, an angle above 1024 in size, of an orientation half of it (FORMAT 16).
Runs, points and values are numbered from 0; an empty run counts and is not warned of. -1 alone ends a run: a value
below -1 names no point.

A triangle set takes its index in threes, a quad set in fours: nothing separates there, and -1 is a point that is not
there. The runs of a fan or strip set end as those of a face set do. Attributes are read at the point's number.

A window in a wall is no face of its own: an outline that goes in to it and back along the same edge covers it. Leave a
slit between the two ways, or lay several faces round it (docs/DIFFERENCES.md, 12).

A crossSection closes where it has more than 2 points and its last is written as its first: then its sides are smoothed
across the closing edge, by a creaseAngle above the angle between two sides, and caps leave the last point out (FORMAT
8.4). A computed 2.4e-16 for 0 does not close it.

Errors, each a line on standard error, status 1, nothing written: a text that is not understood, and a block that
would be refused for what it says (FORMAT 3, rows 4, 6, 7 and 9: list limit, no shape, corners, attributes), or a PointSet
of more than 8,192 points.
"""
import math
import os
import re
import struct
import sys
import textwrap

sys.dont_write_bytecode = True
import files
import losses
import sine
from files import Fault, shown
from losses import DIMENSIONS, PRIMITIVES, SIZES

LIST_LIMIT = 8192
TOO_LARGE = 2.0**128 - 2.0**103  # from here on the nearest f32 is infinite
NUMBER = re.compile(r'[+-]?(\d+\.?\d*|\.\d+)([eE][+-]?\d+)?', re.ASCII)
WHOLE = re.compile(r'[+-]?\d+', re.ASCII)
LONE_COMMA = re.compile(r'[+-]?\d+,\d+([eE][+-]?\d+)?(deg)?', re.ASCII)
KINDS = ['IndexedFaceSet', 'IndexedLineSet', 'ElevationGrid', 'Extrusion', *PRIMITIVES]
# The parts, and what the call of each takes first: sizes, flags, slices and stacks (FORMAT 17.1, 17.12).
PARTS = {
    'PointSet': ('point_set', ''), 'Box': ('box', 'size'), 'Sphere': ('sphere', 'radius slices stacks'),
    'Cylinder': ('cylinder', 'radius height side top bottom slices'),
    'Cone': ('cone', 'bottomRadius height side bottom slices'),
}

# The fields of each kind.
FLAGS = {
    'IndexedFaceSet': 'ccw convex solid colorPerVertex normalPerVertex texture',
    'IndexedLineSet': 'colorPerVertex',
    'ElevationGrid': 'ccw solid colorPerVertex normalPerVertex texture',
    'Extrusion': 'ccw convex solid texture beginCap endCap',
    **dict.fromkeys(PRIMITIVES, 'ccw solid colorPerVertex normalPerVertex texture'),
    'PointSet': '', 'Box': 'texture', 'Sphere': 'texture', 'Cylinder': 'side top bottom texture', 'Cone': 'side bottom texture',
}
COUNTS = {'slices': 32, 'stacks': 16}  # whole numbers of a part, and the reference's defaults
SINGLE = {  # how many values, and whether they are angles
    'creaseAngle': (1, True), 'xSpacing': (1, False), 'zSpacing': (1, False),
    'textureCenter': (2, False), 'textureRotation': (1, True),
    'textureScale': (2, False), 'textureTranslation': (2, False),
    'size': (3, False), 'radius': (1, False), 'bottomRadius': (1, False), 'height': (1, False),
}
TRANSFORM = 'textureCenter textureRotation textureScale textureTranslation'
SINGLES = {
    'IndexedFaceSet': 'creaseAngle ' + TRANSFORM,
    'IndexedLineSet': '',
    'ElevationGrid': 'creaseAngle xSpacing zSpacing ' + TRANSFORM,
    'Extrusion': 'creaseAngle ' + TRANSFORM,
    **dict.fromkeys(PRIMITIVES, 'creaseAngle ' + TRANSFORM),
    'PointSet': '', 'Box': 'size ' + TRANSFORM, 'Sphere': 'radius ' + TRANSFORM,
    'Cylinder': 'radius height ' + TRANSFORM, 'Cone': 'bottomRadius height ' + TRANSFORM,
}
# The eight lists in the order of their counts (FORMAT 2.4); '' is a list without words.
INDEXED = 'point coordIndex color colorIndex normal normalIndex texCoord texCoordIndex'
LISTS = {
    'IndexedFaceSet': INDEXED.split(),
    'IndexedLineSet': 'point coordIndex color colorIndex'.split() + [''] * 4,
    'ElevationGrid': 'xDimension zDimension color height normal'.split() + ['', 'texCoord', ''],
    'Extrusion': 'spine crossSection scale orientation'.split() + [''] * 4,
    **dict.fromkeys(PRIMITIVES, ['point', 'index', 'color', '', 'normal', '', 'texCoord', '']),
    **dict.fromkeys(PARTS, []), 'PointSet': ['point', 'color'],
}
# Numbers of an entry; an orientation is given as axis and angle and written as axis, sine and cosine.
WIDTH = {
    'point': 3, 'color': 3, 'colorRGBA': 4, 'normal': 3, 'texCoord': 2, 'height': 1,
    'spine': 3, 'crossSection': 2, 'scale': 2, 'orientation': 4,
}
DEFAULTS = {
    'creaseAngle': [0.0], 'xSpacing': [1.0], 'zSpacing': [1.0], 'textureCenter': [0.0, 0.0],
    'textureRotation': [0.0], 'textureScale': [1.0, 1.0], 'textureTranslation': [0.0, 0.0],
    'spine': [0.0, 0.0, 0.0, 0.0, 1.0, 0.0],
    'crossSection': [1.0, 1.0, 1.0, -1.0, -1.0, -1.0, -1.0, 1.0, 1.0, 1.0],
    'scale': [1.0, 1.0], 'orientation': [0.0, 0.0, 1.0, 0.0],
}
FALSE_BY_DEFAULT = ('texture',)


class LineFault(Fault):
    """A fault of the text, with the number of its line."""

    def __init__(self, line, what):
        super().__init__(f'line {line.at}: {what}')


class Line:
    """A line of the text: its number, its words, and which of them are followed by a comma as in '0,5'."""

    def __init__(self, at, content):
        self.at, self.words, self.commas = at, [], {}
        for chunk in content.split('#')[0].split():
            chunk = chunk.strip(',')
            if LONE_COMMA.fullmatch(chunk):
                self.commas[len(self.words)] = chunk
            self.words += [word for word in chunk.split(',') if word]

    def take_name(self):
        """Takes the first word off."""
        self.commas = {place - 1: chunk for place, chunk in self.commas.items()}
        return self.words.pop(0)

    def refuse_decimal_comma(self, width):
        """Refuses '0,5', but for a comma between two entries of a line of whole entries."""
        for place, chunk in self.commas.items():
            if width == 1 or (place + 1) % width or len(self.words) % width:
                point = shown(chunk.replace(',', '.'))
                raise LineFault(self, f"'{shown(chunk)}' looks like a decimal comma: write a point ({point}), "
                                'or a space after a comma that parts two numbers')


def f32(x):
    """The nearest f32."""
    return struct.unpack('>f', struct.pack('>f', x))[0]


def real(word, line, unit=1.0):
    """The number, times the unit; one that an f32 can be near to."""
    if not NUMBER.fullmatch(word):
        raise LineFault(line, f"'{shown(word)}' is not a number")
    value = float(word) * unit
    if abs(value) >= TOO_LARGE:
        raise LineFault(line, f'{shown(word)} is too large for f32')
    return value


def number(word, line, unit=1.0):
    """The f32 nearest to it."""
    return f32(real(word, line, unit))


def angle(word, line):
    """Radians, or degrees where the word ends in 'deg'."""
    if word.endswith('deg'):
        return number(word[:-3], line, math.pi / 180)
    return number(word, line)


def whole(word, line, least, most):
    if not WHOLE.fullmatch(word):
        raise LineFault(line, f"'{shown(word)}' is not a whole number")
    digits = word.lstrip('+-').lstrip('0')[:12] or '0'  # twelve are too large already, and Python reads 4,300 at most
    value = -int(digits) if word[0] == '-' else int(digits)
    if not least <= value <= most:
        raise LineFault(line, f'{shown(word)} is not between {least} and {most}')
    return value


def flag(line):
    if line.words not in (['TRUE'], ['FALSE']):
        raise LineFault(line, 'TRUE or FALSE is wanted')
    return line.words == ['TRUE']


def single(name, line):
    count, is_angle = SINGLE[name]
    line.refuse_decimal_comma(count)
    if len(line.words) != count:
        raise LineFault(line, f'{name} has {count} value' + 's' * (count > 1))
    return [(angle if is_angle else number)(w, line) for w in line.words]


def dimension(name, line, most=LIST_LIMIT):
    if len(line.words) != 1:
        raise LineFault(line, f'{name} has 1 value')
    return whole(line.words[0], line, 0, most)


def is_index(name):
    return name == 'index' or name.endswith('Index')


def entries(name, line):
    """One line of a list: whole entries."""
    if is_index(name):
        return [whole(w, line, -2**31, 2**31 - 1) for w in line.words]
    width = WIDTH[name]
    line.refuse_decimal_comma(width)
    is_angle = [name == 'orientation' and k % 4 == 3 for k in range(len(line.words))]
    values = [(angle if a else number)(w, line) for w, a in zip(line.words, is_angle)]
    if len(values) % width:
        raise LineFault(line, f'an entry of {name} has {width} numbers, and a line holds whole entries')
    return values


class Text:
    """The fields of a text file, read line by line."""

    def __init__(self, lines):
        self.kind = None
        self.fields = {}
        self.line_numbers = {}
        self.entry_lines = {}  # of each value of a list
        self.open_list = None
        line = Line(1, '')
        for at, content in enumerate(lines, 1):
            line = Line(at, content)
            if line.words:
                self.line(line)
        if self.kind is None:
            raise LineFault(line, "no shape is named: 'shape IndexedFaceSet', for one")

    def line(self, line):
        if line.words[0][0].isalpha():
            self.open_list = None
            self.field(line.take_name(), line)
        elif self.open_list:
            self.add(self.open_list, line)
        else:
            raise LineFault(line, f"'{shown(line.words[0])}' belongs to no list")

    def field(self, name, line):
        if name == 'shape':
            return self.shape(line)
        if self.kind is None:
            raise LineFault(line, "the first field is 'shape'")
        if name in self.fields:
            raise LineFault(line, f'{name} is given twice')
        self.line_numbers[name] = line.at
        if name in FLAGS[self.kind].split():
            self.fields[name] = flag(line)
        elif name in SINGLES[self.kind].split():
            self.fields[name] = single(name, line)
        elif name in COUNTS and name in PARTS.get(self.kind, ('', ''))[1].split():
            self.fields[name] = dimension(name, line, 2**32 - 1)
        else:
            self.list(name, line)

    def shape(self, line):
        if self.kind is not None:
            raise LineFault(line, 'shape is given twice')
        if len(line.words) != 1 or line.words[0] not in [*KINDS, *PARTS]:
            raise LineFault(line, 'shape is one of ' + ', '.join([*KINDS, *PARTS]))
        self.kind = line.words[0]
        self.line_numbers['shape'] = line.at

    def list(self, name, line):
        plain = 'color' if name == 'colorRGBA' else name
        if plain not in LISTS[self.kind]:
            hint = ': its list is index' if name == 'coordIndex' and 'index' in LISTS[self.kind] else ''
            raise LineFault(line, f'{self.kind} has no field {shown(name)}{hint}')
        if plain == 'color' and {'color', 'colorRGBA'} & set(self.fields):
            raise LineFault(line, 'color and colorRGBA: one of the two')
        if name in DIMENSIONS:
            self.fields[name] = dimension(name, line)
            return
        self.fields[name] = []
        self.entry_lines[name] = []
        self.open_list = name
        self.add(name, line)

    def add(self, name, line):
        values = self.fields[name]
        values.extend(entries(name, line))
        self.entry_lines[name].extend([line.at] * len(line.words))
        limited = self.kind != 'PointSet' or name == 'point'
        if limited and len(values) > LIST_LIMIT * WIDTH.get(name, 1):
            raise LineFault(line, f'{name} has more than {LIST_LIMIT} entries')

    def name(self, name):
        """The name that the text uses for a field."""
        return 'colorRGBA' if name == 'color' and 'colorRGBA' in self.fields else name

    def values(self, name):
        """The values of a list, or the standard's where it is not given."""
        return self.fields.get(self.name(name), DEFAULTS.get(name, []))

    def count(self, name):
        """How many entries a list has."""
        return len(self.values(name)) // WIDTH.get(self.name(name), 1)

    def line_number(self, name):
        """Where a field stands; of a field that is not given, where the shape is named."""
        return self.line_numbers.get(self.name(name), self.line_numbers['shape'])


class Bits:
    """Fields of bits, most significant first (FORMAT 2.1)."""

    def __init__(self):
        self.value = 0
        self.length = 0

    def put(self, value, bits):
        self.value = self.value << bits | value
        self.length += bits

    def bytes(self):
        return self.value.to_bytes(self.length // 8, 'big')


def header(text, counts):
    """FORMAT 2.2."""
    fields = text.fields
    present = [
        has_transform(text), 'color' in fields or 'colorRGBA' in fields, 'colorRGBA' in fields, 'normal' in fields,
        'texCoord' in fields,
    ]
    of = [fields.get(name, name not in FALSE_BY_DEFAULT) for name in
          'ccw convex solid colorPerVertex normalPerVertex texture beginCap endCap'.split()]
    bits = Bits()
    bits.put(1, 4)
    bits.put(KINDS.index(text.kind), 3)
    for on in of[:6] + present + of[6:]:
        bits.put(int(on), 1)
    for count in counts:
        bits.put(count, 14)
    bits.put(0, 28)
    return bits.bytes()


def host_sine(angle):
    """The host's, rounded to f32 when they are written."""
    return math.sin(angle), math.cos(angle)


def given(text, name):
    """The values of a single field, or the standard's."""
    return text.fields.get(name, SIZES.get(name) or DEFAULTS[name])


def transform(text, sin_cos):
    """The eight words of the texture transform."""
    turn = given(text, 'textureRotation')[0]
    words = given(text, 'textureCenter') + [*sin_cos(turn)]
    return words + given(text, 'textureScale') + given(text, 'textureTranslation')


def has_transform(text):
    return any(name in text.fields for name in TRANSFORM.split())


def twelve(text, sin_cos):
    """FORMAT 2.3. Sines and cosines are those of the f32 angle."""
    crease = given(text, 'creaseAngle')[0]
    words = [crease, sin_cos(crease)[1]] + given(text, 'xSpacing') + given(text, 'zSpacing')
    return struct.pack('>12f', *words, *transform(text, sin_cos))


def turned(values, sin_cos):
    """Orientations with the sine and cosine of half the angle in place of the angle."""
    made = []
    for k in range(0, len(values), 4):
        half = f32(values[k + 3] * 0.5)
        made += values[k:k + 3] + [*sin_cos(half)]
    return made


def out_of_reach(text):
    """The angles that the table does not reach (FORMAT 16), by line; the cosine of a crease angle from half a turn on is not read."""
    found = []
    turn = text.fields.get('textureRotation', DEFAULTS['textureRotation'])[0]
    if abs(turn) > 1024:
        found.append((text.line_number('textureRotation'), f'textureRotation {turn:g} is beyond the table, which ends at 1024'))
    if 'orientation' in LISTS[text.kind]:
        lines = text.entry_lines.get('orientation', [])
        for k, angle in enumerate(text.values('orientation')[3::4]):
            if abs(f32(angle * 0.5)) > 1024:
                found.append((lines[4 * k + 3], f'half of the angle {angle:g} is beyond the table, which ends at 1024'))
    return [(line, f'{what}: the sine is written as 0 and the cosine as 1') for line, what in found]


def list_bytes(text, name, sin_cos):
    """The count of a list and its bytes."""
    if name in DIMENSIONS:
        return text.fields.get(name, 0), b''
    values = text.values(name)
    if is_index(name):
        return len(values), struct.pack(f'>{len(values)}i', *values)
    if name == 'orientation':
        values = turned(values, sin_cos)
    return text.count(name), struct.pack(f'>{len(values)}f', *values)


def block(text, sin_cos=host_sine):
    """The block of a text."""
    lists = [list_bytes(text, name, sin_cos) for name in LISTS[text.kind]]
    return header(text, [count for count, _ in lists]) + twelve(text, sin_cos) + b''.join(part for _, part in lists)


def bits(values):
    """Words of eight hexadecimal digits, each with a space before it."""
    return ''.join(' ' + struct.pack('>f', value).hex() for value in values)


def own_numbers(text):
    """What the call of a part takes first: sizes as words, flags as 1 or 0, slices and stacks."""
    for name in PARTS[text.kind][1].split():
        if name in SINGLE:
            yield bits(given(text, name))
        else:
            yield f' {int(text.fields.get(name, COUNTS.get(name, True)))}'


def part(text, sin_cos=host_sine):
    """The numbers of a part, in the order of its C function (hosts/sitemesh.h), for hosts/part.c."""
    name = PARTS[text.kind][0]
    if text.kind == 'PointSet':
        points, colours = text.values('point'), text.values('color')
        present, alpha = int(text.name('color') in text.fields), int('colorRGBA' in text.fields)
        lines = [f'{name} {present} {alpha}', f'points {len(points)}{bits(points)}', f'colours {len(colours)}{bits(colours)}']
    else:
        words = transform(text, sin_cos) if has_transform(text) else []
        wanted = int(text.fields.get('texture', False))
        lines = [f"{name}{''.join(own_numbers(text))} {wanted}", f'transform {len(words)}{bits(words)}']
    return ''.join(line + '\n' for line in lines).encode()


def accepted(lines):
    """The text of these lines, if its block is not refused for what it says."""
    text = Text(lines)
    refusal = losses.refusal(text, LIST_LIMIT)
    if refusal:
        raise Fault('line {}: {}: there would be no mesh'.format(*refusal))
    return text


def refuse_same_file(source, target):
    if '-' not in (source, target) and os.path.exists(target) and os.path.samefile(source, target):
        raise Fault(f'{files.source_name(source)}: it would be written over its own text')


def fields_help():
    """The fields of each kind."""
    def listed(kind):
        counts = [name for name in COUNTS if name in PARTS.get(kind, ('', ''))[1].split()]
        names = ' '.join(FLAGS[kind].split() + SINGLES[kind].split() + counts + [name for name in LISTS[kind] if name])
        names = (names + ' ').replace('color ', 'color (or colorRGBA) ')
        return textwrap.fill(f'{kind}: {names}', 110, initial_indent='  ', subsequent_indent='    ')
    return '\n'.join(['fields of each shape:'] + [listed(kind) for kind in [*KINDS, *PARTS]])


def work():
    parser = files.Parser('block.py', __doc__, fields_help())
    parser.add_argument('text', metavar='FILE.txt', help="the text that is read; '-' is standard input")
    parser.add_argument('block', metavar='OUT.block', help="the block or the part that is written; '-' is standard output")
    parser.add_argument('--strict', action='store_true', help='every warning is an error: nothing is written, status 1')
    parser.add_argument('--table', action='store_true',
                        help="sines and cosines from the converter's own table (FORMAT 16) in place of the host's")
    choice = parser.parse_args()
    text = files.read(choice.text, accepted)
    refuse_same_file(choice.text, choice.block)
    found = losses.warnings(text) + (out_of_reach(text) if choice.table else [])
    for line, what in found:
        mark = '' if choice.strict else 'warning: '
        files.tell('block.py', f'{files.source_name(choice.text)}: line {line}: {mark}{what}')
    if found and choice.strict:
        return 1
    make = part if text.kind in PARTS else block
    files.write(choice.block, make(text, sine.sin_cos if choice.table else host_sine))
    return 0


if __name__ == '__main__':
    sys.exit(files.status('block.py', work))
