"""What a block would not show: refusals and warnings for block.py. NOT PROVED.

A text here is a `Text` of block.py. What is found is a line number of the text and words.
"""
DIMENSIONS = ('xDimension', 'zDimension')
ATTRIBUTES = ('color', 'normal', 'texCoord')
# What the primitives of each set are called, and how many entries one has (FORMAT 6.4).
PRIMITIVES = {
    'IndexedTriangleSet': ('triangle', 3), 'IndexedTriangleFanSet': ('fan', 3),
    'IndexedTriangleStripSet': ('strip', 3), 'IndexedQuadSet': ('quad', 4),
}
# The sizes of parts with the standard's defaults, what slices and stacks are held to (FORMAT 17.2), and what may be left out.
SIZES = {'size': [2.0, 2.0, 2.0], 'radius': [1.0], 'bottomRadius': [1.0], 'height': [2.0]}
RANGES = {'slices': (3, 1024), 'stacks': (2, 1024)}
SURFACES = {'Box': [], 'Sphere': [], 'Cylinder': ['side', 'top', 'bottom'], 'Cone': ['side', 'bottom']}


# ---- refusals 6, 7 and 9 (FORMAT 3); 4 is found while the text is read

def refusal(text, limit):
    """Why the block would be refused; none where it would not be."""
    find = {'ElevationGrid': grid_refusal, 'Extrusion': extrusion_refusal,
            **dict.fromkeys(PRIMITIVES, primitives_refusal)}.get(text.kind)
    return find(text, limit) if find else None


def entries_of(name, count):
    return f"{name} has {count or 'no'} {'entry' if count == 1 else 'entries'}"


def sides(text):
    return [text.fields.get(name, 0) for name in DIMENSIONS]


def grid_refusal(text, limit):
    for name, side in zip(DIMENSIONS, sides(text)):
        if side < 2:
            given = side if name in text.fields else 'not given'
            return text.line_number(name), f'{name} is {given}, and a grid has 2 or more'
    x, z = sides(text)
    if text.count('height') < x * z:
        has = entries_of('height', text.count('height'))
        return text.line_number('height'), f'{has}, and a grid of {x} by {z} has {x * z}'
    return too_large(text, 'xDimension', x * z, 4 * (x - 1) * (z - 1), limit)


def extrusion_refusal(text, limit):
    for name in ('spine', 'crossSection'):
        if text.count(name) < 2:
            has = entries_of(name, text.count(name))
            return text.line_number(name), f'{has}, and 2 or more are wanted'
    rings, places = text.count('spine'), text.count('crossSection')
    caps = sum(text.fields.get(name, True) for name in ('beginCap', 'endCap'))
    corners = 4 * (rings - 1) * (places - 1) + caps * cap_corners(text)
    return too_large(text, 'spine', rings * places, corners, limit)


def primitives_refusal(text, limit):
    for name in ('colorPerVertex', 'normalPerVertex'):
        if not text.fields.get(name, True):
            return text.line_number(name), f'{name} is FALSE, and {text.kind} has its attributes per vertex'
    corners = sum(len(part.entries) for stretch in stretches(text) for part in stretch.parts if is_whole(text, part))
    return too_large(text, 'index', text.count('point'), corners, limit)


def too_large(text, name, points, corners, limit):
    if max(points, corners) <= limit:
        return None
    return text.line_number(name), f'{points} points and {corners} corners, and {limit} of each are the most'


def cap_corners(text):
    """The corners of a cap (FORMAT 8.4); 0 where it is not drawn."""
    values, count = text.values('crossSection'), text.count('crossSection')
    if count > 2 and values[:2] == values[-2:]:
        count -= 1
    return count if count > 2 else 0


# ---- warnings

def warnings(text):
    """What the mesh would lack, by line."""
    find = {'ElevationGrid': grid_losses, 'Extrusion': extrusion_losses, 'PointSet': points_losses,
            **dict.fromkeys(PRIMITIVES, primitives_losses), **dict.fromkeys(SURFACES, part_losses)}.get(text.kind, set_losses)
    return sorted(find(text), key=lambda found: found[0])


class Run:
    """A run of coordIndex: its number, the line on which it starts, the place of its first entry, its entries."""

    def __init__(self, number, line, start, entries):
        self.number, self.line, self.start, self.entries = number, line, start, entries


def runs(text, name='coordIndex'):
    """The runs that are not empty; empty ones count in the numbers (FORMAT 6.1)."""
    entries, lines = text.values(name), text.entry_lines.get(name, [])
    found, number, start = [], 0, 0
    for place in range(len(entries) + 1):
        if place == len(entries) or entries[place] == -1:
            if start < place:
                found.append(Run(number, lines[start], start, entries[start:place]))
            number, start = number + 1, place + 1
    return found


def listed(name, count):
    return f'there are {count}, numbered from 0' if count > 1 else entries_of(name, count)


def set_losses(text):
    """Of a face set or a line set."""
    points, found = text.count('point'), runs(text)
    is_face_set = text.kind == 'IndexedFaceSet'
    fault = face_fault if is_face_set else line_fault
    for run in found:
        what = fault(run, points)
        if what:
            yield run.line, f'run {run.number} {what}{below(run.entries)}'
    if not found:
        yield text.line_number('coordIndex'), 'nothing is drawn: coordIndex has no run'
    drawn = [run for run in found if (is_kept if is_face_set else has_line)(run, points)]
    for name in ATTRIBUTES:
        yield from attribute_losses(text, name, drawn)


def below(entries):
    """What to say where a run has a value below -1, which may have been meant to end it (FORMAT 6.1)."""
    return '; only -1 ends a run' if min(entries) < -1 else ''


def is_kept(run, points):
    """FORMAT 6.2."""
    return len(run.entries) > 2 and all(0 <= entry < points for entry in run.entries)


def lines(run, points):
    """The pairs of entries in a row that both name points (FORMAT 8.2)."""
    return [pair for pair in zip(run.entries, run.entries[1:]) if all(0 <= entry < points for entry in pair)]


def has_line(run, points):
    return bool(lines(run, points))


def beyond(run, points):
    """The entries that name no point, for a message; '' where there are none."""
    found = [str(entry) for entry in run.entries if not 0 <= entry < points]
    names = f"{', '.join(found[:4])}{' ..' * (len(found) > 4)} name{'s' * (len(found) == 1)} no point"
    return f"{names} ({listed('point', points)})" if found else ''


def face_fault(run, points):
    """Why a face is not drawn; '' where it is."""
    if len(run.entries) < 3:
        return f'is not drawn: a face has 3 entries or more, and it has {len(run.entries)}'
    return beyond(run, points) and f'is not drawn: {beyond(run, points)}'


def line_fault(run, points):
    """Why a line is not drawn or not whole; '' where it is."""
    if len(run.entries) < 2:
        return 'is not drawn: a line has 2 entries or more, and it has 1'
    lost = 'is broken' if has_line(run, points) else 'is not drawn'
    return beyond(run, points) and f'{lost}: {beyond(run, points)}'


def attribute_losses(text, name, drawn):
    """Drawn runs that lack a value of an attribute (FORMAT 7.1, 7.2)."""
    own = name + 'Index'
    if text.name(name) not in text.fields:
        if text.values(own):
            yield text.line_number(own), f'{own} is not read: {name} is not given'
        return
    per_vertex = text.fields.get(name + 'PerVertex', True)  # texCoord has no such field
    for run in drawn:
        lost = [why for why in (vertices_lack if per_vertex else face_lacks)(text, name, run) if why]
        if lost:
            where = f'at {len(lost)} of its {len(run.entries)} entries' if per_vertex else 'of its own'
            yield run.line, f'run {run.number} has no {name} {where}: {lost[0]}'


def vertices_lack(text, name, run):
    """Of each entry that names a point, why its value is missing; '' where it is there."""
    index = name + 'Index' if text.values(name + 'Index') else 'coordIndex'
    points = text.count('point')
    places = [run.start + k for k, entry in enumerate(run.entries) if 0 <= entry < points]
    return [index_lacks(text, name, index, place) for place in places]


def face_lacks(text, name, run):
    """The same of the run itself."""
    if text.values(name + 'Index'):
        return [index_lacks(text, name, name + 'Index', run.number)]
    count = text.count(name)
    return ['' if run.number < count else f'{entries_of(name, count)}, and runs are numbered from 0']


def index_lacks(text, name, index, place):
    entries = text.values(index)
    if place >= len(entries):
        return f'{entries_of(index, len(entries))}, too few'
    if entries[place] < 0:
        return f'{index} has {entries[place]} there'
    count = text.count(name)
    return '' if entries[place] < count else f'{entries[place]} names no {name} ({listed(name, count)})'


class Stretch:
    """What primitives are taken from: its name for a message, its line, the primitives, and the entries left over."""

    def __init__(self, name, line, parts, rest):
        self.name, self.line, self.parts, self.rest = name, line, parts, rest


def stretches(text):
    """FORMAT 6.4: each primitive of a triangle or quad set by itself; the runs of a fan or strip set."""
    name, width = PRIMITIVES[text.kind]
    return run_stretches(text, name) if name in ('fan', 'strip') else whole_stretches(text, name, width)


def run_stretches(text, name):
    for run in runs(text, 'index'):
        places = [(0 if name == 'fan' else k, k + 1, k + 2) for k in range(len(run.entries) - 2)]
        parts = [Run(k, run.line, 0, [run.entries[p] for p in place]) for k, place in enumerate(places)]
        yield Stretch(f'run {run.number}', run.line, parts, [] if parts else run.entries)


def whole_stretches(text, name, width):
    entries, lines = text.values('index'), text.entry_lines.get('index', [])
    for start in range(0, len(entries), width):
        part = Run(start // width, lines[start], start, entries[start:start + width])
        if len(part.entries) == width:
            yield Stretch(f'{name} {part.number}', part.line, [part], [])
        else:
            yield Stretch(f'the last {name}', part.line, [], part.entries)


def is_whole(text, part):
    return all(0 <= entry < text.count('point') for entry in part.entries)


def primitives_losses(text):
    """Of a triangle, fan, strip or quad set."""
    name, width = PRIMITIVES[text.kind]
    found = list(stretches(text))
    for stretch in found:
        if stretch.rest:
            more = ' or more' * (name in ('fan', 'strip'))
            has = f'a {name} has {width} entries{more}, and it has {len(stretch.rest)}'
            yield stretch.line, f'{stretch.name} is not drawn: {has}{entry_hint(text, stretch, stretch.rest)}'
        yield from parts_lost(text, stretch)
    if not found:
        yield text.line_number('index'), f"nothing is drawn: index has no {'entries' if not text.values('index') else 'run'}"
    for attribute in ATTRIBUTES:
        for stretch in found:
            yield from values_lost(text, attribute, stretch)


def entry_hint(text, stretch, entries):
    """What to say of an entry that may have been meant to end something: a fan or a strip is a run, the others have none."""
    if stretch.name.startswith('run '):
        return below(entries)
    threes = 'fours' if text.kind == 'IndexedQuadSet' else 'threes'
    return f'; nothing parts entries here: they go in {threes}' if -1 in entries else ''


def parts_lost(text, stretch):
    """Primitives that name a point that is not there."""
    lost = [part for part in stretch.parts if not is_whole(text, part)]
    if lost:
        bad = sorted({entry for part in lost for entry in part.entries if not 0 <= entry < text.count('point')})
        names = f"{', '.join(map(str, bad[:4]))}{' ..' * (len(bad) > 4)} name{'s' * (len(bad) == 1)} no point"
        some = '' if len(lost) == len(stretch.parts) else f'{len(lost)} of the {len(stretch.parts)} triangles of '
        verb = 'are' if some and len(lost) > 1 else 'is'
        where = f"({listed('point', text.count('point'))}){entry_hint(text, stretch, bad)}"
        yield stretch.line, f'{some}{stretch.name} {verb} not drawn: {names} {where}'


def values_lost(text, name, stretch):
    """Drawn primitives that lack a value, which is read at the point's number."""
    if text.name(name) in text.fields:
        drawn = sorted({entry for part in stretch.parts if is_whole(text, part) for entry in part.entries})
        lost = [entry for entry in drawn if entry >= text.count(name)]
        if lost:
            yield stretch.line, (f'{stretch.name} has no {name} at {len(lost)} of its {len(drawn)} points: '
                                 f'{lost[0]} names no {name} ({listed(name, text.count(name))})')


def grid_losses(text):
    x, z = sides(text)
    if text.count('height') > x * z:
        yield text.line_number('height'), f"{entries_of('height', text.count('height'))} for the {x * z} points of the grid"
    for name in ATTRIBUTES:
        per_vertex = text.fields.get(name + 'PerVertex', True)
        needed = x * z if per_vertex else (x - 1) * (z - 1)
        count = text.count(name)
        if text.name(name) in text.fields and count < needed:
            what = 'points' if per_vertex else 'quads'
            yield text.line_number(name), f'{entries_of(text.name(name), count)} for the {needed} {what} of the grid'


def nearly_closes(values):
    """Whether the last of more than two points lies beside the first and is not the same, as a computed ring's may."""
    apart = [abs(a - b) for a, b in zip(values[:2], values[-2:])]
    extent = max(max(values[k::2]) - min(values[k::2]) for k in (0, 1))
    return 4 < len(values) and 0 < max(apart) <= extent / 1000


def extrusion_losses(text):
    if nearly_closes(text.values('crossSection')):
        yield (text.line_number('crossSection'),
               'crossSection ends beside its first point and does not close: write the last point as the first')
    rings = text.count('spine')
    for name in ('scale', 'orientation'):
        if 1 < text.count(name) < rings:
            has = entries_of(name, text.count(name))
            yield text.line_number(name), f'{has} for {rings} spine points: the first serves for the rest'
    for name in ('beginCap', 'endCap'):
        if text.fields.get(name) and cap_corners(text) == 0:
            yield text.line_number(name), f'{name} is not drawn: crossSection has fewer than 3 corners'


def points_losses(text):
    """Of a PointSet (FORMAT 17.5)."""
    count, colours = text.count('point'), text.count('color')
    if count == 0:
        yield text.line_number('point'), 'nothing is drawn: point has no entries'
    if text.name('color') in text.fields and colours < count:
        has = entries_of(text.name('color'), colours)
        yield text.line_number('color'), f'{has} for {count} points: the colours are left out whole'


def part_losses(text):
    """Of a box, sphere, cylinder or cone (FORMAT 17.2)."""
    for name, defaults in SIZES.items():
        for value, default in zip(text.fields.get(name, []), defaults):
            if not value > 0:
                yield text.line_number(name), f'{name} has {value:g}, which is not above 0: {default:g} is taken'
    for name, (least, most) in RANGES.items():
        value = text.fields.get(name, least)
        if not least <= value <= most:
            yield text.line_number(name), f'{name} {value} is held to {least if value < least else most}'
    surfaces = SURFACES[text.kind]
    if surfaces and not any(text.fields.get(name, True) for name in surfaces):
        yield text.line_number('shape'), f"nothing is drawn: {', '.join(surfaces)} are FALSE"
