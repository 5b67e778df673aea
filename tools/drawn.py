#!/usr/bin/env python3
"""Tests the warnings of block.py against the program, NOT PROVED: python3 tools/drawn.py target/bin/sitemesh

Of sets made up at random, sitemesh has to draw the whole of each run that is not warned of and nothing of one that is
said not to be drawn, and to give white, which it passes for a missing colour, just where a warning says so. In a
triangle or quad set a triangle or quad stands for the run. The edges of what is drawn have to be open just as those
round the faces that it is drawn for.
"""
import random
import re
import subprocess
import sys

sys.dont_write_bytecode = True
import block
import closure
import files
import losses
import mesh

TEXTS = 400
WARNING = re.compile(r'run (\d+) (is not drawn|is broken|has no color)')
PART = re.compile(r'(?:(\d+) of the \d+ triangles of )?((?:run|triangle|quad) \d+|the last \w+) '
                  r'(is not drawn|are not drawn|has no color)')
chance = random.Random(14)


def indices(count, names):
    """An index list with ends of runs, a value below -1 here and there, and names beyond the last."""
    def entry():
        kind = chance.random()
        return -chance.choice((1, 1, 1, 1, 7)) if kind < 0.2 else chance.randrange(names + (2 if kind > 0.9 else 0))
    return [entry() for _ in range(count)]


def sides(kind):
    """Which side is the front of a face, and how one is cut."""
    flags = {'IndexedFaceSet': ('ccw', 'convex'), 'IndexedLineSet': ()}.get(kind, ('ccw',))
    return [f'{flag} ' + chance.choice(('TRUE', 'FALSE')) for flag in flags]


def some_text():
    """The lines of a text; none of its colours is white."""
    points, colours, entries = chance.randrange(1, 9), chance.randrange(1, 11), chance.randrange(24)
    coordinates, numbers = indices(entries, points), []
    if chance.random() < 0.6:
        numbers = indices(chance.randrange(entries + 2), colours)
    kind = chance.choice(('IndexedFaceSet', 'IndexedLineSet'))
    lines = ['shape ' + kind, *sides(kind), 'point']
    lines += [f'{k} {k * k} {k * k * k}' for k in range(points)]
    lines += ['coordIndex'] + [str(entry) for entry in coordinates] + ['color'] + ['0.5 0.5 0.5'] * colours
    return lines + ['colorPerVertex ' + chance.choice(('TRUE', 'FALSE')), 'colorIndex ' + ' '.join(map(str, numbers))]


def some_primitives():
    """The same of a triangle, fan, strip or quad set."""
    points, colours = chance.randrange(1, 9), chance.randrange(1, 11)
    kind = chance.choice(list(losses.PRIMITIVES))
    lines = ['shape ' + kind, *sides(kind), 'point']
    lines += [f'{k} {k * k} {k * k * k}' for k in range(points)]
    lines += ['index'] + [str(entry) for entry in indices(chance.randrange(24), points)]
    return lines + ['color'] + ['0.5 0.5 0.5'] * colours


def printed(program, made):
    try:
        answer = subprocess.run([program], input=made, stdout=subprocess.PIPE, check=True).stdout
    except OSError as fault:
        raise files.Fault(f'{program}: {fault.strerror}') from None
    return mesh.read(answer.decode().splitlines())


def drawn_count(text, run, said):
    """How many triangles or lines the run has, by the warnings."""
    if 'is not drawn' in said:
        return 0
    if 'is broken' in said:
        return len(losses.lines(run, text.count('point')))
    return len(run.entries) - (2 if text.kind == 'IndexedFaceSet' else 1)


def is_right(text, found):
    """Whether the mesh is what the warnings say."""
    said = [WARNING.match(what) for _, what in losses.warnings(text)]
    said = {(int(match[1]), match[2]) for match in said if match}
    start, right = 0, True
    for run in losses.runs(text):
        of_run = {what for number, what in said if number == run.number}
        shapes = found.shapes[start:start + drawn_count(text, run, of_run)]
        start += drawn_count(text, run, of_run)
        white = any(found.parts['c'][v] == mesh.MISSING['c'] for shape in shapes for v in shape)
        # What is broken off a line may lack a colour too, and is not seen.
        right_colour = white == ('has no color' in of_run) or (not white and 'is broken' in of_run)
        right = right and right_colour and bool(shapes) == ('is not drawn' not in of_run)
    return right and start == len(found.shapes)


def are_right(text, found):
    """The same of a triangle, fan, strip or quad set, stretch by stretch."""
    said = [PART.match(what) for _, what in losses.warnings(text)]
    start, right = 0, True
    for stretch in losses.stretches(text):
        of_stretch = [match for match in said if match and match[2] == stretch.name]
        lost = [int(match[1] or len(stretch.parts)) for match in of_stretch if 'not drawn' in match[3]]
        drawn = (len(stretch.parts) - sum(lost)) * (2 if text.kind == 'IndexedQuadSet' else 1)
        shapes, start = found.shapes[start:start + drawn], start + drawn
        white = any(found.parts['c'][v] == mesh.MISSING['c'] for shape in shapes for v in shape)
        right = right and len(shapes) == drawn and white == any('no color' in match[3] for match in of_stretch)
    return right and start == len(found.shapes)


def faces(text):
    """The kept faces (FORMAT 6.2, 6.4), each as the points round it, the other way where ccw is off (12.1)."""
    if text.kind in losses.PRIMITIVES:
        kept = [part for stretch in losses.stretches(text) for part in stretch.parts if losses.is_whole(text, part)]
    else:
        kept = [run for run in losses.runs(text) if losses.is_kept(run, text.count('point'))]
    found = [list(face.entries) for face in kept]
    if text.kind == 'IndexedTriangleStripSet':
        found = [[b, a, c] if part.number % 2 else [a, b, c] for part, (a, b, c) in zip(kept, found)]
    return found if text.fields['ccw'] else [face[::-1] for face in found]


def is_as_open(text, found):
    """Whether the mesh has at each edge as many ways there less back as the faces have."""
    less = [{edge: there - back for edge, (there, back) in closure.open_edges(closure.ways(listed))}
            for listed in (closure.triangles(found), faces(text))]
    return less[0] == less[1]


def main(program='target/bin/sitemesh'):
    for _ in range(TEXTS):
        lines = chance.choice((some_text, some_primitives))()
        text = block.Text(lines)
        fits = are_right if text.kind in losses.PRIMITIVES else is_right
        found = printed(program, block.block(text))
        if not fits(text, found) or not (found.unlit or is_as_open(text, found)):
            print('not what is drawn:', *losses.warnings(text), *lines, sep='\n')
            return 1
    return 0


if __name__ == '__main__':
    sys.exit(files.status('drawn.py', lambda: main(*sys.argv[1:])))
