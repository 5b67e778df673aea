"""Scenes for mesh.py: a list of meshes, each moved to its place. NOT PROVED."""
import math
import os

import block
from block import LineFault
from files import shown

FIELDS = {'rotation': 4, 'translation': 3, 'color': 3}


def value(word, line, is_angle):
    """A number; an angle is in radians, or in degrees where the word ends in 'deg'."""
    if is_angle and word.endswith('deg'):
        return block.real(word[:-3], line, math.pi / 180)
    return block.real(word, line)


class Placed:
    """A line of a scene: the mesh's file, and its fields."""

    def __init__(self, line, folder):
        self.file = os.path.join(folder, line.take_name())
        self.fields = {}
        while line.words:
            self.field(line.words.pop(0), line)

    def field(self, name, line):
        if name not in FIELDS:
            raise LineFault(line, f"'{shown(name)}' is not one of {', '.join(FIELDS)}")
        if name in self.fields:
            raise LineFault(line, f'{name} is given twice')
        words, line.words = line.words[:FIELDS[name]], line.words[FIELDS[name]:]
        if len(words) != FIELDS[name]:
            raise LineFault(line, f'{name} has {FIELDS[name]} values')
        self.fields[name] = [value(word, line, name == 'rotation' and k == 3) for k, word in enumerate(words)]
        if name == 'rotation' and not any(self.fields[name][:3]):
            raise LineFault(line, 'rotation has no axis')

    def place(self, mesh):
        """Moves the mesh."""
        turn = turning(*self.fields.get('rotation', [0, 1, 0, 0]))
        move = self.fields.get('translation', [0, 0, 0])
        mesh.points = [[x + d for x, d in zip(turn(p), move)] for p in mesh.points]
        mesh.parts['n'] = [turn(n) for n in mesh.parts['n']]
        mesh.colour = self.fields.get('color')


def turning(x, y, z, angle):
    """A rotation about an axis, as a function of a vector."""
    size, s, c = math.sqrt(x * x + y * y + z * z), math.sin(angle), math.cos(angle)
    x, y, z = x / size, y / size, z / size
    rows = [(c + x * x * (1 - c), x * y * (1 - c) - z * s, x * z * (1 - c) + y * s),
            (y * x * (1 - c) + z * s, c + y * y * (1 - c), y * z * (1 - c) - x * s),
            (z * x * (1 - c) - y * s, z * y * (1 - c) + x * s, c + z * z * (1 - c))]
    return lambda p: [sum(a * b for a, b in zip(row, p)) for row in rows]


def is_scene(lines):
    return bool(lines) and lines[0].split() == ['scene']


def read(lines, folder):
    """The meshes of a scene."""
    found = [block.Line(at, content) for at, content in enumerate(lines[1:], 2)]
    return [Placed(line, folder) for line in found if line.words]
