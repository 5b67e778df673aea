"""Open edges of a mesh, for mesh.py. NOT PROVED.

An edge joins two points and is named by their numbers, the sources of its vertices (docs/FORMAT.md 1). It is open where
the triangles do not go along it as often one way as the other; a mesh without an open edge is closed.
"""


def triangles(mesh):
    """The triangles, each as its three points' numbers."""
    return [[mesh.sources[v] for v in shape] for shape in mesh.shapes if len(shape) == 3]


def placed(mesh):
    """The triangles, each as its three places; a place is the same whatever the sign of a zero."""
    return [[tuple(x + 0.0 for x in mesh.points[v]) for v in shape] for shape in mesh.shapes if len(shape) == 3]


def ways(faces):
    """Of each edge, lower number first, how often the way round a face goes along it: there, and back."""
    found = {}
    for face in faces:
        for p, q in zip(face, face[1:] + face[:1]):
            if p != q:  # from a point to itself is no edge
                found.setdefault((min(p, q), max(p, q)), [0, 0])[p > q] += 1
    return found


def open_edges(found):
    """The open ones of these, in the order of their points."""
    return sorted((edge, counts) for edge, counts in found.items() if counts[0] != counts[1])


def line(edge, counts):
    return f'edge {edge[0]} {edge[1]}: {counts[0]} there, {counts[1]} back'


def verdict(name, mesh):
    """Whether the mesh is closed, and the lines that say so."""
    faces = triangles(mesh)
    found = ways(faces)
    rims = open_edges(found)
    edges = f"{len(found)} edge{'s' * (len(found) != 1)}"
    if not faces:
        return False, [f'{name}: no triangles']
    if not rims:
        return True, [f'{name}: closed, {edges}']
    lines = [f'{name}: open at {len(rims)} of {edges}'] + [line(*rim) for rim in rims]
    if not open_edges(ways(placed(mesh))):
        lines.append(f'{name}: closed if points at one place are taken for one')
    elif mesh.sources == list(range(len(mesh.sources))):
        lines.append(f'{name}: of a part it cannot be asked, since its vertices are not joined')
    return False, lines
