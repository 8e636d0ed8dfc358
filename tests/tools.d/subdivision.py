"""Tests of examples/subdivision: each scheme against a plain implementation with fractions of its points, the counts of
its cells, and its lines against the lines of single applications that they stand for."""
import itertools
import math
import tempfile
from collections.abc import Iterator
from pathlib import Path
from typing import NamedTuple

from gmr import maps
from gmr.program import answer

FOLDER = Path(__file__).resolve().parents[2] / "examples" / "subdivision"
BOOK = FOLDER / "subdivision.gbook"
NEAR = 2  # quotients are rounded down, also those of quotients: so far apart a point may be after a round
Point = tuple[float, ...]


class Surface(NamedTuple):
    """A closed surface: points, and faces as cycles of their numbers."""
    points: list[Point]
    faces: list[tuple[int, ...]]

    def mean(self, numbers) -> Point:
        """The mean of some points."""
        chosen = [self.points[number] for number in numbers]
        return tuple(sum(parts) / len(chosen) for parts in zip(*chosen))

    def edges(self) -> dict[frozenset, list[int]]:
        """Each edge by its ends, with its two faces."""
        edges: dict[frozenset, list[int]] = {}
        for number, face in enumerate(self.faces):
            for pair in zip(face, face[1:] + face[:1]):
                edges.setdefault(frozenset(pair), []).append(number)
        return edges

    def around(self) -> list[tuple[set[int], list[int]]]:
        """Each vertex's neighbours, and the faces at it."""
        around: list[tuple[set[int], list[int]]] = [(set(), []) for _ in self.points]
        for number, face in enumerate(self.faces):
            for before, here, after in corners(face):
                around[here][0].update((before, after))
                around[here][1].append(number)
        return around


def mix(*parts: tuple[float, Point]) -> Point:
    """A sum of points by their weights."""
    return tuple(sum(weight * value for (weight, _), value in zip(parts, values))
                 for values in zip(*(point for _, point in parts)))


def corners(face: tuple[int, ...]) -> Iterator[tuple[int, int, int]]:
    """Each corner of a face, between the one before it and the one after it."""
    return zip(face[-1:] + face[:-1], face, face[1:] + face[:1])


def catmull_clark(old: Surface) -> Surface:
    """A round of Catmull and Clark's scheme."""
    edges, size = old.edges(), len(old.points)
    middles = [old.mean(face) for face in old.faces]
    points = []
    for point, (near, faces) in zip(old.points, old.around()):
        count = len(near)
        points.append(mix(((count - 2) / count, point), (1 / count, old.mean(near)),
                          *((1 / count**2, middles[face]) for face in faces)))
    points += middles
    at = {edge: size + len(middles) + number for number, edge in enumerate(edges)}
    points += [mix((0.5, old.mean(edge)), *((0.25, middles[face]) for face in faces)) for edge, faces in edges.items()]
    faces = [(size + number, at[frozenset((before, here))], here, at[frozenset((here, after))])
             for number, face in enumerate(old.faces) for before, here, after in corners(face)]
    return Surface(points, faces)


def loop(old: Surface) -> Surface:
    """A round of Loop's scheme."""
    edges, size = old.edges(), len(old.points)
    at = {edge: size + number for number, edge in enumerate(edges)}
    points = []
    for point, (near, _) in zip(old.points, old.around()):
        share = 9 / 16 if len(near) == 3 else 3 / 8
        points.append(mix((1 - share, point), (share, old.mean(near))))
    for edge, faces in edges.items():
        across = [number for face in faces for number in old.faces[face] if number not in edge]
        points.append(mix((0.75, old.mean(edge)), (0.25, old.mean(across))))
    faces = []
    for face in old.faces:
        faces.append(tuple(at[frozenset(pair)] for pair in zip(face, face[1:] + face[:1])))
        faces += [(at[frozenset((before, here))], here, at[frozenset((here, after))])
                  for before, here, after in corners(face)]
    return Surface(points, faces)


def root3(old: Surface) -> Surface:
    """A round of the scheme of the root of three."""
    size, points = len(old.points), []
    for point, (near, _) in zip(old.points, old.around()):
        share = (4 - 2 * math.cos(2 * math.pi / len(near))) / 9
        points.append(mix((1 - share, point), (share, old.mean(near))))
    points += [old.mean(face) for face in old.faces]
    faces = [(end, size + one, size + other) for edge, (one, other) in old.edges().items() for end in edge]
    return Surface(points, faces)


def doo_sabin(old: Surface) -> Surface:
    """A round of Doo and Sabin's scheme."""
    at = {corner: number for number, corner in enumerate(
        (vertex, face) for face, vertices in enumerate(old.faces) for vertex in vertices)}
    points = [mix((0.5, old.points[here]), (0.125, old.points[before]), (0.125, old.points[after]),
                  (0.25, old.mean(face))) for face in old.faces for before, here, after in corners(face)]
    faces = [tuple(at[vertex, number] for vertex in face) for number, face in enumerate(old.faces)]
    for edge, (one, other) in old.edges().items():
        begin, end = edge
        faces.append((at[begin, one], at[end, one], at[end, other], at[begin, other]))
    for vertex, (_, around) in enumerate(old.around()):
        faces.append(tuple(at[vertex, face] for face in around))  # in no order around the vertex
    return Surface(points, faces)


SCHEMES = {"catmull_clark": catmull_clark, "doo_sabin": doo_sabin, "loop": loop, "root3": root3}
COUNTS = {  # vertices, edges and faces after a round, of those before it
    "catmull_clark": lambda v, e, f: (v + e + f, 4 * e, 2 * e),
    "doo_sabin": lambda v, e, f: (2 * e, 4 * e, v + e + f),
    "loop": lambda v, e, f: (v + e, 2 * e + 3 * f, 4 * f),
    "root3": lambda v, e, f: (v + f, e + 3 * f, 3 * f)}


def surface_of(stored: maps.Map) -> Surface:
    """The surface that a map is, each vertex a number, each face the cycle of its corners."""
    number, points = {}, []
    for orbit in stored.orbits((1, 2)):
        number.update(dict.fromkeys(orbit, len(points)))
        points.append(stored.values["pos"][orbit[0]])
    faces = []
    for orbit in stored.orbits((0, 1)):
        dart, face = orbit[0], []
        while not face or dart != orbit[0]:
            face.append(number[dart])
            dart = stored.alpha[1][stored.alpha[0][dart]]
        faces.append(tuple(face))
    return Surface(points, faces)


def differences(found: Surface, wanted: Surface) -> list[str]:
    """What differs between two surfaces: points further apart than roundings, and faces of other corners."""
    same: dict[int, int] = {}
    for number, point in enumerate(found.points):
        nearest = min(range(len(wanted.points)), key=lambda other: math.dist(point, wanted.points[other]))
        if max(abs(one - other) for one, other in zip(point, wanted.points[nearest])) > NEAR:
            return [f"{point} where {wanted.points[nearest]} is the nearest"]
        same[number] = nearest
    if sorted(same.values()) != list(range(len(wanted.points))):
        return [f"{len(found.points)} points where {len(wanted.points)} are wanted"]
    one = sorted(sorted(same[number] for number in face) for face in found.faces)
    other = sorted(sorted(face) for face in wanted.faces)
    return [] if one == other else ["faces"]


def lines_of(path: Path) -> list[str]:
    """The lines of a script, without remarks."""
    return [line for line in path.read_text(encoding="utf-8").splitlines() if line and not line.startswith("#")]


def run(stored: Path, script: str) -> tuple[int, str, bytes]:
    """The status of a run, its report, and what it saves."""
    with tempfile.TemporaryDirectory() as folder:
        lines, out = Path(folder, "script"), Path(folder, "out")
        lines.write_text(script, encoding="utf-8")
        status, printed = answer("run", stored, BOOK, lines, out)
        assert out.exists(), printed
        return status, printed, out.read_bytes()


def cells_of(path: Path) -> tuple[int, ...]:
    """The numbers of vertices, edges and faces, as the program counts them, on a surface in one piece."""
    lines = answer("cells", path)[1].splitlines()
    assert "components 1" in lines and "free 2 0" in lines and "orientable yes" in lines
    return tuple(int(line.split()[2]) for line in lines if line.startswith("cells "))


def cases(folder: Path) -> Iterator[tuple[str, Path]]:
    """Each scheme with each map that it is for, saved in the folder."""
    _, _, triangles = run(FOLDER / "cube.gmap", (FOLDER / "triangulate.gscript").read_text(encoding="utf-8"))
    cube = folder / "cube_of_triangles"
    cube.write_bytes(triangles)
    for scheme in SCHEMES:
        yield scheme, cube if scheme in ("loop", "root3") else FOLDER / "cube.gmap"
        yield scheme, FOLDER / "icosahedron.gmap"


def rounds(scheme: str) -> list[str]:
    """The two rounds of a scheme's script, which are the same."""
    lines = lines_of(FOLDER / f"{scheme}.gscript")
    one, two = lines[: len(lines) // 2], lines[len(lines) // 2:]
    assert one == two
    return ["\n".join(one) + "\n"] * 2


def test_schemes_make_the_points_the_faces_and_the_counts_of_plain_ones():
    with tempfile.TemporaryDirectory() as name:
        for scheme, start in cases(Path(name)):
            stored, plain, cells = start, surface_of(maps.load_map(start)), cells_of(start)
            for number, script in enumerate(rounds(scheme)):
                status, printed, saved = run(stored, script)
                stored = Path(name, f"{scheme}_{number}")
                stored.write_bytes(saved)
                plain, case = SCHEMES[scheme](plain), (scheme, start.name, number)
                assert status == 0, (case, printed)
                wanted, cells = COUNTS[scheme](*cells), cells_of(stored)
                assert cells == wanted, (case, cells)
                assert cells[0] - cells[1] + cells[2] == 2, case
                made = surface_of(maps.load_map(stored))
                differing = differences(made, plain)
                assert not differing, (case, differing)
                plain = made
            whole = run(start, (FOLDER / f"{scheme}.gscript").read_text(encoding="utf-8"))[2]
            assert whole == stored.read_bytes(), (scheme, start.name)


def test_a_line_saves_what_its_single_applications_save():
    with tempfile.TemporaryDirectory() as name:
        for scheme, start in cases(Path(name)):
            stored = start
            for line in itertools.chain.from_iterable(script.splitlines() for script in rounds(scheme)):
                labels, rule = line.removeprefix("each <").split("> ")
                orbits = maps.load_map(stored).orbits(tuple(map(int, labels.split())))
                singles = "".join(f"apply {rule} {orbit[0]}\n" for orbit in orbits)
                _, printed, saved = run(stored, line)
                _, single_put, single_saved = run(stored, singles)
                case = (scheme, start.name, line)
                assert saved == single_saved, case
                passed = single_put.count(" refused no-dart hook 0\n")
                assert printed.splitlines()[0] == (f"1 each {rule} done {len(orbits) - passed} refused 0 "
                                               f"passed {passed}"), (case, printed)
                stored = Path(name, "next")
                stored.write_bytes(saved)
