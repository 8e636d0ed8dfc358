"""Pictures of maps whose points are in space: their faces in colours and light, as they are seen from somewhere.

Faces that are turned away are left out where nobody can see them, and the others cover what is behind them."""
import math
from collections.abc import Iterator, Sequence
from types import ModuleType
from typing import Any, NamedTuple

from gmr import program
from gmr.distances import Place, corners_from, cross, dot, mean, minus, normal_of, place_of, rim_of, sides_of
from gmr.draw.model import Model, orbits
from gmr.draw.order import back_to_front

FILL, INK = (160, 190, 222), "#1f2933"
LIGHT = (-0.40, 0.55, 0.73)  # from the left, from above and from in front of the picture
BRIGHTNESS = (0.30, 0.59, 0.11)  # of red, green and blue, as eyes see them
GAP, TITLE, MOST_LINES, MOST_NAMES = 0.12, 0.3, 20_000, 50
DOTS, IMAGE_DOTS = 120, 300  # an inch: of a picture of dots, and of an image within a picture of lines
Flat = tuple[float, float]


class View(NamedTuple):
    """How solids are looked at: from how many degrees above and round, with which axis upwards; how far volumes are
    pulled apart and how far one sees through faces, each a share; in how many columns maps stand, and how many inches
    wide; and whether names are written, or None where that depends on their number."""

    above: float = 25
    round: float = -60
    axis: str = "z"
    apart: float = 0
    clear: float = 0
    columns: int = 4
    inches: float = 5
    names: bool | None = None


class Face(NamedTuple):
    """A face as it is drawn: where it stands in the picture, its colour in the light, and its least dart."""

    corners: list[Flat]
    colour: tuple[float, float, float]
    dart: int


class Crowd(NamedTuple):
    """Very many faces as they are drawn, from the back to the front: triangles (rows of three places), the colour of
    each, and how many faces they are."""

    triangles: Any
    colours: Any
    faces: int


class Camera:
    """Turns places in space to places in a picture."""

    def __init__(self, view: View) -> None:
        above, turn = math.radians(view.above), math.radians(view.round)
        toward = (math.cos(above) * math.cos(turn), math.cos(above) * math.sin(turn), math.sin(above))
        right = (-math.sin(turn), math.cos(turn), 0.0)
        self.toward, self.right, self.upward = (lean(way, view.axis) for way in (toward, right, cross(toward, right)))

    def turn(self, way: Place) -> Place:
        """A way as the picture has it: to the right, upwards, and towards the one who looks."""
        return (dot(way, self.right), dot(way, self.upward), dot(way, self.toward))


def lean(way: Place, axis: str) -> Place:
    """A way, turned so that what went along z goes along the axis."""
    x, y, z = way
    return {"x": (z, x, y), "y": (x, z, -y), "z": way}[axis]


def volumes_of(it: Model) -> list[list[int]]:
    """The surfaces of a map that are closed by themselves: components, and volumes in dimension 3."""
    return orbits(sorted(it.alpha[0]), lambda dart, label: it.alpha[label][dart], range(min(it.dimension, 2) + 1))


def polygons_of(it: Model, volume: Sequence[int], view: View) -> Iterator[tuple[int, list[Place], bool]]:
    """The faces round a volume that may be seen: the least dart, the corners, and whether the face is closed off from
    behind, with the corners then in a direction that is left from outside."""
    side, is_closed = sides_of(it.alpha, volume[0])
    points = {dart: place_of(it.points[dart]) for dart in volume}
    if view.apart:
        middle = mean(list(points.values()))
        points = {dart: move(point, middle, view.apart) for dart, point in points.items()}
    faces = [face[0] for face in orbits(volume, lambda dart, label: it.alpha[label][dart], (0, 1))]
    polygons = {dart: corners_from(it.alpha, points, dart, side[dart]) for dart in faces}
    if is_closed and sum(dot(corners[0], normal_of(corners)) for corners in polygons.values()) < 0:
        polygons = {dart: corners[::-1] for dart, corners in polygons.items()}
    for dart, corners in polygons.items():
        if it.dimension < 3 or view.apart or view.clear or it.alpha[3][dart] == dart:
            yield dart, corners, is_closed


def move(point: Place, middle: Place, share: float) -> Place:
    """A point moved by a share of the way to the middle."""
    x, y, z = (one + share * (two - one) for one, two in zip(point, middle))
    return (x, y, z)


def lit(colour: Sequence[float], normal: Place) -> tuple[float, float, float]:
    """A colour from 0 to 255 in the light, as parts from 0 to 1. The normal is as the picture has it."""
    length = math.hypot(*normal) or 1.0
    share = 0.6 + 0.4 * max(0.0, dot(normal, LIGHT) / length)
    red, green, blue = (min(1.0, part / 255 * share) for part in colour)
    return (red, green, blue)


def colour_of(it: Model, dart: int) -> Sequence[float]:
    """The colour of a face, the mean of those of its darts."""
    return mean([it.colours[one] for one in rim_of(it.alpha, dart)]) if it.colours else FILL


def faces_of(it: Model, view: View) -> list[Face]:
    """The faces of a map that may be seen, from the back to the front."""
    camera = Camera(view)
    faces: list[Face] = []
    places: list[list[Place]] = []
    for volume in volumes_of(it):
        for dart, corners, is_closed in polygons_of(it, volume, view):
            turned = [camera.turn(corner) for corner in corners]
            normal = normal_of(turned)
            if is_closed and normal[2] <= 1e-9 * math.hypot(*normal) and not view.clear:
                continue
            facing = normal if normal[2] >= 0 else minus((0.0, 0.0, 0.0), normal)
            faces.append(Face([place[:2] for place in turned], lit(colour_of(it, dart), facing), dart))
            places.append(turned)
    return [faces[at] for at in back_to_front(places)]


def seen_names(faces: Sequence[Face]) -> Iterator[tuple[Flat, Face]]:
    """The faces whose middles are seen, where their names stand, each with that place."""
    path = program.needs("matplotlib.path", "python3-matplotlib")
    middles = [(math.fsum(x for x, _ in face.corners) / len(face.corners),
                math.fsum(y for _, y in face.corners) / len(face.corners)) for face in faces]
    hidden = [False] * len(faces)
    for at, face in enumerate(faces[1:], 1):
        if len(face.corners) > 2:
            covered = path.Path(face.corners).contains_points(middles[:at])
            hidden[:at] = [old or new for old, new in zip(hidden, covered)]
    return ((middle, face) for middle, face, is_hidden in zip(middles, faces, hidden) if not is_hidden)


class Sheet(NamedTuple):
    """A picture's plan: how many columns and rows of cells it has, how wide and how high a cell is and how high the
    faces in it at most, and how long an inch is, all as points are measured."""

    columns: int
    rows: int
    wide: float
    high: float
    reach: float
    inch: float

    def middle(self, at: int) -> Flat:
        """Where the middle of a map stands, by its number."""
        return (at % self.columns + 0.5) * self.wide, -(at // self.columns + 1) * self.high + self.reach / 2


def extent_of(faces: Sequence[Face] | Crowd) -> tuple[float, float, float, float]:
    """From where to where faces reach: to the left, below, to the right and above."""
    if isinstance(faces, Crowd):
        (left, below), (right, top) = faces.triangles.min(axis=(0, 1)), faces.triangles.max(axis=(0, 1))
        return float(left), float(below), float(right), float(top)
    xs, ys = zip(*(corner for face in faces for corner in face.corners)) if faces else ((0.0,), (0.0,))
    return min(xs), min(ys), max(xs), max(ys)


def plan(extents: Sequence[tuple[float, float, float, float]], view: View, has_titles: bool) -> Sheet:
    """The plan of a picture in which maps have these extents."""
    wide = max(right - left for left, _, right, _ in extents) or 1.0
    reach = max(top - below for _, below, _, top in extents) + GAP * wide
    columns = min(view.columns, len(extents))
    inch = wide / view.inches
    high = reach + (TITLE * inch if has_titles else 0)
    return Sheet(columns, -(-len(extents) // columns), wide * (1 + GAP), high, reach, inch)


def draw(models: Sequence[tuple[str | None, Model]], view: View, out: object, form: str) -> None:
    """Draws maps side by side, each under a title or None, into a file in the form svg, png or pdf. They have one
    scale, so that what is larger looks so."""
    for _, it in models:
        if it.dimension == 1 or not it.points and it.alpha[0]:
            raise ValueError("solids are drawn of maps of dimension 2 and 3 with points: a vec2 or vec3 over vertices")
    draw_listed([(title, faces_of(it, view)) for title, it in models], view, out, form)


def draw_listed(drawn: Sequence[tuple[str | None, list[Face] | Crowd]], view: View, out: object, form: str) -> None:
    """Draws the faces of maps, listed from the back to the front. Those of a large map are one image in the picture."""
    pyplot = import_pyplot()
    extents = [extent_of(faces) for _, faces in drawn]
    sheet = plan(extents, view, any(title for title, _ in drawn))
    size = (sheet.columns * sheet.wide, sheet.rows * sheet.high)
    figure = pyplot.figure(figsize=(size[0] / sheet.inch, size[1] / sheet.inch))
    axes = figure.add_axes((0, 0, 1, 1), xlim=(0, size[0]), ylim=(-size[1], 0))
    axes.set_axis_off()
    for at, ((title, faces), (left, below, right, top)) in enumerate(zip(drawn, extents)):
        x, y = sheet.middle(at)
        by = (x - (left + right) / 2, y - (below + top) / 2)
        if isinstance(faces, Crowd):
            draw_crowd(axes, faces, by)
        else:
            draw_faces(axes, faces, by, view)
        if title:
            axes.text(x, y + sheet.reach / 2, title, ha="center", va="center", color=INK, fontsize=12)
    undated = {"svg": {"Date": None}, "pdf": {"CreationDate": None}}.get(form)
    has_image = any(isinstance(faces, Crowd) or len(faces) > MOST_LINES for _, faces in drawn)
    dots = IMAGE_DOTS if has_image and form != "png" else DOTS
    figure.savefig(out, format=form, dpi=dots, facecolor="white", metadata=undated)
    pyplot.close(figure)


def import_pyplot() -> ModuleType:
    """The module that draws, set so that a picture that is drawn again is the same to the byte."""
    matplotlib = program.needs("matplotlib", "python3-matplotlib")
    matplotlib.use("Agg")
    matplotlib.rcParams.update({"svg.hashsalt": "gmr", "svg.fonttype": "none"})
    return program.needs("matplotlib.pyplot", "python3-matplotlib")


def draw_faces(axes: Any, faces: Sequence[Face], by: Flat, view: View) -> None:
    """Draws the faces of one map, moved by a way, with the names that are seen."""
    collections = program.needs("matplotlib.collections", "python3-matplotlib")
    outlines = [[(x + by[0], y + by[1]) for x, y in face.corners] for face in faces]
    fills = [(*face.colour, 1 - view.clear) for face in faces]
    has_lines = len(faces) <= MOST_LINES
    edges = [tuple(0.45 * part for part in face.colour) if has_lines else face.colour for face in faces]
    width = max(0.25, min(1.0, 20 / math.sqrt(len(faces) or 1))) if has_lines else 0.3
    patches = collections.PolyCollection(outlines, facecolors=fills, edgecolors=edges, linewidths=width)
    patches.set_joinstyle("round")
    patches.set_rasterized(not has_lines)
    axes.add_collection(patches)
    if view.names or view.names is None and len(faces) <= MOST_NAMES:
        write_names(axes, faces, by)


def draw_crowd(axes: Any, crowd: Crowd, by: Flat) -> None:
    """Draws very many faces, moved by a way, as one image of triangles: no path is made for each."""
    collections = program.needs("matplotlib.collections", "python3-matplotlib")
    tri = program.needs("matplotlib.tri", "python3-matplotlib")
    places = crowd.triangles.reshape(-1, 2) + by
    corners = tri.Triangulation(places[:, 0], places[:, 1], range_of(len(places)))
    mesh = collections.TriMesh(corners)
    mesh.set_facecolor(crowd.colours.repeat(3, axis=0))
    mesh.set_rasterized(True)
    axes.add_collection(mesh)


def range_of(count: int) -> Any:
    """The numbers of corners, three to a triangle."""
    numpy = program.needs("numpy", "python3-numpy")
    return numpy.arange(count).reshape(-1, 3)


def write_names(axes: Any, faces: Sequence[Face], by: Flat) -> None:
    """Writes the names that are seen, each with a rim of its face's colour so that it is read beyond the face too."""
    effects = program.needs("matplotlib.patheffects", "python3-matplotlib")
    size = max(4.0, min(11.0, 60 / math.sqrt(len(faces) or 1)))
    for (x, y), face in seen_names(faces):
        ink = INK if dot(face.colour, BRIGHTNESS) > 0.45 else "white"
        rim = [effects.withStroke(linewidth=size / 4, foreground=face.colour)]
        place = (x + by[0], y + by[1])
        axes.text(*place, str(face.dart), ha="center", va="center", color=ink, fontsize=size, path_effects=rim)
