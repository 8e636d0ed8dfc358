"""How maps are arranged in a picture: side by side, or one below another, whichever is shown larger on a page."""
from collections.abc import Sequence
from typing import NamedTuple

WIDE, HIGH = 1600, 1200  # pixels of a page
MARGIN, BESIDE, BELOW = 16, 44, 14  # pixels round maps, and between them

Box = tuple[complex, complex]  # the least and the greatest coordinates of a map


class Page(NamedTuple):
    """By which way each map is moved, where it begins below its title, how large letters of titles and legend are, how
    far the picture reaches, and by which share of its size it fits a page, at most 1."""

    corners: list[complex]
    tops: list[float]
    size: float
    end: complex
    share: float


def page_of(boxes: Sequence[Box], has_titles: bool) -> Page:
    """The page on which maps are shown largest: side by side in one frame from above to below, or one below another in
    one frame from left to right, or where that is too wide each by itself."""
    pages = [beside(boxes, has_titles)]
    if len(boxes) > 1:
        pages += [stacked(boxes, has_titles, is_framed) for is_framed in (True, False)]
    return max(pages, key=lambda one: one.share)


def frame_of(boxes: Sequence[Box]) -> Box:
    """The least and the greatest coordinates of maps that lie over each other."""
    low = complex(min(one.real for one, _ in boxes), min(one.imag for one, _ in boxes))
    return low, complex(max(one.real for _, one in boxes), max(one.imag for _, one in boxes))


def letters_of(wide: float) -> float:
    """How many times letters of titles and legend are as large as in a small picture."""
    return max(1.0, wide / 640)


def share_of(end: complex) -> float:
    """By which share a picture fits a page."""
    return min(1.0, WIDE / end.real, HIGH / end.imag)


def beside(boxes: Sequence[Box], has_titles: bool) -> Page:
    """Maps side by side."""
    low, high = frame_of(boxes)
    ends = [float(MARGIN)]
    for one, other in boxes:
        ends.append(ends[-1] + (other - one).real + BESIDE)
    wide = ends[-1] - BESIDE + MARGIN
    size = letters_of(wide)
    head = size * 26 if has_titles else 0
    corners = [complex(at - one.real, MARGIN + head - low.imag) for at, (one, _) in zip(ends, boxes)]
    end = complex(wide, (high - low).imag + head + BELOW + MARGIN + 22 * size)
    return Page(corners, [MARGIN + head] * len(boxes), size, end, share_of(end))


def stacked(boxes: Sequence[Box], has_titles: bool, is_framed: bool) -> Page:
    """Maps one below another."""
    low, high = frame_of(boxes)
    wide = (high - low).real if is_framed else max((other - one).real for one, other in boxes)
    size = letters_of(wide + 2 * MARGIN)
    head = size * 26 if has_titles else 0
    tops = [MARGIN + head]
    for one, other in boxes:
        tops.append(tops[-1] + (other - one).imag + BELOW + head)
    lefts = [low.real if is_framed else one.real for one, _ in boxes]
    corners = [complex(MARGIN - left, top - one.imag) for left, top, (one, _) in zip(lefts, tops, boxes)]
    end = complex(wide + 2 * MARGIN, tops[-1] - head + 22 * size)
    return Page(corners, tops[:-1], size, end, share_of(end))
