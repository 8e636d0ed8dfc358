"""Places in the plane at which triangles have nearly their shapes, found from places at which none is turned over.

What is made small is the symmetric Dirichlet energy (Smith and Schaefer, Bijective Parameterization with Free
Boundaries, 2015), which is endless where a triangle is turned over, by L-BFGS (Nocedal and Wright, Numerical
Optimization, 7.2) over the Laplacian of the wanted shapes. Arrays of places have a row for each, with x and y."""
from collections import deque
from typing import Any, NamedTuple

import numpy as np
from numpy.typing import NDArray

Floats = NDArray[np.float64]
MOST_FREE = 1500  # free places from which on nothing is settled, since it would take minutes


class Plan(NamedTuple):
    """What is settled: the weights (places x free places) by which places follow those that are free, the triangles as
    rows of three places, the inverse of the wanted shape of each, and what is pulled: rows over free places."""

    follows: Floats
    triangles: NDArray[np.int64]
    shapes: Floats
    pulls: Floats
    goals: Floats
    strengths: Floats


def shape_of(corners: Floats) -> Floats:
    """The inverses of the shapes of triangles (rows of three places)."""
    found: Floats = np.linalg.inv(edges_of(corners))
    return found


def edges_of(corners: Floats) -> Floats:
    """The two edges of each triangle from its first corner, as columns."""
    return np.stack([corners[:, 1] - corners[:, 0], corners[:, 2] - corners[:, 0]], axis=2)


def turns_of(plan: Plan, free: Floats) -> Floats:
    """How each triangle is stretched: its area beside the wanted one, below 0 where it is turned over."""
    found: Floats = np.linalg.det(edges_of((plan.follows @ free)[plan.triangles]) @ plan.shapes)
    return found


def energy_of(plan: Plan, free: Floats) -> tuple[float, Floats]:
    """The energy, which is 0 where all shapes and goals are met, and its slope."""
    bent = edges_of((plan.follows @ free)[plan.triangles]) @ plan.shapes
    area = np.linalg.det(bent)
    if not (area > 1e-9).all():
        return float("inf"), free
    size = (bent * bent).sum(axis=(1, 2))
    off = plan.pulls @ free - plan.goals
    energy = (size * (1 + area**-2.0) - 4).sum() + (plan.strengths * (off * off).sum(axis=1)).sum()
    turned = np.stack([np.stack([bent[:, 1, 1], -bent[:, 1, 0]], 1), np.stack([-bent[:, 0, 1], bent[:, 0, 0]], 1)], 1)
    slope = 2 * bent * (1 + area**-2.0)[:, None, None] - (2 * size * area**-3.0)[:, None, None] * turned
    slope = slope @ plan.shapes.transpose(0, 2, 1)
    places = np.zeros((len(plan.follows), 2))
    np.add.at(places, plan.triangles[:, 1], slope[:, :, 0])
    np.add.at(places, plan.triangles[:, 2], slope[:, :, 1])
    np.add.at(places, plan.triangles[:, 0], -slope.sum(axis=2))
    return float(energy), plan.follows.T @ places + 2 * plan.pulls.T @ (plan.strengths[:, None] * off)


def inverse_of(plan: Plan) -> Floats:
    """The inverse of the energy's second slope where all shapes are met, for one coordinate."""
    ways = np.array([[-1.0, -1.0], [1.0, 0.0], [0.0, 1.0]]) @ plan.shapes
    parts = ways @ ways.transpose(0, 2, 1)
    full = np.zeros((len(plan.follows), len(plan.follows)))
    for one in range(3):
        for two in range(3):
            np.add.at(full, (plan.triangles[:, one], plan.triangles[:, two]), parts[:, one, two])
    second = 4 * plan.follows.T @ full @ plan.follows + 2 * plan.pulls.T @ (plan.strengths[:, None] * plan.pulls)
    found: Floats = np.linalg.inv(second + 1e-3 * np.eye(len(second)))
    return found


def settle(plan: Plan, free: Floats, rounds: int) -> tuple[Floats, float]:
    """The free places after this many rounds at most, and the energy there."""
    energy, slope = energy_of(plan, free)
    if energy == float("inf"):
        return free, energy
    inverse = inverse_of(plan)
    past: deque[tuple[Floats, Floats]] = deque(maxlen=8)
    for _ in range(rounds):
        way = way_down(inverse, slope, past)
        falls = float((way * slope).sum())
        step, tried = 1.0, (float("inf"), slope)
        while step > 1e-8 and not tried[0] <= energy + 1e-4 * step * falls:
            step *= 0.5 if tried[0] < float("inf") or step < 1 else 0.8
            tried = energy_of(plan, free + step * way)
        if step <= 1e-8 or energy - tried[0] < 1e-7 * (1 + energy):
            break
        if (way * (tried[1] - slope)).sum() > 0:
            past.append((step * way, tried[1] - slope))
        free, (energy, slope) = free + step * way, tried
    return free, energy


def way_down(inverse: Floats, slope: Floats, past: Any) -> Floats:
    """The way that L-BFGS goes from here."""
    left, shares = slope.copy(), []
    for moved, change in reversed(past):
        share = (moved * left).sum() / (moved * change).sum()
        shares.append(share)
        left -= share * change
    left = inverse @ left
    for (moved, change), share in zip(past, reversed(shares)):
        left += moved * (share - (change * left).sum() / (moved * change).sum())
    found: Floats = -left
    return found
