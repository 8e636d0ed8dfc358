"""Walks of many orbits at once by arrays, in the order in which one alone is walked, and what is alike within them."""
from collections.abc import Sequence

import numpy as np
from numpy.typing import NDArray

Rows = NDArray[np.int64]
Bools = NDArray[np.bool_]


def walk_orbits(steps: Sequence[Rows], firsts: Rows) -> tuple[Rows, Rows]:
    """The rows of the orbits over the steps from their first rows on, one after another, and how many each has: the
    first new one by place, then by step, as `maps.walk` goes."""
    seen = np.zeros(len(steps[0]) if len(steps) else int(firsts.max(initial=0)) + 1, bool)
    rows, owners = [firsts], [np.arange(len(firsts))]
    seen[firsts] = True
    while len(rows[-1]):
        near = np.stack([step[rows[-1]] for step in steps], axis=1).ravel() if len(steps) else rows[-1][:0]
        owner = np.repeat(owners[-1], len(steps))
        is_new = ~seen[near]
        near, owner = near[is_new], owner[is_new]
        place = np.sort(np.unique(near, return_index=True)[1])
        rows.append(near[place])
        owners.append(owner[place])
        seen[rows[-1]] = True
    return gather(rows, owners, len(firsts))


def walk_rims(along: Rows, around: Rows, firsts: Rows) -> tuple[Rows, Rows]:
    """The rows round closed faces from their first rows on, along 0 and 1 by turns, one after another, and how many
    each has."""
    rows, owners = [firsts], [np.arange(len(firsts))]
    while len(rows[-1]):
        other = along[rows[-1]]
        following = around[other]
        goes_on = following != firsts[owners[-1]]
        rows += [other, following[goes_on]]
        owners += [owners[-1], owners[-1][goes_on]]
    return gather(rows, owners, len(firsts))


def gather(rows: list[Rows], owners: list[Rows], count: int) -> tuple[Rows, Rows]:
    """Rows by their owners, in the order in which they were found, and how many each owner has."""
    owner = np.concatenate(owners)
    return np.concatenate(rows)[np.argsort(owner, kind="stable")], np.bincount(owner, minlength=count)


def first_of_each(owners: Rows, least: Rows) -> Bools:
    """Which rows are the first ones of their owner with this least row of an orbit."""
    keys = owners * (int(least.max(initial=0)) + 1) + least
    found = np.zeros(len(keys), bool)
    found[np.unique(keys, return_index=True)[1]] = True
    return found
