#!/usr/bin/env python3
"""Compares the library, as Python calls it, with SciPy and with plain searches on random grids.

usage: capi/compare.py [ROUNDS] [SEED]     (after capi/build.sh; capi/check.sh does both)

Needs numpy and scipy (Debian: python3-numpy, python3-scipy). All comparisons are of whole numbers:

- square rule, spacings 1 to 10,000: each point is marked and exactly at its value, and the value is the squared distance of the
  cell that SciPy's exact Euclidean transform names, worked out from its indices;
- block and chess with spacings 1: SciPy's chamfer transforms, which are exact for these two;
- all rules with spacings on small grids: a search over all pairs of cells;
- signed fields on small grids: a search over all face places of the half-grid;
- every refusal, in the order of the questions, with the arrays as they were.
"""
import resource
import sys

import numpy as np
import scipy
from scipy import ndimage

import cadzvigu
from cadzvigu import RULES, lent, library

counts = {}


def tally(what, n):
    counts[what] = counts.get(what, 0) + int(n)


def expect(right, *words):
    if not right:
        sys.exit('DIFFERS: ' + ' '.join(str(word) for word in words))


def distance(rule, gaps):
    """What a rule makes of the gaps on the axes."""
    gaps = [np.abs(gap) for gap in gaps]
    if rule == 'square':
        return sum(gap * gap for gap in gaps)
    if rule == 'block':
        return sum(gaps)
    return np.maximum(np.maximum(gaps[0], gaps[1]), gaps[2])


def random_marks(dice, most):
    """A volume by chance, with sizes of 1 among them, sparse or dense, and at least one mark."""
    nz, ny, nx = (1 if dice.random() < 0.2 else int(dice.integers(1, most + 1)) for _ in range(3))
    marks = dice.random((nz, ny, nx)) < dice.choice([0.0, 0.001, 0.01, 0.1, 0.5, 0.95])
    marks.flat[dice.integers(marks.size)] = True
    return marks


def random_spacings(dice):
    return tuple(int(s) for s in dice.integers(1, int(dice.choice([1, 7, 100, 10_000])) + 1, 3))


def check_points(marks, spacings, rule, values, points):
    """Every point is marked, and exactly at its value."""
    expect(points.max() < marks.size, 'a point outside the grid', marks.shape)
    expect(marks.flat[points.ravel()].all(), 'a point that is not marked', marks.shape)
    z, y, x = np.indices(marks.shape)
    pz, py, px = np.unravel_index(points, marks.shape)
    sx, sy, sz = spacings
    at = distance(rule, [sx * (x - px), sy * (y - py), sz * (z - pz)])
    expect((at == values.astype(np.int64)).all(), 'a value that is not its point\'s distance', marks.shape, spacings, rule)
    tally('points that are marked and exactly at their value', points.size)


def compare_with_euclid(dice):
    marks, spacings = random_marks(dice, int(dice.choice([6, 40, 90]))), random_spacings(dice)
    values, points = cadzvigu.nearest(marks, spacings)
    check_points(marks, spacings, 'square', values, points)
    sx, sy, sz = spacings
    near = ndimage.distance_transform_edt(~marks, sampling=(sz, sy, sx), return_distances=False, return_indices=True)
    gaps = [s * (here.astype(np.int64) - there) for s, here, there in zip((sz, sy, sx), np.indices(marks.shape), near)]
    expect((distance('square', gaps) == values.astype(np.int64)).all(), 'SciPy, square', marks.shape, spacings)
    tally('values under square, with spacings, equal to SciPy\'s', values.size)


def compare_with_chamfers(dice):
    marks = random_marks(dice, int(dice.choice([6, 40])))
    for rule, metric in (('block', 'taxicab'), ('chess', 'chessboard')):
        values, points = cadzvigu.nearest(marks, rule=rule)
        check_points(marks, (1, 1, 1), rule, values, points)
        told = ndimage.distance_transform_cdt(~marks, metric=metric)
        expect((told == values.astype(np.int64)).all(), 'SciPy,', rule, marks.shape)
        tally('values under block and chess equal to SciPy\'s', values.size)


def places(shape, spacings, doubled=1):
    """The places of the cells, on each axis times its spacing."""
    z, y, x = (axis.ravel().astype(np.int64) * doubled for axis in np.indices(shape))
    return [spacings[0] * x, spacings[1] * y, spacings[2] * z]


def least(rule, cells, others):
    """The least distance of each cell from one of the others."""
    return distance(rule, [c[:, None] - o[None, :] for c, o in zip(cells, others)]).min(axis=1)


def compare_with_search(dice):
    marks, spacings = random_marks(dice, 8), random_spacings(dice)
    cells = places(marks.shape, spacings)
    marked = [axis[marks.ravel()] for axis in cells]
    for rule in RULES:
        values, points = cadzvigu.nearest(marks, spacings, rule)
        check_points(marks, spacings, rule, values, points)
        expect((least(rule, cells, marked) == values.ravel().astype(np.int64)).all(), 'the search,', rule, marks.shape, spacings)
        tally('values under all rules, with spacings, equal to a search', values.size)


def face_places(marks):
    """The face places on the half-grid: the middles of the faces between unlike neighbours, and one step to the sides."""
    half = np.zeros([2 * n - 1 for n in marks.shape], dtype=bool)
    for axis in range(3):
        for here in np.ndindex(marks.shape):
            following = tuple(here[d] + (d == axis) for d in range(3))
            if following[axis] == marks.shape[axis] or marks[here] == marks[following]:
                continue
            middle = [a + b for a, b in zip(here, following)]
            around = [slice(m, m + 1) if d == axis else slice(max(m - 1, 0), m + 2) for d, m in enumerate(middle)]
            half[tuple(around)] = True
    return half


def compare_signed(dice):
    marks, spacings = random_marks(dice, 6), random_spacings(dice)
    if marks.all():
        expect(refused(lambda: cadzvigu.signed(marks, spacings)) == 15, 'only marked cells')
        return
    half = face_places(marks)
    faces = [axis[half.ravel()] for axis in places(half.shape, spacings)]
    for rule in RULES:
        numbers = cadzvigu.signed(marks, spacings, rule)
        told = least(rule, places(marks.shape, spacings, 2), faces).reshape(marks.shape)
        expect((np.where(marks, -told, told) == numbers).all(), 'the search, signed,', rule, marks.shape, spacings)
        tally('signed numbers under all rules equal to a search', numbers.size)


def refused(call):
    try:
        call()
    except cadzvigu.Refused as refusal:
        return refusal.number
    return 0


def status_of(call, head, marks, *outputs):
    """The status of a call of the library itself; unless it is 0 the outputs have to stay as they were."""
    before = [output.copy() for output in outputs]
    status = call(*head, *lent(marks), *(word for output in outputs for word in lent(output)))
    if status != 0:
        expect(all((a == b).all() for a, b in zip(before, outputs)), 'a refused call wrote', head)
    return status


def check_refusals():
    """Each row mends the first fault of the row before it, so that the order of the questions is seen too."""
    none, some, both = (np.zeros(24, np.uint8), np.ones(24, np.uint8), np.arange(24, dtype=np.uint8))
    short, full = np.full(23, 77), np.full(24, 77)
    nearest = [
        (100, (0, 0, 1, 1, 0, 3, 2), none[:5], 23, 24), (100, (4, 0, 1, 1, 0, 3, 2), none[:5], 23, 24),
        (11, (1, 0, 1, 1, 0, 3, 2), none[:5], 23, 24), (11, (1, 1, 10001, 1, 0, 3, 2), none[:5], 23, 24),
        (11, (1, 1, 1, 10001, 0, 3, 2), none[:5], 23, 24), (1, (1, 1, 1, 1, 0, 3, 2), none[:5], 23, 24),
        (1, (1, 1, 1, 1, 4, 1024, 2), none[:5], 23, 24), (2, (1, 1, 1, 1, 1023, 1023, 17), none[:5], 23, 24),
        (12, (1, 1, 1, 1, 4, 3, 2), none[:23], 23, 24), (14, (1, 1, 1, 1, 4, 3, 2), none, 23, 24),
        (14, (1, 1, 1, 1, 4, 3, 2), none, 24, 23), (6, (1, 1, 1, 1, 4, 3, 2), none, 24, 24),
        (0, (1, 1, 1, 1, 4, 3, 2), both, 24, 24), (0, (3, 10000, 1, 1, 4, 3, 2), some, 24, 24),
    ]
    for number, head, marks, values, points in nearest:
        status = status_of(library.cadzvigu_nearest, head, marks, full[:values].astype(np.uint64), full[:points].astype(np.uint32))
        expect(status == number, 'nearest', head, 'answered', status, 'and not', number)
    signed = [
        (100, (9, 0, 1, 1, 0, 3, 2), none[:5], short), (11, (2, 1, 0, 1, 0, 3, 2), none[:5], short),
        (1, (2, 1, 1, 1, 4, 3, 0), none[:5], short), (2, (2, 1, 1, 1, 1023, 1023, 17), none[:5], short),
        (12, (2, 1, 1, 1, 4, 3, 2), none[:5], short), (13, (2, 1, 1, 1, 513, 1, 1), np.zeros(513, np.uint8), short),
        (2, (2, 1, 1, 1, 512, 512, 9), np.zeros(512 * 512 * 9, np.uint8), short),
        (14, (2, 1, 1, 1, 4, 3, 2), none, short), (15, (2, 1, 1, 1, 4, 3, 2), none, full),
        (15, (2, 1, 1, 1, 4, 3, 2), some, full), (0, (2, 1, 1, 1, 4, 3, 2), both, full),
    ]
    for number, head, marks, numbers in signed:
        status = status_of(library.cadzvigu_signed, head, marks, numbers.astype(np.int64))
        expect(status == number, 'signed', head, 'answered', status, 'and not', number)
    tally('statuses, in the order of the questions', len(nearest) + len(signed))


def check_memory():
    """With too little memory for the cells both calls say so, and leave the arrays; last, since it limits this process."""
    marks = np.zeros((256, 256, 256), np.uint8)
    marks[0, 0, 0] = 1
    values, points, numbers = np.full(marks.size, 7, np.uint64), np.full(marks.size, 7, np.uint32), np.full(marks.size // 8, 7, np.int64)
    mapped = int(open('/proc/self/statm').read().split()[0]) * resource.getpagesize()
    limit = mapped + values.nbytes + points.nbytes + 100_000_000  # for the copies that are compared, and not for the cells
    resource.setrlimit(resource.RLIMIT_AS, (limit, limit))
    status = status_of(library.cadzvigu_nearest, (1, 1, 1, 1, 256, 256, 256), marks, values, points)
    expect(status == 101, 'nearest without memory answered', status)
    status = status_of(library.cadzvigu_signed, (1, 1, 1, 1, 256, 256, 32), marks[:32].copy(), numbers)
    expect(status == 101, 'signed without memory answered', status)
    tally('calls without memory for the cells', 2)


def main():
    rounds = int(sys.argv[1]) if len(sys.argv) > 1 else 300
    seed = int(sys.argv[2]) if len(sys.argv) > 2 else 2026
    dice = np.random.default_rng(seed)
    print(f'{rounds} rounds from seed {seed}, SciPy {scipy.__version__}')
    for _ in range(rounds):
        compare_with_euclid(dice)
        compare_with_chamfers(dice)
        compare_with_search(dice)
        compare_signed(dice)
    check_refusals()
    check_memory()
    for what, n in counts.items():
        print(f'{n:>12,} {what}')


main()
