"""Cadzvigu for Python: nearest marked cells and exact distances over numpy arrays.

An array of marks has the shape (nz, ny, nx), or (ny, nx) for a flat grid, and is of bool or uint8; whatever is not 0 is marked.
Spacings are those of the axes x, y and z, in this order. Needs numpy, and the shared library that capi/build.sh writes to
target/capi; the variable CADZVIGU_LIBRARY may name it elsewhere.
"""
import ctypes
import os

import numpy as np

RULES = {'square': 1, 'block': 2, 'chess': 3}

QUESTIONS = {
    1: 'a size is not from 1 to 1,023',
    2: 'there are more than 16,777,216 cells',
    6: 'no cell is marked',
    11: 'a spacing is not from 1 to 10,000',
    12: 'there is not one byte for each cell',
    13: 'a size is above 512, so the half-grid is too wide',
    14: 'there is not one entry of an output for each cell',
    15: 'there are not both marked and unmarked cells',
    100: 'no rule has that number',
    101: 'there is not enough memory for the cells',
}


class Refused(Exception):
    """A call was refused: `number` is its status, `text` says why."""

    def __init__(self, number):
        self.number = number
        self.text = QUESTIONS.get(number, 'an unknown status')
        super().__init__(f'{self.text} ({self.number})')


def _load():
    here = os.path.dirname(os.path.abspath(__file__))
    path = os.environ.get('CADZVIGU_LIBRARY') or os.path.join(here, '..', 'target', 'capi', 'libcadzvigu.so')
    library = ctypes.CDLL(path)
    head = [ctypes.c_uint32] * 7
    array = [ctypes.c_void_p, ctypes.c_size_t]
    library.cadzvigu_nearest.argtypes = head + 3 * array
    library.cadzvigu_nearest.restype = ctypes.c_uint32
    library.cadzvigu_signed.argtypes = head + 2 * array
    library.cadzvigu_signed.restype = ctypes.c_uint32
    return library


library = _load()


def words(*numbers):
    """The numbers, each of which has to fit 32 bits: ctypes would cut it silently."""
    for n in numbers:
        if not 0 <= n <= 0xFFFF_FFFF:
            raise OverflowError(f'{n} does not fit 32 bits')
    return [int(n) for n in numbers]


def lent(array):
    """An array as the library takes it: a pointer and a length. It is contiguous, or this is a mistake here."""
    assert array.flags.c_contiguous
    return [array.ctypes.data, array.size]


def _asked(marks, spacings, rule):
    """The marks as bytes, and the numbers that each call begins with."""
    marks = np.asarray(marks)
    if marks.dtype not in (np.bool_, np.uint8) or marks.ndim not in (2, 3):
        raise TypeError('marks are an array of bool or uint8 with two or three axes')
    if isinstance(rule, str) and rule not in RULES:
        raise ValueError(f'no rule is named {rule}')
    nz, ny, nx = marks.shape if marks.ndim == 3 else (1,) + marks.shape
    sx, sy, sz = spacings
    return np.ascontiguousarray(marks).view(np.uint8), words(RULES.get(rule, rule), sx, sy, sz, nx, ny, nz)


def nearest(marks, spacings=(1, 1, 1), rule='square'):
    """For each cell the distance of a nearest marked cell (its square under the square rule), and that cell's number.

    The number of the cell at (x, y, z) is x + nx * (y + ny * z), so `numpy.unravel_index(points, marks.shape)` gives the places.
    Raises `Refused` where the library refuses.
    """
    bytes_, head = _asked(marks, spacings, rule)
    values = np.empty(bytes_.shape, np.uint64)
    points = np.empty(bytes_.shape, np.uint32)
    status = library.cadzvigu_nearest(*head, *lent(bytes_), *lent(values), *lent(points))
    if status != 0:
        raise Refused(status)
    return values, points


def signed(marks, spacings=(1, 1, 1), rule='square'):
    """For each cell its distance from the nearest face between a marked and an unmarked cell, negated on marked cells.

    A spacing is that of one half step. Raises `Refused` where the library refuses.
    """
    bytes_, head = _asked(marks, spacings, rule)
    numbers = np.empty(bytes_.shape, np.int64)
    status = library.cadzvigu_signed(*head, *lent(bytes_), *lent(numbers))
    if status != 0:
        raise Refused(status)
    return numbers
