#!/usr/bin/env python3
"""Times the library, through its call for C, against what one would use in its place, in one run on the same marks.

usage: bench/peers.py [ROUNDS]     (after: capi/build.sh)

For four grids it times in turns

- cadzvigu_nearest: the whole call, bytes in, values and points out, with the memory for its cells;
- the C++ reference (bench/reference.cpp, g++ -O3): its row pass alone, over cells that are already there;
- SciPy's distance_transform_edt with indices;
- ITK's signed Maurer distance map, squared, on one thread; it names no points;
- OpenCV's precise transform on one thread, for flat grids; it names no points either.

It prints nanoseconds a cell, the median and the least of the rounds, and by the medians the ratio to the reference and how many
times as fast as each peer the library is. The sums of all values have to agree. Then it prints how the library's cost a cell
grows with the grid. It wants numpy; a peer that is not there is named and left out (Debian: python3-numpy python3-scipy
python3-opencv libinsighttoolkit5-dev cmake g++).
"""
import importlib
import os
import statistics
import subprocess
import sys
import time

import numpy as np

HERE = os.path.dirname(os.path.abspath(__file__))
TARGET = os.path.join(HERE, '..', 'target')
BUILT = os.path.join(TARGET, 'peers')
GRIDS = [  # sizes, spacings, seed, marks per mille
    '256 256 256 1 1 1 7 10',
    '256 256 256 2 3 5 7 1',
    '1023 1023 1 1 1 1 7 10',
    '1023 1023 16 1 1 1 7 300',
]
GROWTH = ['64 64 64 1 1 1 7 10', '128 128 128 1 1 1 7 10', '256 256 256 1 1 1 7 10']


class Grid:
    """A grid by its words, with its marks by the reference's generator."""

    def __init__(self, words):
        self.words = words.split()
        nx, ny, nz, sx, sy, sz, seed, per_mille = map(int, self.words)
        self.sizes, self.spacings, self.count = (nx, ny, nz), (sx, sy, sz), nx * ny * nz
        self.marks = generated(self.count, seed, per_mille).reshape(nz, ny, nx)


def generated(count, seed, per_mille):
    """The marks of x -> a * x + c mod 2^64: powers of the step by doubling, then all at once."""
    factors, terms = np.array([6364136223846793005], np.uint64), np.array([1442695040888963407], np.uint64)
    while len(factors) < count:
        factors, terms = (np.concatenate([factors, factors * factors[-1]]), np.concatenate([terms, factors * terms[-1] + terms]))
    x = factors[:count] * np.uint64(seed) + terms[:count]
    return (x >> np.uint64(33)) % np.uint64(1000) < np.uint64(per_mille)


def timed(call):
    start = time.perf_counter()
    result = call()
    return time.perf_counter() - start, result


def library_peer(cadzvigu):
    def run(grid):
        values, points = np.zeros(grid.count, np.uint64), np.zeros(grid.count, np.uint32)
        marks = np.ascontiguousarray(grid.marks).view(np.uint8)
        head = cadzvigu.words(1, *grid.spacings, *grid.sizes)
        arrays = cadzvigu.lent(marks) + cadzvigu.lent(values) + cadzvigu.lent(points)
        seconds, status = timed(lambda: cadzvigu.library.cadzvigu_nearest(*head, *arrays))
        if status != 0:
            sys.exit(f'cadzvigu_nearest answered {status}')
        return seconds, int(values.sum())
    return run


def program_peer(path):
    """A program that writes the sum, and as the last word of a line the seconds."""
    def run(grid):
        done = subprocess.run([path] + grid.words + ['1'], capture_output=True, text=True, check=True)
        return float(done.stderr.split()[-1]), int(done.stdout)
    return run


def scipy_peer(ndimage):
    def run(grid):
        sampling = grid.spacings[::-1]
        unmarked = ~grid.marks
        seconds, (_, near) = timed(lambda: ndimage.distance_transform_edt(unmarked, sampling=sampling, return_indices=True))
        total = 0
        for axis, spacing in enumerate(sampling):
            places = np.arange(grid.marks.shape[axis]).reshape([-1 if d == axis else 1 for d in range(3)])
            total += int(((spacing * (near[axis] - places)) ** 2).sum())
        return seconds, total
    return run


def opencv_peer(cv2):
    cv2.setNumThreads(1)

    def run(grid):
        if grid.sizes[2] != 1 or grid.spacings != (1, 1, 1):
            return None
        unmarked = (~grid.marks[0]).astype(np.uint8)
        seconds, told = timed(lambda: cv2.distanceTransform(unmarked, cv2.DIST_L2, cv2.DIST_MASK_PRECISE))
        return seconds, int(np.rint(told.astype(np.float64) ** 2).sum())
    return run


def built_reference():
    path = os.path.join(BUILT, 'reference')
    subprocess.run(['g++', '-O3', '-o', path, os.path.join(HERE, 'reference.cpp')], check=True)
    return program_peer(path)


def built_itk():
    folder = os.path.join(BUILT, 'itk')
    subprocess.run(['cmake', '-S', HERE, '-B', folder], check=True, capture_output=True)
    subprocess.run(['cmake', '--build', folder], check=True, capture_output=True)
    return program_peer(os.path.join(folder, 'itk_maurer'))


def peers():
    """What is there to time, by name, the library and the reference first."""
    os.makedirs(BUILT, exist_ok=True)
    sys.path.insert(0, os.path.join(HERE, '..', 'capi'))
    makers = {
        'cadzvigu_nearest': lambda: library_peer(importlib.import_module('cadzvigu')),
        'reference, rows alone': built_reference,
        'SciPy with indices': lambda: scipy_peer(importlib.import_module('scipy.ndimage')),
        'ITK, signed Maurer': built_itk,
        'OpenCV, precise': lambda: opencv_peer(importlib.import_module('cv2')),
    }
    there = {}
    for name, make in makers.items():
        try:
            there[name] = make()
        except (ImportError, OSError, subprocess.CalledProcessError) as missing:
            print(f'missing: {name}: {missing}')
    if 'cadzvigu_nearest' not in there:
        sys.exit('target/capi/libcadzvigu.so is not there: run capi/build.sh')
    return there


def in_turns(there, grid, rounds):
    """The nanoseconds a cell of each, by rounds in which they take turns; the sums have to agree."""
    times, sums = {}, {}
    for _ in range(rounds):
        for name, run in there.items():
            done = run(grid)
            if done is not None:
                times.setdefault(name, []).append(done[0] / grid.count * 1e9)
                sums[name] = done[1]
    if len(set(sums.values())) != 1:
        sys.exit(f'the sums differ: {sums}')
    print(f'{" ".join(grid.words)}: the sum of all values is {sums["cadzvigu_nearest"]:,}, for all {len(sums)}')
    return times


def compare(there, grid, rounds):
    times = in_turns(there, grid, rounds)
    own = statistics.median(times['cadzvigu_nearest'])
    for name, all_times in times.items():
        middle = statistics.median(all_times)
        line = f'  {name:22} median {middle:7.2f}, least {min(all_times):7.2f} ns a cell'
        if name == 'cadzvigu_nearest' and 'reference, rows alone' in times:
            line += f'; {middle / statistics.median(times["reference, rows alone"]):.2f} of the reference'
        elif name not in ('cadzvigu_nearest', 'reference, rows alone'):
            line += f'; the library is {middle / own:.2f} times as fast'
        print(line, flush=True)


def growth(there, rounds):
    print('how the cost of a cell grows with the grid: the least of the rounds, in ns')
    speed = os.path.join(HERE, '..', 'crates', 'speed', 'out', 'speed')
    if not os.path.exists(speed):
        print('missing: crates/speed/out/speed, for the axes (in crates/speed: rt run -- $(cat args))')
    for words in GROWTH:
        grid = Grid(words)
        line = f'  {words}: whole call {min(there["cadzvigu_nearest"](grid)[0] for _ in range(rounds)) / grid.count * 1e9:.2f}'
        if os.path.exists(speed):
            done = subprocess.run([speed, 'square'] + grid.words + [str(rounds)], capture_output=True, text=True, check=True)
            rows = [[float(word) for word in row.split()] for row in done.stderr.strip().split('\n')]
            axes = [min(row[axis] for row in rows) / grid.count * 1e9 for axis in range(3)]
            line += f'; rows of x {axes[0]:.2f}, of y {axes[1]:.2f}, of z {axes[2]:.2f}'
        print(line, flush=True)


def main():
    rounds = int(sys.argv[1]) if len(sys.argv) > 1 else 5
    try:
        os.nice(-20)
    except PermissionError:
        pass
    there = peers()
    print('load', *open('/proc/loadavg').read().split()[:3])
    for words in GRIDS:
        compare(there, Grid(words), rounds)
    growth(there, rounds)
    print('load', *open('/proc/loadavg').read().split()[:3])


main()
