#!/usr/bin/env python3
"""Times the pass over all rows of four grids against a C++ reference, in one run.

usage: bench/run.py [ROUNDS]     (after, in crates/speed: rt run -- $(cat args))

In each round the reference and the three rules take their turns, so that whatever else the machine does falls on all of
them alike; where it may, the script raises its priority. For each it prints the median of the seconds of a whole grid, the
least of each axis added up, which noise moves little, and the ratio of both to the reference's. Under the square rule the
sums of all values must agree with the reference's.
"""
import os, statistics, subprocess, sys, tempfile

HERE = os.path.dirname(os.path.abspath(__file__))
SPEED = os.path.join(HERE, '..', 'crates', 'speed', 'out', 'speed')
GRIDS = [  # sizes, spacings, seed, marks per mille, repeats in one turn
    ('256 256 256 1 1 1 7 10', 1),
    ('256 256 256 2 3 5 7 1', 1),
    ('1023 1023 1 1 1 1 7 10', 10),
    ('1023 1023 16 1 1 1 7 300', 1),
]


def seconds(command):
    run = subprocess.run(command, capture_output=True, text=True, check=True)
    return run.stdout.strip(), [[float(word) for word in line.split()] for line in run.stderr.strip().split('\n')]


def summed(times):
    """The median of the whole, and the least of each axis added up."""
    return statistics.median(t[3] for t in times), sum(min(t[axis] for t in times) for axis in range(3))


def main():
    rounds = int(sys.argv[1]) if len(sys.argv) > 1 else 5
    if not os.path.exists(SPEED):
        sys.exit('crates/speed/out/speed is not there: in crates/speed, rt run -- $(cat args)')
    try:
        os.nice(-20)
    except PermissionError:
        pass
    with tempfile.TemporaryDirectory() as folder:
        reference = os.path.join(folder, 'reference')
        subprocess.run(['g++', '-O3', '-o', reference, os.path.join(HERE, 'reference.cpp')], check=True)
        print('load', open('/proc/loadavg').read().split()[:3])
        for grid, repeats in GRIDS:
            words = grid.split() + [str(repeats)]
            commands = {'reference': [reference] + words}
            for rule in ('square', 'block', 'chess'):
                commands[rule] = [SPEED, rule] + words
            times = {name: [] for name in commands}
            sums = {}
            for _ in range(rounds):
                for name, command in commands.items():
                    sums[name], more = seconds(command)
                    times[name] += more
            if sums['square'] != sums['reference']:
                sys.exit(f'{grid}: the sums differ: {sums}')
            middle, least = summed(times['reference'])
            print(f'{grid}: reference median {middle:.4f} s, least {least:.4f} s', flush=True)
            for name in ('square', 'block', 'chess'):
                m, l = summed(times[name])
                print(f'  {name:7} median {m:.4f} s, ratio {m / middle:.3f}; least {l:.4f} s, ratio {l / least:.3f}', flush=True)
        print('load', open('/proc/loadavg').read().split()[:3])


main()
