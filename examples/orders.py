#!/usr/bin/env python3
"""Makes inputs for the program `layout`, and order files for the program `draw`, of the same lists of calls.

    orders.py calls KIND N ROUNDS > FILE     numbers of 16 bits, low byte first: n, the rounds, then each call's count and entries
    orders.py order KIND N > FILE            the order file of document 01
    orders.py feeders KIND N > FILE          the same at scale 8 with every line a feeder: the longest list of moves

KIND is `short` (each new point covers a run of 2 to 4 boundary points, chosen at random with a fixed seed)
or `whole` (each run goes over the whole boundary). The last point's run is the whole boundary, as document 01 wants."""
import random
import struct
import sys


def short_runs(n):
    """The calls for points 4 to n, with random short runs."""
    chance = random.Random(1)
    boundary = [1, 3, 2]
    calls = []
    for point in range(4, n):
        size = min(chance.randint(2, 4), len(boundary))
        first = chance.randrange(len(boundary) - size + 1)
        calls.append(boundary[first:first + size])
        boundary[first + 1:first + size - 1] = [point]
    if n > 3:
        calls.append(boundary)
    return calls


def whole_runs(n):
    """The calls for points 4 to n, each over the whole boundary: 1, the point before, 2."""
    return [[1, point - 1, 2] for point in range(4, n + 1)]


KINDS = {'short': short_runs, 'whole': whole_runs}


def main():
    form, kind, n = sys.argv[1], sys.argv[2], int(sys.argv[3])
    calls = KINDS[kind](n)
    if form == 'calls':
        numbers = [n, int(sys.argv[4])]
        for entries in calls:
            numbers += [len(entries)] + entries
        sys.stdout.buffer.write(struct.pack('<%dH' % len(numbers), *numbers))
    else:
        scale, mark = (struct.pack('>2sH', b'SC', 8), 0x4000) if form == 'feeders' else (b'', 0)
        out = struct.pack('>2sH', b'HD', n) + scale
        for points in [[], [1], [1, 2]] + calls:
            entries = [point | mark for point in points]
            out += struct.pack('>2sH%dH' % len(entries), b'PT', len(entries), *entries)
        sys.stdout.buffer.write(out + b'EN')


main()
