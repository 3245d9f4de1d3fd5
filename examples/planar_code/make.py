#!/usr/bin/env python3
"""Makes the files of this folder: examples/planar_code/make.py. Needs nauty (Debian: nauty) and cargo.

What nauty's `planarg -p` writes has one opening and then net after net; each net gets a file of its own here."""
import os
import subprocess

FOLDER = os.path.dirname(os.path.abspath(__file__))
OPENING = b'>>planar_code<<'
REGULAR = ['Stacked', 'DoubleWheel', 'Row', 'Strip']


def run(command, given=b''):
    """What a command writes."""
    return subprocess.run(command, input=given, stdout=subprocess.PIPE, stderr=subprocess.DEVNULL, check=True).stdout


def generated(n, shape, seed):
    """The file of a net from the generator for tests."""
    cargo = 'cargo run --quiet --release --offline -p second --example net --manifest-path'.split()
    return run(cargo + [FOLDER + '/../../rust/Cargo.toml', '--', str(n), shape, str(seed)])


def split(code):
    """The nets of planar_code without the opening, each as its bytes."""
    nets = []
    while code:
        zeros = [at for at in range(1, len(code)) if code[at] == 0]
        end = zeros[code[0] - 1] + 1
        nets.append(code[:end])
        code = code[end:]
    return nets


def lines_of(net):
    """The lines of a net, each once, with vertices from 0."""
    lists = net[1:].split(b'\0')[:net[0]]
    return [(v, w - 1) for v, neighbours in enumerate(lists) for w in neighbours if v < w - 1]


def graph6(n, lines):
    """A net without its embedding, in graph6, n up to 62."""
    bits = [(v, w) in lines or (w, v) in lines for w in range(n) for v in range(w)]
    bits += [False] * (-len(bits) % 6)
    sixes = [sum(bit << (5 - at) for at, bit in enumerate(bits[i:i + 6])) for i in range(0, len(bits), 6)]
    return bytes([63 + n] + [63 + six for six in sixes]) + b'\n'


def embedded(graphs):
    """The nets that planarg makes of graphs in graph6."""
    code = run(['nauty-planarg', '-p'], graphs)
    assert code.startswith(OPENING)
    return split(code[len(OPENING):])


def write(name, net):
    """Writes a file of one net."""
    with open(f'{FOLDER}/{name}.pc', 'wb') as file:
        file.write(OPENING + net)


def every_triangulation(n):
    """All nets of n vertices that are taken, up to their numbering: geng lists the graphs, planarg embeds them."""
    lines = 3 * n - 6
    return embedded(run(['nauty-geng', '-c', str(n), f'{lines}:{lines}']))


def not_taken():
    """Plane nets that aren't triangulated: names, n and lines."""
    ring = lambda n: [(v, (v + 1) % n) for v in range(n)]
    yield 'ring', 9, ring(9)
    yield 'star', 12, [(0, v) for v in range(1, 12)]
    yield 'wheel', 8, ring(7) + [(7, v) for v in range(7)]
    yield 'cube', 8, [(v, v ^ bit) for v in range(8) for bit in (1, 2, 4) if v < v ^ bit]
    yield 'grid', 16, [(v, v + 1) for v in range(16) if v % 4 < 3] + [(v, v + 4) for v in range(12)]
    steps = [3, 1, 5, 7, 4, 2, 6, 8]
    yield 'fan', 9, [(0, v) for v in range(1, 9)] + list(zip(steps, steps[1:]))
    taken = lines_of(generated(14, 'Turned', 7)[len(OPENING):])
    yield 'line_less', 14, taken[:20] + taken[21:]


def main():
    for n in range(4, 9):
        for count, net in enumerate(every_triangulation(n), 1):
            write(f'planarg_{n:02}_{count:02}', net)
    for n in range(9, 21):
        for shape in ['Turned', REGULAR[n % 4]]:
            net = generated(n, shape, n)[len(OPENING):]
            for net in embedded(graph6(n, lines_of(net))):
                write(f'planarg_{n:02}_{shape.lower()}', net)
    for n in (64, 128, 255):
        for shape in ['Turned', 'Stacked', 'DoubleWheel']:
            write(f'made_{n}_{shape.lower()}', generated(n, shape, n)[len(OPENING):])
    for name, n, lines in not_taken():
        for net in embedded(graph6(n, lines)):
            write(f'no_{name}', net)


main()
