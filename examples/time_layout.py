"""Prints microseconds per layout for n = 256 and 1,024. From the project's root, after `tools/make layout`."""
import subprocess
import time


def run(data):
    start = time.perf_counter()
    out = subprocess.run(["target/bin/layout"], input=data, capture_output=True).stdout
    return time.perf_counter() - start, out


def calls(kind, n, rounds):
    words = ["python3", "examples/orders.py", "calls", kind, str(n), str(rounds)]
    return subprocess.run(words, capture_output=True).stdout


for kind in ("short", "whole"):
    best = {}
    for n, rounds in ((256, 60000), (1024, 20000)):
        many = [run(calls(kind, n, rounds)) for _ in range(5)]
        one = [run(calls(kind, n, 1)) for _ in range(5)]
        assert all(out == b"%d\n" % n for _, out in many + one)
        base = min(t for t, _ in one)
        each = sorted((t - base) / (rounds - 1) * 1e6 for t, _ in many)
        best[n] = each[0]
        print(f"{kind} {n}: best {each[0]:.2f} us, median {each[2]:.2f} us")
    print(f"{kind}: growth {best[1024] / best[256]:.2f}")
