#!/usr/bin/env python3
"""Prints how long text edits take to be resolved, for shapes that invite the square of their size.

The program `wse_edits_bench` makes edits and resolves them as often as it is told; what making them takes is left out.
`rt run` in its folder builds it."""

import os
import subprocess
import time

TOP = os.path.dirname(os.path.dirname(os.path.abspath(__file__)))
PROGRAM = os.path.join(TOP, "crates", "wse_edits_bench", "out", "wse_edits_bench")
SHAPES = (
    ("line", "edits on one long line of words", (1_000, 10_000, 100_000)),
    ("overlap", "edits of which only the last overlaps another", (1_000, 10_000, 100_000)),
)
TIMES = 10


def seconds(shape, count, times):
    """The least time of five runs."""
    best = None
    for _ in range(5):
        began = time.perf_counter()
        subprocess.run([PROGRAM, shape, str(count), str(times)], stdout=subprocess.DEVNULL, check=True)
        took = time.perf_counter() - began
        best = took if best is None else min(best, took)
    return best


def main():
    for shape, what, counts in SHAPES:
        for count in counts:
            each = (seconds(shape, count, TIMES) - seconds(shape, count, 0)) / TIMES
            print(f"{what}: {count} edits, {each * 1e3:.2f} milliseconds, {each / count * 1e9:.0f} nanoseconds an edit")


if __name__ == "__main__":
    main()
