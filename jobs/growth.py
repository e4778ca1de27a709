#!/usr/bin/env python3
"""Writes the jobs by which bench/run measures growth into a folder.

Usage: python3 jobs/growth.py FOLDER

The pieces of a job are the first 16, 32 or 64 of one list, on a sheet of fixed rows whose columns grow with them. At resolution 2
each pixel, of pieces and sheet alike, becomes a square of four.
"""

import pathlib
import sys

from generate import Random, blob, job_text, pixels

ROWS = 32
PERCENT = 88


def pieces():
    """The list of 64 irregular pieces with their turn sums, at resolution 1."""
    random = Random(107)
    return [
        (blob(random, random.between(8, 16), random.between(8, 16)), random.pick([1, 5, 15, 15]))
        for _ in range(64)
    ]


def finer(shape, resolution):
    """A shape with each pixel repeated along both axes."""
    rows = ["".join(mark * resolution for mark in row) for row in shape]
    return [row for row in rows for _ in range(resolution)]


def text(count, resolution):
    """The job of the first pieces at a resolution."""
    chosen = pieces()[:count]
    area = sum(pixels(shape) for shape, _ in chosen)
    columns = -(-100 * area // (PERCENT * ROWS))
    fine = [(finer(shape, resolution), turns) for shape, turns in chosen]
    return job_text(ROWS * resolution, columns * resolution, fine)


if __name__ == "__main__":
    folder = pathlib.Path(sys.argv[1])
    for count in (16, 32, 64):
        for resolution in (1, 2):
            name = "pieces-%d-resolution-%d.job" % (count, resolution)
            (folder / name).write_bytes(text(count, resolution).encode("ascii"))
