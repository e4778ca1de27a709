#!/usr/bin/env python3
"""Writes every job of this folder.

Only whole numbers and an own random generator are used, so that each run writes the same bytes.
"""

import pathlib

FOLDER = pathlib.Path(__file__).resolve().parent


class Random:
    """A linear congruential generator with fixed constants."""

    def __init__(self, seed):
        self.state = seed

    def between(self, low, high):
        """A number from low to high, both included."""
        self.state = (self.state * 6364136223846793005 + 1442695040888963407) % 2**64
        return low + (self.state >> 33) % (high - low + 1)

    def pick(self, choices):
        """One of the choices."""
        return choices[self.between(0, len(choices) - 1)]


# Shapes are lists of rows of marks, the bottom row first.


def trimmed(rows):
    """The rows without empty rows and columns at the sides, so that the box is tight."""
    while "#" not in rows[0]:
        rows = rows[1:]
    while "#" not in rows[-1]:
        rows = rows[:-1]
    while all(row[0] == "." for row in rows):
        rows = [row[1:] for row in rows]
    while all(row[-1] == "." for row in rows):
        rows = [row[:-1] for row in rows]
    return rows


def draw(columns, rows, has):
    """The shape of the box cells that satisfy a condition."""
    marks = [["#" if has(x, y) else "." for x in range(columns)] for y in range(rows)]
    return trimmed(["".join(row) for row in marks])


def full(columns, rows):
    """A full rectangle."""
    return ["#" * columns] * rows


def in_ellipse(x, y, columns, rows, part=100):
    """Whether a cell lies in the ellipse of a box, drawn in to a percentage of its size."""
    across = (2 * x + 1 - columns) * rows
    up = (2 * y + 1 - rows) * columns
    return 10000 * (across * across + up * up) <= (part * columns * rows) ** 2


def disc(columns, rows):
    """A filled ellipse."""
    return draw(columns, rows, lambda x, y: in_ellipse(x, y, columns, rows))


def ring(columns, rows, part):
    """An ellipse with a hole of a percentage of its size."""
    inner = lambda x, y: in_ellipse(x, y, columns, rows, part)
    return draw(columns, rows, lambda x, y: in_ellipse(x, y, columns, rows) and not inner(x, y))


def frame(columns, rows, border):
    """A rectangle with a rectangular hole."""
    inside = lambda k, size: border <= k < size - border
    return draw(columns, rows, lambda x, y: not (inside(x, columns) and inside(y, rows)))


def angle(columns, rows, foot, stem):
    """An L shape."""
    return draw(columns, rows, lambda x, y: y < foot or x < stem)


def cross(columns, rows, bar_columns, bar_rows):
    """Two crossing bars."""
    upright = lambda x: abs(2 * x + 1 - columns) <= bar_columns
    level = lambda y: abs(2 * y + 1 - rows) <= bar_rows
    return draw(columns, rows, lambda x, y: upright(x) or level(y))


def wedge(columns, rows):
    """A right triangle."""
    return draw(columns, rows, lambda x, y: x * rows + y * columns < columns * rows)


def sail(columns, rows, lean, belly):
    """A panel with a leaning front edge and a curved back edge."""

    def has(x, y):
        front = lean * y // rows
        curve = 4 * belly * y * (rows - 1 - y) // (rows * rows)
        return front <= x < columns - belly + curve - lean * y // (2 * rows)

    return draw(columns, rows, has)


def comb(columns, rows, pitch, spine):
    """Teeth on a spine: many strips a row."""
    return draw(columns, rows, lambda x, y: y < spine or x % pitch < pitch // 2)


def grain(random, columns, rows, percent):
    """Single pixels at random; the four corners are kept so that the box is tight."""
    corner = lambda x, y: x in (0, columns - 1) and y in (0, rows - 1)
    return draw(columns, rows, lambda x, y: random.between(1, 100) <= percent or corner(x, y))


def lattice(columns, rows):
    """Single pixels that touch no other: every second one of every second row."""
    return draw(columns, rows, lambda x, y: x % 2 == 0 and y % 2 == 0)


def blob(random, columns, rows):
    """An irregular piece: a box with slanted corners and one or two notches."""
    cuts = [(random.between(1, columns // 2), random.between(1, rows // 2)) for _ in range(4)]
    notches = []
    for _ in range(random.between(1, 2)):
        width, height = random.between(1, columns // 3), random.between(1, rows // 3)
        at_x = random.pick([0, columns - width, random.between(0, columns - width)])
        at_y = random.pick([0, rows - height])
        notches.append((at_x, at_y, width, height))

    def has(x, y):
        from_right, from_top = columns - 1 - x, rows - 1 - y
        corners = [(x, y), (from_right, y), (x, from_top), (from_right, from_top)]
        slanted = all(a * q + b * p >= p * q for (a, b), (p, q) in zip(corners, cuts))
        notched = any(0 <= x - a < p and 0 <= y - b < q for a, b, p, q in notches)
        return slanted and not notched

    return draw(columns, rows, has)


def pixels(shape):
    """The number of pixels of a shape."""
    return sum(row.count("#") for row in shape)


def piece_text(number, shape, turns, end=""):
    """The lines of one piece, the first with what it has behind the turns."""
    lines = ["piece,%d,%d,%d,%d%s" % (number, len(shape[0]), len(shape), turns, end)]
    return "\n".join(lines + ["row," + row for row in shape]) + "\n"


def job_text(rows, columns, pieces, gap=None):
    """The text of a job; pieces are pairs of shape and turn sum. With a gap it is of version 2."""
    if gap is None:
        text = "job,1,%d,%d,%d\n" % (rows, columns, len(pieces))
    else:
        text = "job,2,%d,%d,%d,%d\n" % (rows, columns, len(pieces), gap)
    return text + "".join(piece_text(k, shape, turns) for k, (shape, turns) in enumerate(pieces))


def lock_text(rows, columns, pieces, locked, gap=0):
    """The text of a job of version 3; the pieces of the given numbers are locked."""
    text = "job,3,%d,%d,%d,%d\n" % (rows, columns, len(pieces), gap)
    for k, (shape, turns) in enumerate(pieces):
        text += piece_text(k, shape, turns, ",1" if k in locked else ",0")
    return text


def longest(pieces, count):
    """The numbers of the longest pieces, of equal ones those that come first, which a start stacks first."""
    return sorted(range(len(pieces)), key=lambda k: -len(pieces[k][0][0]))[:count]


def write(name, text):
    """Writes one job."""
    (FOLDER / (name + ".job")).write_bytes(text.encode("ascii"))


def write_filled(name, rows, percent, pieces):
    """Writes a job whose pixels are a percentage of its sheet, and checks the limits."""
    area = sum(pixels(shape) for shape, _ in pieces)
    columns = -(-100 * area // (percent * rows))
    text = job_text(rows, columns, pieces)
    assert 40 <= len(pieces) <= 64 and 80 * rows * columns <= 100 * area <= 95 * rows * columns
    assert rows * columns <= 65536 and len(text) <= 65536, (name, rows, columns, len(text))
    assert sum(len(shape) * len(shape[0]) for shape, _ in pieces) <= 65536
    write(name, text)


# Examples and small jobs.

SQUARE = full(2, 2)
CORNER = ["##", "#."]
PIXEL = ["#"]


def hole_rings():
    """Rings with pieces for their holes."""
    return [
        (ring(12, 12, 70), 1), (disc(8, 8), 1), (ring(8, 8, 50), 1), (disc(4, 4), 1),
        (frame(8, 10, 2), 3), (full(4, 6), 1), (disc(3, 3), 1)]


def start_order():
    """Pieces of equal lengths and of several, for the order of the start layout."""
    return [
        (full(2, 3), 1), (full(4, 2), 1), (full(4, 3), 1), (full(6, 2), 1), (full(2, 2), 1),
        (full(4, 2), 1), (full(1, 7), 1), (full(6, 3), 1), (full(2, 4), 1)]


def small_jobs():
    """Jobs that each cover one thing."""
    write("example-clear", job_text(2, 4, [(SQUARE, 1)] * 2))
    write("example-open", job_text(2, 3, [(SQUARE, 1)] * 2))
    write("pixel-one", job_text(1, 1, [(PIXEL, 15)]))
    write("pixel-two", job_text(1, 1, [(PIXEL, 15)] * 2))
    write("boxes-meet", job_text(2, 3, [(CORNER, 1), (CORNER, 5)]))
    write("hole-pixels", job_text(5, 6, [(frame(5, 5, 1), 1)] + [(PIXEL, 1)] * 6))
    write("hole-rings", job_text(12, 28, hole_rings()))
    write("parts-interlock", job_text(5, 12, [
        (["#.#.#.#"], 5), ([".#.#.#."[1:-1]], 5), (["##..##", "......", "##..##"], 1),
        (["##", "..", "##"], 3), (["#...#", ".....", "..#.."], 15), (["#.#", "...", "#.#"], 1)]))
    write("turns-all", job_text(7, 9, [
        (angle(4, 3, 1, 1), 15), (angle(3, 5, 1, 1), 15), (["###", ".#.", ".#."], 15),
        (["##.", ".##"], 15), (["####"], 15), (["#...", "####"], 15), (wedge(4, 5), 15),
        (["#.#", "###"], 15), (["##", "##"], 15)]))
    write("turns-sets", job_text(10, 11, [
        (angle(4, 3, 1, 2), turns) for turns in (1, 3, 5, 7, 9, 11, 13, 15)]))
    write("turns-without-place", job_text(3, 14, [
        (angle(9, 3, 1, 2), 15), (full(5, 2), 3), (["#####", "..#.."], 9), (full(4, 3), 5)]))
    write("sheet-full", job_text(6, 10, [
        (full(10, 1), 1), (full(6, 5), 1), (angle(4, 3, 1, 1), 5), (full(3, 2), 1),
        (angle(4, 2, 1, 1), 5), (full(3, 1), 1)]))
    write("sheet-full-by-start", job_text(8, 16, [(full(4, 4), 15)] * 8))
    write("sheet-rows-512", job_text(512, 128, [
        (full(128, 60), 1), (frame(120, 110, 3), 5), (disc(100, 90), 3), (full(90, 40), 3),
        (ring(60, 90, 60), 1), (wedge(110, 60), 15), (full(1, 255), 3), (full(40, 100), 15),
        (full(20, 255), 1), (comb(70, 30, 6, 4), 5)]))
    write("sheet-columns-4096", job_text(16, 4096, [
        (full(255, 16), 1), (comb(200, 12, 4, 3), 5), (disc(180, 9), 5), (full(255, 1), 1)]
        + [(sail(120 + 37 * k % 130, 5 + k % 8, 4, 3), (1, 5)[k % 2]) for k in range(27)]))
    write("pieces-64", job_text(16, 24, [
        (angle(2 + k % 4, 2 + k % 3, 1, 1), 1 + 2 * (k % 8)) for k in range(64)]))
    write("piece-255", job_text(64, 300, [
        (sail(255, 20, 30, 12), 5), (full(255, 30), 1), (frame(254, 25, 4), 5),
        (full(255, 1), 1), (disc(40, 30), 15), (comb(100, 20, 6, 4), 5)]))
    write("piece-255-upright", job_text(256, 64, [
        (full(1, 255), 1), (full(20, 255), 5), (frame(24, 250, 3), 1), (ring(20, 60, 50), 15),
        (sail(18, 200, 5, 4), 5), (disc(12, 30), 3)]))
    write("start-order", job_text(7, 12, start_order()))
    # The run ends with no piece at the sheet's left edge.
    write("free-left-clear", job_text(3, 7, [(["##.##", "#..#."], 15), (["##.#", "#.#."], 5)]))
    write("free-left-turned", job_text(3, 10, [
        ([".#.#", "#..#"], 15), (full(1, 2), 3), (["###", "#..", "###"], 15), (PIXEL, 1),
        (["#...", "##.#", "####"], 3)]))
    write("free-left-open", job_text(5, 9, [
        (["##.#", "####", "...#", "..#."], 1), (["####", "###.", "..##", "####"], 15),
        ([".#..", "#.##", "#.#.", ".#.."], 15), (["#.", ".#", ".#"], 3)]))
    random = Random(35)
    write("weights-grow", job_text(12, 10, [
        (blob(random, random.between(4, 7), random.between(4, 6)), 15) for _ in range(7)]))


def cut_jobs():
    """Jobs that end clear and whose cut lists each show one thing."""
    write("cut-free-hole", job_text(4, 6, [(frame(4, 4, 1), 1), (full(2, 3), 1)]))
    write("cut-crossing", job_text(7, 9, [
        (frame(5, 4, 1), 1), (full(5, 3), 1), (full(4, 4), 1), (angle(4, 3, 1, 2), 1)]))
    # Boxes of 13 rows do not fit above one another. The last two pieces end at the sheet's right
    # edge, one above the other.
    random = Random(36)
    dust = [grain(random, 79, 13, 30) if k % 2 == 0 else lattice(79, 13) for k in range(51)]
    dust += [lattice(67, 13), lattice(67, 3)]
    write("cut-dust", job_text(16, 4096, [(shape, 1) for shape in dust]))


def gap_jobs():
    """Jobs with a gap."""
    write("gap-example-open", job_text(2, 4, [(SQUARE, 1)] * 2, 1))
    write("gap-example-clear", job_text(2, 5, [(SQUARE, 1)] * 2, 1))
    write("gap-zero", job_text(12, 28, hole_rings(), 0))
    # With a gap the pixel may not lie in the hole: it needs a column of its own and one between.
    ring_and_pixel = [(frame(3, 3, 1), 1), (PIXEL, 1)]
    write("gap-ring-pixel-open", job_text(3, 4, ring_and_pixel, 1))
    write("gap-ring-pixel-clear", job_text(3, 5, ring_and_pixel, 1))
    # A frame whose hole is just large enough for a square and the gap around it.
    write("gap-hole-square", job_text(9, 15, [
        (frame(9, 9, 1), 1), (full(3, 3), 1), (full(3, 9), 1)], 2))
    # Pixels of their own, and parts of one piece that are less than the gap apart.
    write("gap-corners", job_text(5, 8, [(PIXEL, 1)] * 4 + [
        (["#..", "..#"], 15), (["#.", ".#", "#."], 5)], 1))
    write("gap-turns", job_text(10, 21, [
        (angle(4, 3, 1, 1), 15), (angle(3, 5, 1, 1), 15), (["###", ".#.", ".#."], 7),
        (["##.", ".##"], 11), (["#...", "####"], 9), (wedge(4, 5), 13)], 1))
    write("gap-pixels", job_text(28, 64, [(PIXEL, 1)] * 24, 8))
    # A sheet that is no larger than its piece: the gap is none to the sheet's edge.
    write("gap-edge", job_text(4, 5, [(full(5, 4), 15)], 8))
    # Boxes as long and as wide as they may be and the text has room for.
    for name, rows, columns, shapes in [
        ("gap-limit-lying", 126, 257, [full(255, 125)] * 2),
        ("gap-limit-cross", 256, 256, [full(255, 124), full(124, 255)]),
    ]:
        text = job_text(rows, columns, [(shape, 5) for shape in shapes], 8)
        assert len(text) <= 65536, (name, len(text))
        write(name, text)
    # The pieces of a real-sized job, on sheets that grow with the gap.
    write("gap-1-large", job_text(180, 256, real_large(), 1))
    write("gap-4-large", job_text(180, 364, real_large(), 4))
    write("gap-8-large", job_text(180, 364, real_large()[:40], 8))


def lock_jobs():
    """Jobs with locks."""
    squares = [(SQUARE, 1)] * 2
    write("lock-none", lock_text(12, 28, hole_rings(), []))
    # The free square is stacked from the left: it lies beside the locked one, or on it.
    write("lock-last", lock_text(2, 4, squares, [1]))
    write("lock-first", lock_text(2, 4, squares, [0]))
    write("lock-last-open", lock_text(2, 3, squares, [1]))
    write("lock-all-clear", lock_text(2, 4, squares, [0, 1]))
    write("lock-all-open", lock_text(2, 3, squares, [0, 1]))
    write("lock-start-order", lock_text(7, 12, start_order(), [2, 3, 6]))
    # Locked pieces have turns, but no trials.
    write("lock-turns", lock_text(8, 14, [
        (angle(4, 3, 1, 1), 15), (angle(3, 5, 1, 1), 15), (["###", ".#.", ".#."], 7),
        (["##.", ".##"], 11), (["#...", "####"], 9), (wedge(4, 5), 13)], [0, 3]))
    # The pixels go around a locked ring and into its hole.
    write("lock-ring-pixels", lock_text(5, 6, [(frame(5, 5, 1), 1)] + [(PIXEL, 1)] * 6, [0]))
    # A gap to a locked piece is kept; two locked pieces within the gap stay there.
    three = [(full(4, 3), 1), (full(3, 3), 5), (full(2, 3), 5)]
    write("lock-gap", lock_text(3, 13, three, [0], 2))
    write("lock-gap-open", lock_text(3, 13, three, [0, 1], 2))
    write("lock-64", lock_text(16, 60, [
        (angle(2 + k % 4, 2 + k % 3, 1, 1), 1 + 2 * (k % 8)) for k in range(64)], range(0, 64, 2)))
    # A table that is half cut: the first stacks of a start are under the knife, the rest is laid anew.
    random = Random(107)
    pieces = [(mixed_shape(random), random.pick([1, 5, 5, 15])) for _ in range(28)]
    write("lock-half-cut", lock_text(120, 150, pieces, longest(pieces, 12)))
    # The two very large pieces of a real-sized job and some others are locked.
    write("lock-large", lock_text(180, 256, real_large(), longest(real_large(), 9)))


def damaged_jobs():
    """Jobs that are refused, by the number of the cause."""
    good = job_text(4, 6, [(angle(3, 2, 1, 1), 5), (SQUARE, 3)])
    change = lambda name, old, new: write("refused-" + name, good.replace(old, new, 1))
    assert good.count("job,1,4,6,2\n") == 1 and good.count("piece,0,3,2,5\nrow,###\nrow,#..\n") == 1
    write("refused-1-empty", "")
    write("refused-1-no-line-feed", good[:-1])
    write("refused-1-extra-line", good + "\n")
    write("refused-1-extra-bytes", good + "row,##")
    write("refused-1-missing-row", good[: good.rindex("row,")])
    write("refused-1-missing-piece", good[: good.index("piece,1")])
    write("refused-1-carriage-return", good.replace("\n", "\r\n"))
    change("1-version", "job,1,", "job,4,")
    change("1-version-with-gap", "job,1,4,6,2", "job,4,4,6,2,1")
    change("1-gap-missing", "job,1,4,6,2", "job,2,4,6,2")
    change("1-gap-too-many", "job,1,4,6,2", "job,1,4,6,2,1")
    change("1-gap-twice", "job,1,4,6,2", "job,2,4,6,2,1,1")
    change("1-gap-leading-zero", "job,1,4,6,2", "job,2,4,6,2,08")
    change("1-gap-empty", "job,1,4,6,2", "job,2,4,6,2,")
    change("1-leading-zero", "job,1,4,6,2", "job,1,04,6,2")
    change("1-six-digits", "job,1,4,6,2", "job,1,4,100000,2")
    change("1-sign", "piece,0,3,", "piece,-0,3,")
    change("1-empty-field", "piece,0,3,2,5", "piece,0,,2,5")
    change("1-field-more", "piece,0,3,2,5", "piece,0,3,2,5,")
    change("1-form-before-range", "piece,0,3,2,5", "piece,9,3,2,x")
    change("1-row-short", "row,#..", "row,#.")
    change("1-row-mark", "row,#..", "row,#.o")
    change("1-word", "piece,1", "Piece,1")
    change("2-sheet-rows", "job,1,4,6,2", "job,1,513,6,2")
    change("2-sheet-columns", "job,1,4,6,2", "job,1,4,4097,2")
    change("2-no-pieces", "job,1,4,6,2", "job,1,4,6,0")
    change("2-pieces-65", "job,1,4,6,2", "job,1,4,6,65")
    change("2-gap-9", "job,1,4,6,2", "job,2,4,6,2,9")
    change("2-gap-before-area", "job,1,4,6,2", "job,2,512,129,2,9")
    change("2-wrong-number", "piece,1,", "piece,0,")
    change("2-side-zero", "piece,0,3,2,5", "piece,0,3,0,5")
    change("2-side-256", "piece,0,3,2,5", "piece,0,256,2,5")
    change("2-even-turns", "piece,0,3,2,5", "piece,0,3,2,6")
    change("2-turns-17", "piece,0,3,2,5", "piece,0,3,2,17")
    change("3-gap-sheet-area", "job,1,4,6,2", "job,2,512,129,2,8")
    change("3-sheet-area", "job,1,4,6,2", "job,1,512,129,2")
    small, limit = job_text(256, 256, [(full(32, 16), 1), (PIXEL, 1)]), "piece,1,1,1,1"
    write("refused-4-box-areas", small.replace(limit, "piece,1,255,255,1"))
    change("5-loose-top-row", "row,#..", "row,...")
    change("5-loose-bottom-row", "row,###", "row,...")
    change("5-loose-column", "row,###", "row,##.")
    change("6-too-long", "piece,1,2,2,3", "piece,1,7,2,3")
    change("6-too-wide", "piece,1,2,2,3", "piece,1,2,5,3")
    locked = lock_text(4, 6, [(angle(3, 2, 1, 1), 5), (SQUARE, 3)], [0])
    spell = lambda name, old, new: write("refused-" + name, locked.replace(old, new, 1))
    assert locked.count("piece,0,3,2,5,1\n") == 1 and locked.count("piece,1,2,2,3,0\n") == 1
    spell("1-lock-missing", "piece,1,2,2,3,0", "piece,1,2,2,3")
    spell("1-lock-empty", "piece,1,2,2,3,0", "piece,1,2,2,3,")
    spell("1-lock-twice", "piece,1,2,2,3,0", "piece,1,2,2,3,0,0")
    spell("1-lock-leading-zero", "piece,0,3,2,5,1", "piece,0,3,2,5,01")
    spell("1-lock-in-version-1", "job,3,4,6,2,0", "job,1,4,6,2")
    spell("1-lock-in-version-2", "job,3,4,6,2,0", "job,2,4,6,2,0")
    spell("1-lock-without-gap", "job,3,4,6,2,0", "job,3,4,6,2")
    spell("2-lock", "piece,1,2,2,3,0", "piece,1,2,2,3,2")
    spell("2-lock-before-size", "piece,1,2,2,3,0", "piece,1,7,2,3,2")
    spell("2-lock-gap-9", "job,3,4,6,2,0", "job,3,4,6,2,9")
    spell("6-lock-too-long", "piece,1,2,2,3,0", "piece,1,7,2,3,1")


def sized_job(size):
    """A job text of an exact number of bytes; the last piece is a bar that fills it up."""
    shapes = [frame(40 + k % 17, 42 + k % 13, 4 + k % 9) for k in range(26)]
    shapes.append(full(200, 2))
    pieces = [(shape, (1, 5, 15)[k % 3]) for k, shape in enumerate(shapes)]
    for length in range(255, 0, -1):
        text = job_text(256, 256, pieces + [(full(length, 1), 5)])
        if len(text) == size:
            return text
    raise ValueError("no bar fills the text up to %d bytes, %d" % (size, len(text)))


# Real-sized jobs.


def mixed_shape(random):
    """One of many simple outlines with sides of 10 to 36 pixels."""
    columns, rows = random.between(16, 36), random.between(14, 34)
    third = lambda side: random.between(side // 4, side // 2)
    return random.pick([
        lambda: full(columns, rows),
        lambda: angle(columns, rows, third(rows), third(columns)),
        lambda: cross(columns, rows, third(columns), third(rows)),
        lambda: wedge(columns, rows),
        lambda: disc(columns, rows),
        lambda: sail(columns, rows, random.between(2, columns // 3), random.between(2, 6)),
        lambda: frame(columns, rows, random.between(3, 5)),
        lambda: comb(columns, rows, random.between(6, 10), random.between(4, 8)),
    ])()


def real_mixed():
    """Mixed shapes with several turn sets."""
    random = Random(101)
    return [(mixed_shape(random), random.pick([1, 3, 5, 9, 15])) for _ in range(60)]


def real_rings():
    """Rings, and for each a disc that fits its hole."""
    random, pieces = Random(102), []
    for _ in range(26):
        side = random.between(24, 36)
        pieces.append((ring(side, side, 64), random.pick([1, 5])))
        pieces.append((disc(side * 58 // 100, side * 58 // 100), 1))
    return pieces


def real_strips():
    """Long strips with slanted or toothed edges."""
    random, pieces = Random(103), []
    for k in range(44):
        length, width = random.between(50, 150), random.between(8, 13)
        shape = random.pick([
            lambda: full(length, width),
            lambda: sail(length, width, random.between(4, 20), random.between(2, 9)),
            lambda: comb(length, width, random.between(8, 20), width * 2 // 3),
            lambda: angle(length, width, width // 2 + 1, random.between(10, length)),
        ])()
        pieces.append((shape, random.pick([1, 5, 5, 15])))
    return pieces


def real_dust():
    """Pieces with many strips a line: single grains, combs and meshes."""
    random, pieces = Random(104), []
    for _ in range(52):
        columns, rows = random.between(18, 36), random.between(18, 36)
        shape = random.pick([
            lambda: grain(random, columns, rows, random.between(30, 60)),
            lambda: comb(columns, rows, random.pick([2, 4]), 2),
            lambda: draw(columns, rows, lambda x, y: (x % 3) * (y % 3) != 1),
        ])()
        pieces.append((shape, random.pick([1, 3, 5, 15])))
    return pieces


def real_large():
    """Two very large pieces among others of usual size."""
    random = Random(105)
    pieces = [(sail(170, 96, 50, 24), 5), (ring(150, 110, 45), 1)]
    for _ in range(44):
        shape = blob(random, random.between(12, 30), random.between(12, 30))
        pieces.append((shape, random.pick([1, 3, 5, 15])))
    return pieces


def real_irregular():
    """Irregular pieces, all turns for most of them."""
    random = Random(106)
    return [
        (blob(random, random.between(14, 36), random.between(12, 36)), random.pick([1, 5, 15, 15]))
        for _ in range(64)
    ]


def real_jobs():
    """The six real-sized jobs: sheet rows and percentage of the sheet that is pixels."""
    write_filled("real-mixed", 160, 85, real_mixed())
    write_filled("real-rings", 144, 82, real_rings())
    write_filled("real-strips", 128, 92, real_strips())
    write_filled("real-dust", 150, 94, real_dust())
    write_filled("real-large", 180, 84, real_large())
    write_filled("real-irregular", 192, 88, real_irregular())


def long_jobs():
    """The pieces of the six on sheets longer by fifths, until the program's run ends clear."""
    write("long-mixed", job_text(160, 245, real_mixed()))
    write("long-rings", job_text(144, 201, real_rings()))
    write("long-strips", job_text(128, 447, real_strips()))
    write("long-dust", job_text(150, 307, real_dust()))
    write("long-large", job_text(180, 294, real_large()))
    write("long-irregular", job_text(192, 223, real_irregular()))


if __name__ == "__main__":
    small_jobs()
    cut_jobs()
    gap_jobs()
    lock_jobs()
    damaged_jobs()
    write("limit-65536-bytes", sized_job(65536))
    write("refused-7-65537-bytes", sized_job(65537))
    real_jobs()
    long_jobs()
