"""Plot files with holes, for the commands `plot`, by their counts, and others that are read.

As in holecases.py each is a pair of words of the answer and the file. The counts were worked out by hand,
as rectangles that are cut apart, rings and lines, unless something else is said.
"""

import sys

sys.dont_write_bytecode = True
import plots
from holecases import free_places, marked_places, size_of
from plotfiles import places, whole, with_holes


def with_words(text, cells):
    """The words of a board and of holes at some rows and columns."""
    return " ".join([text, *(f"HO {row} {column}" for row, column in cells)])


def ring(width, height):
    """A rectangle of which only the outer cells are free: a ring, which pairs cut in 2 ways."""
    cells = [(row, column) for row in range(1, height - 1) for column in range(1, width - 1)]
    return with_words(f"RB {width} {height}", cells)


def parted(widths, heights):
    """Rectangles with lines of holes between them."""
    plot = plots.blocks(widths, heights, ".")
    return with_words(f"RB {plot.width} {plot.height}", places(plot.fixed))


def bordered(width, height):
    """A rectangle with holes all around it, which make no neighbours: its count is its own."""
    outside = [(row, column) for row in range(height + 2) for column in range(width + 2)]
    cells = [(row, column) for row, column in outside if row in (0, height + 1) or column in (0, width + 1)]
    return with_words(f"RB {width + 2} {height + 2}", cells)


# Plots with holes and tiles, by their counts.
COUNTED = {
    # Pairs of a board that is parted: 2 by 2 has 2, 3 by 2 has 3, 4 by 2 has 5, 3 by 3 has none.
    f"{parted([2, 2], [2])} OR 3": 4,
    f"{parted([3, 3], [2])} OR 3": 9,
    f"{parted([2, 3], [2])} OR 3": 6,
    f"{parted([4, 3], [2])} OR 3": 15,
    f"{parted([2, 2, 2], [2])} OR 3": 8,
    f"{parted([2, 2, 2, 2], [2])} OR 3": 16,
    f"{parted([2], [2, 2, 2])} OR 3": 8,
    f"{parted([2, 2], [2, 2])} OR 3": 16,
    f"{parted([3, 2], [2, 3])} OR 3": 0,
    f"{parted([2, 4], [2])} OR 3": 10,
    f"{parted([3, 3], [3])} OR 3": 0,
    f"{parted([1, 1, 1], [2])} OR 3": 1,
    f"{parted([1, 1], [1, 1])} OR 3": 0,
    f"{parted([1, 1], [1, 1])} TI -": 1,
    f"{parted([3, 3], [2])} OR 20": 4,
    f"{parted([2, 2], [2, 2])} TI 3": 1,
    f"{parted([2, 2], [2, 2])} OR 312": 1,
    # L boards and T boards, written by holes; a 3 by 3 board without a corner, an edge or its middle.
    "RB 2 2 HO 0 1 OR 20": 1,
    "RB 2 2 HO 0 0 OR 20": 1,
    "RB 2 2 HO 1 1 OR 20": 1,
    "RB 3 2 HO 0 1 HO 0 2 OR 3": 1,
    "RB 3 2 HO 0 0 HO 0 2 OR 306": 1,
    "RB 3 2 HO 0 0 HO 0 2 OR 3": 0,
    "RB 3 3 HO 0 0 OR 3": 4,
    "RB 3 3 HO 2 2 OR 3": 4,
    "RB 3 3 HO 0 2 OR 3": 4,
    "RB 3 3 HO 2 0 OR 3": 4,
    "RB 3 3 HO 0 1 OR 3": 0,
    "RB 3 3 HO 1 0 OR 3": 0,
    # A free cell that no tile covers, beside others that a tile does; what the edge is to it, and what
    # holes are: with single tiles there is one cutting.
    "RB 3 1 HO 0 1 OR 3": 0,
    "RB 3 1 HO 0 1 TI -": 1,
    "RB 4 1 HO 0 1 OR 3": 0,
    "RB 3 3 HO 0 1 HO 1 0 HO 2 2 OR 3": 0,
    "RB 4 3 HO 0 1 HO 1 0 OR 3": 0,
    "RB 5 5 HO 1 2 HO 2 1 HO 2 3 HO 3 2 HO 0 0 OR 3": 0,
    "RB 4 4 HO 0 0 HO 3 3 OR 3": 0,
    "RB 4 4 HO 0 0 HO 0 3 HO 3 0 HO 3 3 OR 3": 8,
    # Holes all around: the counts of the plots within, 01's among them.
    f"{bordered(1, 1)} TI -": 1,
    f"{bordered(1, 1)} OR 3": 0,
    f"{bordered(2, 2)} OR 3": 2,
    f"{bordered(3, 2)} OR 3": 3,
    f"{bordered(3, 3)} OR 3": 0,
    f"{bordered(3, 2)} OR 20": 2,
    f"{bordered(4, 2)} OR 3": 5,
    f"{bordered(4, 4)} OR 306": 2,
    f"{bordered(4, 4)} OR 3": 36,
    # A hole at an end and in the middle of a line, and on L and T boards.
    "RB 5 1 HO 0 0 OR 3": 1,
    "RB 5 1 HO 0 2 OR 3": 1,
    "RB 5 1 HO 0 1 OR 3": 0,
    "RB 5 1 HO 0 4 TI 3": 1,
    "RB 1 5 HO 2 0 OR 3": 1,
    "RB 1 5 HO 1 0 OR 3": 0,
    "LB 3 1 HO 0 0 OR 33": 1,
    "LB 3 1 HO 0 0 OR 30": 0,
    "LB 3 1 HO 1 0 OR 3": 0,
    "LB 4 1 HO 1 3 OR 3": 1,
    "TB 1 1 HO 0 1 OR 33": 1,
    "TB 1 1 HO 1 0 HO 1 2 OR 3": 1,
    "TB 1 1 HO 1 1 TI -": 1,
}
RINGS = [(3, 3), (4, 3), (3, 4), (5, 3), (3, 5), (4, 4), (5, 5), (6, 4), (4, 6), (7, 3), (3, 8), (6, 6), (16, 3)]


def counted_hole_files():
    """Files with holes and counts that were worked out by hand; all tilings are listed."""
    rings = {f"{ring(*size)} OR 3": 2 for size in RINGS}
    for text, count in {**COUNTED, **rings}.items():
        yield f"|layers {count}|cuttings {count}|graph {count} nodes ", whole(text)


# Large counts, and what passes the rooms of the program. The counts are those of the parts: 01's 8 by 8, 10
# cuttings of 3 by 3 in threes, 117 of 4 by 4 in fours and 454 of 5 by 4, with which 9 parts pass 2^64. Where
# a room is passed was taken from the oracle's answers.
FOURS = "OR 333 OR 330 OR 303 OR 306 OR 302"
LARGE = {
    f"{bordered(8, 8)} OR 3": "|layers 12988816|cuttings 12988816|graph refused 8|",
    f"{parted([3] * 4, [3] * 4)} OR 33 OR 30": f"|layers {10**16}|cuttings {10**16}|graph {10**16} nodes ",
    f"{parted([4] * 3, [4] * 3)} {FOURS}": f"|layers {117**9}|cuttings {117**9}|graph refused 8|",
    f"{parted([4, 4, 5], [4] * 3)} {FOURS}": "|layers refused 9|cuttings refused 9|graph refused 8|",
    "RB 16 16 HO 8 8 TI 3 TI 6 TI 5": "|layers refused 9|cuttings refused 9|graph refused 8|",
    "RB 16 16 HO 8 8 OR 3": "|layers refused 8|cuttings refused 8|graph refused 8|",
    "RB 8 8 HO 0 0 HO 7 7 OR 3": "|layers 0|cuttings 0|graph refused 8|",
}


def large_hole_files():
    """Files with holes and large counts or layers and graphs that pass the rooms."""
    for text, expected in LARGE.items():
        yield expected, whole(text)


# The file examples/shed.plot: pairs lie in three ways on either side of the holes, and none lies across.
SHED_WORDS = "board 6 3 free 16|tiles 4|layers 9|cuttings 9|graph 9 nodes 16 edges 19|"
SHED = (SHED_WORDS, whole("RB 6 3 HO 1 2 HO 1 3 OR 3"))


def with_other_tiles():
    """Plots with holes and unequal tiles (7), with no tiles, and with tiles that cross themselves."""
    for text in ("RB 4 4 HO 1 1 HO 2 2", "LB 3 2 HO 3 3", "TB 1 2 HO 2 0", "RB 3 3 HO 1 1", "RB 16 16 HO 8 8"):
        for tiles in ("TI - TI 3", "OR 3 OR 20", "TI 3021 TI 33"):
            yield "|layers refused 7|cuttings refused 7|graph refused 7|", whole(f"{text} {tiles}")
        yield "|tiles 0|layers 0|cuttings 0|graph 0 nodes 1 edges 0|", whole(text)
        yield "|tiles 1|layers 1|cuttings 1|graph 1 nodes ", whole(f"{text} TI -")
        yield "|layers ", whole(f"{text} TI 3021 TI 0213")
        yield "|layers ", whole(f"{text} TI 3232 TI 1")


SHAPED = ["LB 2 1", "LB 3 1", "LB 4 1", "LB 2 2", "LB 3 2", "LB 4 2", "LB 2 3"]
SHAPED += ["TB 1 1", "TB 2 1", "TB 0 2", "TB 1 2", "TB 2 2"]


def shaped_by_holes():
    """Pairs of files that have one text: an L or T board, and the rectangle with its marks as holes."""
    lists = ["OR 3", "OR 20", "OR 306", "OR 33", "TI -"]
    for turn, text in enumerate(SHAPED):
        rectangle = "RB {} {}".format(*size_of(text))
        for tiles in (lists[turn % 5], lists[(turn + 2) % 5]):
            yield whole(f"{text} {tiles}"), with_holes(rectangle, marked_places(text), tiles)


def holes_in_every_shape(draws):
    """L and T boards and rectangles with some holes at random free cells, each with some tiles."""
    shapes = [f"LB {n} {scale}" for scale in range(1, 5) for n in range(1, 16 // scale + 1)]
    shapes += [f"TB {n} {scale}" for scale in range(1, 5) for n in range((16 // scale + 1) // 2)]
    shapes += [f"RB {n} {m}" for n in range(2, 8) for m in (2, 3, 4, 5)]
    shapes += [f"RB {n} 2" for n in range(8, 17)] + [f"RB 3 {m}" for m in range(6, 17, 2)]
    tiles = ["OR 3", "OR 20", "OR 33 OR 30", "OR 306", "OR 3", "TI 3 TI 6 TI 5", "OR 3 TI 3"]
    for turn, shape in enumerate(shapes):
        free = free_places(shape)
        number = 1 + draws.below(min(len(free), 4))
        number += (len(free) - number) % 2 if turn % 7 in (0, 4, 6) and number < len(free) else 0
        holes = []
        while len(holes) < number:
            holes.append(free.pop(draws.below(len(free))))
        yield "|layers ", with_holes(shape, holes, tiles[turn % 7])
