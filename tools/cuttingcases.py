"""Commands `cuttings`, and plot files by the figure called cuttings (02's request 3).

Each case is a pair: what is expected, and the command or, as in filecases.py, the file. What is expected
was read off 02 by hand: 1 for a board with no free cell, otherwise the layer count, and in either case
the refusals of the layer count first; which layers pass 512 boards (8) or have a count of 2^64 first (9)
was taken from the oracle's answers. It is none where only the second reading of answers.py holds the
oracle's answer.
"""

import sys

sys.dont_write_bytecode = True
import cases
import plots
from answers import figure, free_cells, is_for_oracle, refusal
from holecases import free_places, words
from holecounts import parted
from knownplots import KNOWN_PLOTS, different, known
from plotfiles import places, plot_in, plot_of, whole, with_holes
from plots import DOMINOES, MOST_CODES, MOST_TILES, TROMINOES, Plot, cell, stop

SMALL = ["RB 0 0", "RB 1 1", "RB 2 1", "RB 1 2", "RB 2 2", "RB 3 2", "LB 2 1", "LB 3 1", "TB 1 1"]
LARGE = ["RB 5 3", "RB 16 1", "RB 1 16", "RB 16 16", "RB 15 16", "RB 16 15", "LB 2 8", "LB 16 1"]
LARGE += ["TB 2 2", "TB 7 1", "TB 1 5"]
KINDS = ["fixed", "laid", "both"]  # what marks the cells that the board leaves free
EVERY_SECOND = sum(cell(row, column) for row in range(16) for column in range(16) if (row + column) % 2)

MANY = ",".join(["3"] * MOST_TILES)
LONG = "3" * (MOST_CODES + 1)
EQUAL = [".", "-", "3", DOMINOES, TROMINOES, MANY, "3" * MOST_CODES]
UNEQUAL = ["-,3", "3,33", "3021,33", f"{MANY[2:]},33"]
BAD_TILES = {f"{MANY},3": 6, LONG: 5, f"{MANY},{LONG}": 6, f"33,-,{LONG}": 5, f"{MANY},33": 6}
# Boards that would be full, but for a mark outside, a cell that is fixed and laid, or the size.
BAD_BOARDS = ["2 2 70003 0", "2 2 30003 4", "2 2 30003 1", "1 1 1 1", "1 1 0 3", "0 0 1 0", "0 0 0 1"]
BAD_BOARDS += ["17 1 1ffff 0", "17 1 ffff 0", "1 17 1 0", "0 5 0 0", "5 0 0 0", "16 17 ffff 0"]


def figure_by_hand(made, count):
    """The figure of one of 01's known plots by its count: only 0 by 0 has no free cell."""
    return 1 if made == "new 0 0" else count


def built(text, kind, left=0):
    """A board of words such as `LB 3 1` of which only some cells are left free."""
    plot = plot_of(text)
    free = plot.free() & ~left
    plot.laid = {"fixed": 0, "laid": free, "both": free & EVERY_SECOND}[kind]
    plot.fixed |= free & ~plot.laid
    return plot


def command(plot, tiles, room=""):
    return f"cuttings {plot.board()} {tiles}{room}"


def held(ask, pairs):
    """Commands of cases, to which the oracle's answers and the second reading are held."""
    pairs = list(pairs)
    asked = different(text for _, text in pairs if is_for_oracle(text))
    with_rooms = [plots.with_rooms(text) for text in asked]
    figures = dict(zip(asked, ask(with_rooms)))
    layers = dict(zip(asked, ask([text.replace("cuttings", "layers", 1) for text in with_rooms])))
    for expected, text in pairs:
        number = refusal(text)
        answer = f"refused {number}" if number else figures[text]
        if text in layers and answer != figure(layers[text], free_cells(text.split()[1:])):
            stop(f"{text}: the layer count is {layers[text]}, the oracle has {answer}")
        if expected is not None and answer != str(expected):
            stop(f"{text}: 02 has {expected}, the oracle {answer}")
    return different(text for _, text in pairs)


def known_figures(ask):
    for (made, _, count), (plot, _) in zip(KNOWN_PLOTS, known(ask)):
        yield figure_by_hand(made, count), f"cuttings {plot}"


def full_boards():
    """No free cell: 1 with any tiles of one number of cells and with none, but 8 with no room."""
    for turn, text in enumerate(SMALL + LARGE):
        for place, kind in enumerate(KINDS):
            plot = built(text, kind)
            is_whole = text in SMALL and (place + turn) % 3 == 0
            for tiles in EQUAL if is_whole else (EQUAL[(turn + place) % 7], EQUAL[(turn + 2 * place + 3) % 7]):
                yield 1, command(plot, tiles)
                yield "refused 8", command(plot, tiles, " 0")
                if is_whole:
                    yield 1, command(plot, tiles, " 1")
    yield 1, command(built("RB 16 16", "both"), DOMINOES, " 4096")


def refused_full_boards():
    """No free cell, or what would be such a board: 4, 6, 5, 7 before 8, with any room."""
    for turn, text in enumerate(SMALL + LARGE):
        plot = built(text, KINDS[turn % 3])
        for room in ("", " 0", " 1"):
            for tiles in (UNEQUAL[turn % 4], UNEQUAL[(turn + 1) % 4]):
                yield "refused 7", command(plot, tiles, room)
            bad, number = list(BAD_TILES.items())[turn % 5]
            yield f"refused {number}", command(plot, bad, room)
    lists = EQUAL + UNEQUAL + list(BAD_TILES)
    for turn, board in enumerate(BAD_BOARDS):
        for tiles in (lists[turn % 7], UNEQUAL[turn % 4], lists[(3 * turn) % len(lists)]):
            for room in ("", " 0"):
                yield "refused 4", f"cuttings {board} {tiles}{room}"


def are_beside(one, other):
    return abs(one[0] - other[0]) + abs(one[1] - other[1]) == 1


def nearly_full_boards():
    """One free cell, which the single tile cuts and no other; two, which a pair cuts side by side."""
    for turn, text in enumerate(SMALL[1:]):
        cells = free_places(text)
        for place, at in enumerate(cells):
            plot = built(text, KINDS[(turn + place) % 3], cell(*at))
            yield 1, command(plot, "-")
            yield 1, command(plot, "-", " 1")
            yield "refused 8", command(plot, "-", " 0")
            for tiles in (DOMINOES, ".", TROMINOES, MANY):
                yield 0, command(plot, tiles)
            yield "refused 7", command(plot, "-,3")
            for other in cells[:place]:
                plot = built(text, KINDS[place % 3], cell(*at) | cell(*other))
                yield int(are_beside(at, other)), command(plot, DOMINOES)
                yield 1, command(plot, "-")
    for at, other in (((0, 0), (0, 1)), ((8, 7), (8, 8)), ((15, 15), (14, 15)), ((0, 0), (15, 15))):
        one, two = (built("RB 16 16", "both", left) for left in (cell(*at), cell(*at) | cell(*other)))
        yield 1, command(one, "-")
        yield 0, command(one, DOMINOES)
        yield int(are_beside(at, other)), command(two, DOMINOES)


def no_cuttings():
    """Boards with many free cells and the count 0, which stays: no tiles, or none that cut them."""
    for text in ("RB 1 1", "RB 3 3", "RB 5 1", "RB 16 16", "LB 2 1", "TB 1 1", "LB 2 8"):
        yield 0, command(plot_of(text), ".")
        yield 0, command(plot_of(text), "3" * MOST_CODES)
    for text in ("RB 1 1", "RB 3 3", "RB 5 1", "LB 2 1", "TB 1 1"):
        yield 0, command(plot_of(text), DOMINOES)
    yield 0, command(plot_of("RB 4 2"), "4,5")


def figures(_draws, ask):
    """Known plots; full boards, nearly full ones and others with the count 0, by hand."""
    pairs = [*known_figures(ask), *full_boards(), *refused_full_boards()]
    return held(ask, pairs + [*nearly_full_boards(), *no_cuttings()])


def random_figures(draws, ask):
    """Random plots, half of them full or nearly full, each by `layers` and by `cuttings`."""
    drawn = [plots.counted_plot(draws, 6) for _ in range(260)]
    for plot in drawn:
        cases.some_for_cuttings(draws, plot)
    commands = []
    for plot, weight in zip(drawn, plots.weights_of(ask, drawn)):
        room = cases.room_for_cuttings(draws, weight)
        commands += [plot.command("layers") + room, plot.command("cuttings") + room]
    held(ask, ((None, text) for text in commands if text.startswith("cuttings")))
    return different(commands)


# Plot files.

BUILT = ["RB 3 1", "RB 3 3", "RB 4 2", "RB 5 1", "RB 16 1", "RB 1 16", "RB 4 4", "LB 2 2", "LB 4 1", "LB 16 1"]
BUILT += ["TB 2 1", "TB 0 2", "TB 1 2"]
# Tiles of one number of cells, with their number, and of several.
TILES = {"": 0, "TI -": 1, "OR 3": 4, "OR 33 OR 30": 12, "TI 33": 1, "OR 306": 8, "TI 3 TI 2 TI 32": 3}
MIXED = {"TI - TI 3": 2, "OR 3 OR 33": 8, "TI 3021 TI 33": 2}
NO_TILING = "graph 0 nodes 1 edges 0|"


def built_files():
    """All cells that the board leaves free are fixed: the figure is 1, or refused by 7."""
    lists = list(TILES.items())
    for turn, text in enumerate(BUILT):
        cells = free_places(text)
        for tiles, number in (lists[(turn + step) % 7] for step in range(0, 7, 2)):
            yield words(text, 0, number) + f"layers 0|cuttings 1|{NO_TILING}", with_holes(text, cells, tiles)
        tiles, number = list(MIXED.items())[turn % 3]
        counts = "layers refused 7|cuttings refused 7|graph refused 7|"
        yield words(text, 0, number) + counts, with_holes(text, cells, tiles)


def nearly_built_files():
    """The last cell is left, or the last two, which stand side by side."""
    for text in BUILT:
        cells = free_places(text)
        one, none = "layers 1|cuttings 1|graph 1 nodes ", f"layers 0|cuttings 0|{NO_TILING}"
        yield words(text, 1, 1) + one, with_holes(text, cells[:-1], "TI -")
        yield words(text, 1, 4) + none, with_holes(text, cells[:-1], "OR 3")
        yield words(text, 2, 4) + one, with_holes(text, cells[:-2], "OR 3")
        yield words(text, 2, 0) + none, with_holes(text, cells[:-2], "")


def refused_figures():
    """Layers that are refused by 8 or by 9, and the figure with them."""
    for text in ("RB 16 16 HO 0 0 HO 15 15 OR 3", "RB 16 16 HO 0 0 HO 0 1 OR 3", "RB 12 12 HO 3 3 OR 33 OR 30"):
        yield "|layers refused 8|cuttings refused 8|graph refused 8|", whole(text)
    for text in ("RB 16 16 HO 0 0 HO 0 1 TI 3 TI 6 TI 5", "RB 16 16 HO 0 15 TI 3 TI 6 TI 5"):
        yield "|layers refused 9|cuttings refused 9|graph refused ", whole(text)


# How many cuttings n by 2 has in pairs.
PAIRS = {1: 1, 2: 2, 3: 3, 4: 5, 5: 8}


def products():
    """Two neighbours as one plot, a line of holes between them: its figure is the product of theirs.

    A neighbour that is built over, of which every cell is a hole, leaves the product as it is.
    """
    for width, count in PAIRS.items():
        for other in (1, 2, 3):
            text = parted([width, other], [2])
            yield f"|cuttings {count * PAIRS[other]}|", whole(f"{text} OR 3")
            beside = plot_in(text).free() & ~Plot(width, 2).inside()
            yield f"|cuttings {count}|", with_holes(text, places(beside), "OR 3")
            here = plot_in(text).free() & Plot(width, 2).inside()
            yield f"|layers 0|cuttings 1|{NO_TILING}", with_holes(text, places(here | beside), "OR 3")
