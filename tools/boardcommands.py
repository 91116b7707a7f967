"""The commands of the program replay_boards: directions, tiles, boards and children.

Each section answers a list of commands, by its own generator and, for runs, by the oracle's
answers.
"""

import itertools
import sys

sys.dont_write_bytecode = True
import plots
from holeplots import plots_with_holes
from knownplots import L_TILES, different
from plots import CODES, DOMINOES, FEW_CODES, MOST_CODES, MOST_TILES, Plot

# Two orbits, the single tile with a pair, 01's UpLeft and UpRight, tiles of unequal numbers of
# cells, one that comes back to its start, and no tiles.
SMALL_TILES = [DOMINOES, L_TILES, "-,3", "4,5", "33,1,20", "3021", "."]


def short_paths():
    """All paths of length 0, 1 and 2."""
    return ["-"] + list(CODES) + [a + b for a in CODES for b in CODES]


def directions(_draws, _ask):
    return [f"direction {code}" for code in CODES]


def orbits(draws, _ask):
    paths = short_paths()
    for length in range(3, 9):
        paths += draws.paths(40, length)
    for length in (16, 31, 32):
        paths += draws.paths(10, length)
    return [f"orbit {path}" for path in paths]


def tiles(draws, _ask):
    lengths = list(range(MOST_CODES + 1))
    while len(lengths) < 60:
        lengths.append(draws.below(MOST_CODES + 1))
    return [f"tile {draws.path(length)}" for length in lengths]


def sizes(draws, _ask):
    paths = short_paths()
    for length in range(3, MOST_CODES + 1):
        paths.append(draws.path(length))
        paths += [draws.path(length, draws.one_of(FEW_CODES)) for _ in range(3)]
    return [f"size {path}" for path in paths]


def named_tiles(_draws, _ask):
    return [f"{name} {n}" for name in "lt" for n in range(41)]


def singles(draws, _ask):
    lists = [".", "-", "3", "-,-", "3,-", "-,3", "3,2", "3,1,2,0", "3,-,1,2", "20,306,-"]
    lists.append(",".join(["0"] * 64))
    lists.append(",".join(["0"] * 63 + ["-"]))
    for number in range(1, 9):
        lists.append(",".join(draws.path(draws.below(5)) for _ in range(number)))
    return [f"single {tiles}" for tiles in lists]


def markings(width, height):
    """Every board of a size: each cell is free, fixed or laid."""
    cells = [plots.cell(row, column) for row in range(height) for column in range(width)]
    for kinds in itertools.product(range(3), repeat=len(cells)):
        fixed = sum(c for c, kind in zip(cells, kinds) if kind == 1)
        laid = sum(c for c, kind in zip(cells, kinds) if kind == 2)
        yield Plot(width, height, fixed, laid)


def small_boards(draws, _ask):
    """All markings of three sizes with every list; some of larger sizes, each with two lists."""
    commands = []
    for size in ((2, 2), (3, 1), (1, 3)):
        for plot, tiles in itertools.product(markings(*size), SMALL_TILES):
            commands.append(f"children {plot.board()} {tiles}")
    for size in ((3, 2), (2, 3), (3, 3)):
        every = list(markings(*size))
        for _ in range(60):
            board = draws.one_of(every).board()
            commands += [f"children {board} {draws.one_of(SMALL_TILES)}" for _ in range(2)]
    return commands


def arbitrary_plots(draws, _ask):
    return [plots.some_plot(draws, True).command() for _ in range(340)]


def runs(draws, ask):
    """Boards of real runs: from a plot with no laid mark, each next one a random child."""
    commands = []
    running = [plots.some_plot(draws, False) for _ in range(80)]
    for _ in range(14):
        asked = [plot.command() for plot in running]
        commands += [command for command in asked if draws.one_in(2)]
        children = [answer.split()[1:] for answer in ask(asked)]
        pairs = [(plot, found) for plot, found in zip(running, children) if found]
        running = [plot.child(draws.one_of(found)) for plot, found in pairs]
    return commands


def some_plots_where(draws, number, holds):
    """Plots of fewer than 100 cells, with at most 9 tiles, where something holds."""
    found = []
    while len(found) < number:
        plot = plots.some_plot(draws, True)
        if plot.width * plot.height < 100 and plot.tiles.count(",") < 9 and holds(plot):
            found.append(plot)
    return found


def crowded_plots(draws, _ask):
    """Plots with a neighbour count of 4: without a single tile, and with one at a random place."""
    commands = []
    for plot in some_plots_where(draws, 60, lambda plot: plot.choice()[0] == 4):
        paths = [path for path in plot.tiles.split(",") if path not in ("-", ".")]
        commands.append(f"children {plot.board()} {','.join(paths) or '.'}")
        paths.insert(draws.below(len(paths) + 1), "-")
        commands.append(f"children {plot.board()} {','.join(paths)}")
    return commands


def tied_plots(draws, _ask):
    """Plots where several cells have the highest count, and tiles that make equal pieces."""
    tied = some_plots_where(draws, 80, lambda plot: plot.choice()[2] > 1)
    lists = plots.ORBITS + plots.EQUAL_PIECES
    return [f"children {plot.board()} {draws.one_of(lists)}" for plot in tied]


def open_plots(draws, _ask):
    """Plots with many children, for their order."""
    return [plots.open_plot(draws).command() for _ in range(60)]


def long_tiles(draws, _ask):
    """Paths of 9 to 32 codes over free cells, on plots with room for them."""
    commands = []
    for _ in range(40):
        plot = Plot(4 + draws.below(13), 4 + draws.below(13))
        plot.fixed = plot.inside() & draws.cells(-3)
        plot.laid = plot.inside() & ~plot.fixed & draws.cells(-3)
        lengths = [9 + draws.below(MOST_CODES - 8) for _ in range(1 + draws.below(3))]
        plot.tiles = ",".join(plots.fitting_path(draws, plot, length) for length in lengths)
        commands.append(plot.command())
    return commands


def made_boards(_draws, _ask):
    commands = [f"new {width} {height}" for width in range(19) for height in range(19)]
    for name in ("lb", "tb"):
        commands += [f"{name} {n} {scale}" for n in range(21) for scale in range(11)]
    return commands


def full_boards(draws, _ask):
    """All markings of 2 by 2; larger boards with no free cell, and with some or none."""
    boards = [plot.board() for plot in markings(2, 2)] + ["0 0 0 0"]
    for _ in range(30):
        plot = Plot(1 + draws.below(16), 1 + draws.below(16))
        plot.fixed = plot.inside() & draws.half()
        plot.laid = plot.inside() & ~plot.fixed
        boards.append(plot.board())
        plot.laid &= draws.cells(3)
        boards.append(plot.board())
    return [f"full {board}" for board in boards]


def refusals(_draws, _ask):
    """Boards that are none, too many tiles, too long tiles, and two causes at once."""
    boards = ["17 16 0 0", "16 17 0 0", "0 1 0 0", "1 0 0 0", "0 0 1 0", "0 0 0 1", "2 2 1 1"]
    boards += ["2 2 4 0", "2 2 0 4", "2 2 0 100000000", "16 16 8000 8000", "3 15 0 1" + 60 * "0"]
    commands = []
    for board in boards:
        commands += [f"full {board}", f"children {board} 3"]
    many = ",".join(["3"] * (MOST_TILES + 1))
    long = "3" * (MOST_CODES + 1)
    for board in ("17 1 0 0", "2 2 1 1", "3 2 0 0", "0 0 0 0"):
        commands += [f"children {board} {tiles}" for tiles in (many, long, f"{many},{long}")]
    return commands


def wide_boards(_draws, _ask):
    """Sizes that pass 16 far off; in bytes some of them would wrap to a board: LB 2,128, TB 128,1."""
    pairs = ["lb 2 128", "lb 1 128", "lb 256 1", "tb 128 1", "tb 127 1", "tb 0 128"]
    return pairs + ["new 256 1", "new 1 256", "new 256 256"]


# Numbers far too large for a row or a column. 2^60 rows of 16 would be cell 0 again in 64 bits.
FAR = [16, 17, 128, 255, 256, 2**16, 2**32, 2**59, 2**60, 2**60 + 1, 2**63, 2**64 - 16, 2**64 - 1]


def holes(draws, _ask):
    """02's request 2, a cell that is fixed: on every marking of small boards, at the corners of large
    ones, outside, far outside, on random boards, and on what is no board."""
    commands = holes_of_small_boards() + holes_outside() + random_holes(draws)
    return different(commands + holes_of_no_boards())


def holes_of_small_boards():
    """Every cell, and the row and the column behind them."""
    commands = []
    for width, height in ((2, 2), (3, 1), (1, 3)):
        cells = list(itertools.product(range(height + 1), range(width + 1)))
        for plot in markings(width, height):
            commands += [f"hole {plot.board()} {row} {column}" for row, column in cells]
    for size in ((1, 1), (3, 2), (2, 3), (4, 3), (3, 4)):
        board = Plot(*size).board()
        cells = itertools.product(range(size[1] + 1), range(size[0] + 1))
        commands += [f"hole {board} {row} {column}" for row, column in cells]
    return commands


def holes_outside():
    """Corners of large boards, cells beside them and far off; 0 by 0 has no cell."""
    commands = []
    for plot in (Plot(16, 16), Plot(16, 1), Plot(1, 16), Plot(15, 16), Plot(16, 15), Plot(5, 9), Plot(1, 1)):
        last, right = plot.height - 1, plot.width - 1
        places = [(0, 0), (0, right), (last, 0), (last, right), (last // 2, right // 2)]
        places += [(last + 1, 0), (0, right + 1), (last + 1, right + 1), (last, right + 1), (last + 1, right)]
        places += [(far, 0) for far in FAR] + [(0, far) for far in FAR] + [(far, far) for far in FAR]
        places += [(2**60, right), (2**60 + last, right), (last, 2**64 - 1 - right)]
        commands += [f"hole {plot.board()} {row} {column}" for row, column in places]
    for row, column in [(0, 0), (0, 1), (1, 0), (15, 15), (2**60, 0), (2**64 - 1, 2**64 - 1)]:
        commands.append(f"hole 0 0 0 0 {row} {column}")
    return commands


def random_holes(draws):
    """Random boards with both kinds of marks: a free cell, a marked one, or any; full boards too."""
    commands = []
    for turn in range(240):
        plot = Plot(1 + draws.below(16), 1 + draws.below(16))
        plot.fixed = plot.inside() & draws.cells(draws.below(7) - 3)
        plot.laid = plot.inside() & ~plot.fixed & draws.cells(draws.below(7) - 3)
        if turn % 24 == 0:
            plot.laid = plot.inside() & ~plot.fixed
        wanted = [plot.free(), plot.fixed, plot.laid, plot.inside()][turn % 4] or plot.inside()
        bits = [bit for bit in range(256) if wanted >> bit & 1]
        row, column = divmod(draws.one_of(bits), 16)
        commands.append(f"hole {plot.board()} {row} {column}")
        if draws.one_in(4):  # the same with row and column exchanged
            commands.append(f"hole {plot.board()} {column} {row}")
    return commands


def holes_of_no_boards():
    """4, what is no board, before 15."""
    boards = ["17 16 0 0", "16 17 0 0", "0 1 0 0", "1 0 0 0", "0 0 1 0", "0 0 0 1", "2 2 1 1", "2 2 4 0"]
    boards += ["2 2 0 4", "2 2 0 100000000", "16 16 8000 8000", "3 15 0 1" + 60 * "0", "256 1 0 0"]
    boards += ["4 4 1000f f", "16 1 10000 0", "1 16 2 0", "18446744073709551615 1 0 0"]
    cells = [(0, 0), (0, 1), (1, 1), (16, 16), (2**60, 0), (2**64 - 1, 2**64 - 1)]
    return [f"hole {board} {row} {column}" for board in boards for row, column in cells]


def children_with_holes(draws, ask):
    """Children of plots with holes, in order, and of some boards on their way."""
    commands = []
    running = plots_with_holes(draws)
    for _ in range(4):
        asked = [plot.command() for plot in running]
        commands += asked
        children = [answer.split()[1:] for answer in ask(asked)]
        pairs = [(plot, found) for plot, found in zip(running, children) if found]
        running = [plot.child(draws.one_of(found)) for plot, found in pairs if draws.below(3)]
    return different(commands)


SECTIONS = [directions, orbits, tiles, sizes, named_tiles, singles]
SECTIONS += [small_boards, arbitrary_plots, runs, crowded_plots, tied_plots]
SECTIONS += [open_plots, long_tiles, made_boards, full_boards, refusals, wide_boards]
LATER_SECTIONS = [holes, children_with_holes]
