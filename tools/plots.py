"""Random boards and tiles for make-answers and the comparisons, and the running of the oracle.

A set of cells is a number, cell (row, column) being bit 16 * row + column. What stands here about
neighbour counts and the chosen cell only picks and counts cases; answers are the programs' own.
"""

import collections
import os
import pathlib
import subprocess
import sys

ROOT = pathlib.Path(__file__).resolve().parent.parent
MOST_CODES = 32  # of a path
MOST_TILES = 64
CODES = "01234567"
OPPOSITE = "10326745"
TURNED = "32015674"
REFLECTED = "10237654"
STEPS = [(-1, 0), (1, 0), (0, -1), (0, 1), (-1, -1), (-1, 1), (1, 1), (1, -1)]
EDGE_STEPS = STEPS[:4]
# Few codes make paths that cross themselves or go back.
FEW_CODES = ["01", "23", "46", "57", "0123", "4567", "013", "236", "0256", "1347"]

DOMINOES = "3,1,2,0"
ORBITS = [DOMINOES, "20,03,31,12,21,02,30,13", "306,137,214,025,315,126,207,034", "33,11,22,00"]
# Tiles that make one piece from several points, or of which several make one piece.
EQUAL_PIECES = ["3,2", "32", "0101", "3021", "33,22", "313,202", "5,7,57", "3021,0213", "44,66"]
# Lists of one number of cells, of pieces that are connected along edges: 2, 3, 4, 4, 4 cells.
TROMINOES = "33,11,31,13,30,21"
TETROMINOES = "333,221,3103,331,130,211,313,311,133,1103,131,113,111,212,1233,121,1102,112,122"
ONE_SIZE = ["3,1,32,0101", TROMINOES, TETROMINOES, "3021,0213,333", "331,3032,1103"]

COLUMNS = [sum(1 << (16 * row + column) for row in range(16)) for column in range(16)]
ROWS = [0xFFFF << (16 * row) for row in range(16)]


class Draws:
    """A 64-bit xorshift generator; its seed is not 0."""

    def __init__(self, seed):
        self.state = seed
        for _ in range(16):
            self.word()

    def word(self):
        x = self.state
        x ^= (x << 13) & (2**64 - 1)
        x ^= x >> 7
        x ^= (x << 17) & (2**64 - 1)
        self.state = x
        return x

    def below(self, limit):
        return (self.word() >> 32) % limit

    def one_of(self, items):
        return items[self.below(len(items))]

    def one_in(self, number):
        return self.below(number) == 0

    def path(self, length, codes=CODES):
        return "".join(self.one_of(codes) for _ in range(length)) or "-"

    def paths(self, number, length):
        """Different paths of one length."""
        found = []
        while len(found) < number:
            path = self.path(length)
            if path not in found:
                found.append(path)
        return found

    def half(self):
        """A set that has each cell or not."""
        return sum(self.word() << (64 * i) for i in range(4))

    def cells(self, thickness):
        """A set: thickness -3 to 3 is about 1/16, 1/8, 1/4, 1/2, 3/4, 7/8, 15/16 of the cells."""
        found = self.half()
        for _ in range(abs(thickness)):
            found = found | self.half() if thickness > 0 else found & self.half()
        return found


def cell(row, column):
    return 1 << (16 * row + column)


class Plot:
    """A board and tiles. The tiles are a text, paths joined by commas or `.`."""

    def __init__(self, width, height, fixed=0, laid=0, tiles="."):
        self.width, self.height = width, height
        self.fixed, self.laid, self.tiles = fixed, laid, tiles

    def inside(self):
        return sum(COLUMNS[: self.width]) & sum(ROWS[: self.height])

    def free(self):
        return self.inside() & ~self.fixed & ~self.laid

    def board(self):
        return f"{self.width} {self.height} {self.fixed:x} {self.laid:x}"

    def command(self, name="children"):
        return f"{name} {self.board()} {self.tiles}"

    def child(self, marks):
        """The plot of a child, whose marks of both kinds are given as in an answer."""
        laid = int(marks, 16) & ~self.fixed
        return Plot(self.width, self.height, self.fixed, laid, self.tiles)

    def has_single(self):
        return "-" in self.tiles.split(",")

    def choice(self):
        """The highest neighbour count of a free cell, its first holder and the number of holders.

        The counts are added up for all cells at once, as three sets of their binary digits.
        """
        if not self.free():
            return -1, 0, 0
        laid = self.laid
        ones = COLUMNS[0] | COLUMNS[self.width - 1] | ROWS[0] | ROWS[self.height - 1]
        twos = fours = 0
        beside = (laid << 16, laid >> 16, laid << 1 & ~COLUMNS[0], laid >> 1 & ~COLUMNS[15])
        for more in beside:
            ones, more = ones ^ more, ones & more
            twos, more = twos ^ more, twos & more
            fours |= more
        for count in (4, 3, 2, 1, 0):
            best = self.free()
            for digit, cells in enumerate((ones, twos, fours)):
                best &= cells if count >> digit & 1 else ~cells
            if best:
                break
        column = next(c for c in COLUMNS if best & c) & best
        return count, (column & -column).bit_length() - 1, best.bit_count()


def reversed_path(path):
    """The path from its other end: the same pieces."""
    return "".join(OPPOSITE[int(code)] for code in path[::-1].strip("-")) or "-"


def orbit(path):
    """The turns of a path and of its reflection, first appearances kept."""
    if path == "-":
        return [path]
    found = []
    for start in (path, "".join(REFLECTED[int(code)] for code in path)):
        for _ in range(4):
            found.append(start)
            start = "".join(TURNED[int(code)] for code in start)
    return list(dict.fromkeys(found))


def some_size(draws):
    if draws.one_in(200):
        return 0, 0
    most = draws.one_of([3, 4, 6, 8, 12, 16, 16])
    width, height = 1 + draws.below(most), 1 + draws.below(most)
    if draws.one_in(8):
        return 16, height
    return (width, 16) if draws.one_in(8) else (width, height)


def enclose(draws, plot):
    """Frees a cell and lays the cells beside it; now and then some of them are fixed instead."""
    row, column = draws.below(plot.height), draws.below(plot.width)
    here = cell(row, column)
    plot.fixed &= ~here
    plot.laid &= ~here
    fixed_too = draws.one_in(4)
    for down, right in EDGE_STEPS:
        r, c = row + down, column + right
        if 0 <= r < plot.height and 0 <= c < plot.width:
            plot.fixed &= ~cell(r, c)
            plot.laid |= cell(r, c)
            if fixed_too and draws.one_in(3):
                plot.laid &= ~cell(r, c)
                plot.fixed |= cell(r, c)


def some_marks(draws, plot):
    """Fixed marks of any kind, and laid marks that need be no run's."""
    inside = plot.inside()
    if not inside:
        return
    if draws.one_in(2):
        plot.fixed = inside & draws.cells(draws.one_of([-3, -3, -2, -1, 0, 1]))
    thickness = draws.one_of([-3, -3, -3, -2, -2, -1, 0, 1, 2, 3])
    plot.laid = inside & ~plot.fixed & draws.cells(thickness)
    if draws.one_in(2):
        enclose(draws, plot)


def walk(draws, free, at, length):
    """A random path over free cells."""
    path = ""
    row, column = at // 16, at % 16
    for _ in range(length):
        ways = []
        for code, (down, right) in enumerate(STEPS):
            r, c = row + down, column + right
            if 0 <= r < 16 and 0 <= c < 16 and free & cell(r, c):
                ways.append((str(code), r, c))
        if not ways:
            break
        code, row, column = draws.one_of(ways)
        path += code
    return path or "-"


def fitting_path(draws, plot, length):
    """A path that lies on free cells with one of its points on the chosen cell."""
    count, at, _ = plot.choice()
    if count < 0:
        return "-"
    back = draws.below(length + 1)
    before = reversed_path(walk(draws, plot.free(), at, back)).strip("-")
    return before + walk(draws, plot.free(), at, length - back).strip("-") or "-"


def some_tile(draws, plot):
    length = draws.below(9) if draws.below(12) else draws.below(MOST_CODES + 1)
    kind = draws.below(5)
    if kind == 0:
        return draws.path(length)
    if kind == 1:
        return draws.path(length, draws.one_of(FEW_CODES))
    if kind == 2:
        return draws.path(1 + draws.below(3), "0123")
    return fitting_path(draws, plot, length)


def some_tiles(draws, plot):
    if draws.one_in(40):
        return "."
    kind = draws.below(16)
    if kind < 2:
        tiles = draws.one_of(ORBITS).split(",")
    elif kind < 6:
        tiles = orbit(some_tile(draws, plot))
        if draws.one_in(2):
            tiles += orbit(draws.path(1 + draws.below(4)))
    elif kind == 6:
        tiles = draws.one_of(EQUAL_PIECES).split(",")
    elif kind == 7:
        number = 1 + draws.below(MOST_TILES)
        tiles = [draws.path(1 + draws.below(4)) for _ in range(number)]
    else:
        tiles = [some_tile(draws, plot) for _ in range(1 + draws.below(6))]
    if draws.one_in(4):
        tiles.append(reversed_path(draws.one_of(tiles)))
    if draws.one_in(3):
        tiles.insert(draws.below(len(tiles) + 1), "-")
    return ",".join(tiles[:MOST_TILES])


def open_plot(draws):
    """A plot with few marks, a chosen cell in its midst and whole orbits: many children."""
    plot = Plot(5 + draws.below(12), 5 + draws.below(12))
    row, column = 2 + draws.below(plot.height - 4), 2 + draws.below(plot.width - 4)
    beside = [cell(row + down, column + right) for down, right in EDGE_STEPS]
    for _ in range(1 + draws.below(2)):
        beside.remove(draws.one_of(beside))
    plot.laid = sum(beside)
    if draws.one_in(2):
        plot.fixed = plot.inside() & draws.cells(-3) & ~plot.laid & ~cell(row, column)
    tiles = []
    for _ in range(1 + draws.below(3)):
        tiles += orbit(draws.path(1 + draws.below(6)))
    plot.tiles = ",".join(tiles)
    return plot


def some_plot(draws, with_laid):
    """A random plot; its laid marks are arbitrary, or there are none."""
    if with_laid and draws.one_in(8):
        return open_plot(draws)
    plot = Plot(*some_size(draws))
    some_marks(draws, plot)
    if not with_laid:
        plot.laid = 0
    plot.tiles = some_tiles(draws, plot)
    return plot


def cells_of(path):
    """The cells of a path as steps from its first point."""
    row = column = 0
    found = {(0, 0)}
    for code in path.strip("-"):
        down, right = STEPS[int(code)]
        row, column = row + down, column + right
        found.add((row, column))
    return found


def covering_path(draws, number):
    """A random path that covers so many cells."""
    codes = draws.one_of(["0123", CODES])
    while True:
        path = ""
        while len(cells_of(path)) < number and len(path) < 2 * number:
            path += draws.one_of(codes)
        if len(cells_of(path)) == number:
            return path or "-"


def equal_tiles(draws):
    """Tiles of one number of cells: known lists, orbits, and paths that cover as many."""
    kind = draws.below(16)
    if kind == 0:
        tiles = ["-"]
    elif kind < 8:
        tiles = draws.one_of(ORBITS + ONE_SIZE).split(",")
    elif kind < 12:
        tiles = orbit(draws.path(1 + draws.below(4), draws.one_of(["0123", CODES])))
    else:
        number = 2 + draws.below(4)
        tiles = [covering_path(draws, number) for _ in range(1 + draws.below(6))]
    if draws.one_in(4):
        tiles.append(reversed_path(draws.one_of(tiles)))
    return ",".join(tiles)


def cut_cells(draws, plot):
    """Cells that some tiles cut: each is laid at a random place, if the place is still free."""
    found = 0
    for _ in range(2 * plot.width * plot.height):
        path = draws.one_of(plot.tiles.split(","))
        row, column = draws.below(plot.height), draws.below(plot.width)
        at = [(row + down, column + right) for down, right in cells_of(path)]
        if all(0 <= r < plot.height and 0 <= c < plot.width for r, c in at):
            piece = sum(cell(r, c) for r, c in at)
            found |= piece if not piece & found else 0
    return found


def cell_numbers(tiles):
    """The different numbers of cells of some tiles."""
    return {len(cells_of(path)) for path in tiles.split(",") if path != "."}


def unequal_tiles(draws):
    """Tiles of several numbers of cells: known lists, single tiles and random paths, joined."""
    tiles = []
    while len(cell_numbers(",".join(tiles) or ".")) < 2 or draws.one_in(3):
        kind = draws.below(8)
        if kind == 0:
            more = ["-"]
        elif kind < 4:
            more = draws.one_of(ORBITS + ONE_SIZE + EQUAL_PIECES).split(",")
        else:
            more = [covering_path(draws, 2 + draws.below(4)) for _ in range(1 + draws.below(2))]
        tiles = (tiles + more)[-MOST_TILES:]
    return ",".join(tiles)


def counted_plot(draws, most, tiles_by=equal_tiles):
    """A plot to count, with sides of at most so many cells."""
    width, height = (1 + max(draws.below(most), draws.below(most)) for _ in range(2))
    return sized_plot(draws, width, height, tiles_by)


def long_plot(draws, tiles_by=equal_tiles):
    """A plot to count, with one side of at most 3 cells and the other of 7 to 16."""
    sides = 1 + draws.below(3), 7 + draws.below(10)
    return sized_plot(draws, *(sides if draws.one_in(2) else sides[::-1]), tiles_by)


# L and T boards of at most 36 free cells, as commands.
SHAPES = ["lb 2 1", "lb 3 1", "lb 4 1", "lb 5 1", "lb 8 1", "lb 2 2", "lb 3 2", "lb 4 2", "lb 2 3"]
SHAPES += ["tb 0 2", "tb 1 1", "tb 2 1", "tb 3 1", "tb 5 1", "tb 7 1", "tb 1 2", "tb 2 2", "tb 1 3"]


def shaped_plot(draws, made, tiles_by=equal_tiles):
    """A plot to count on one of the boards that answer SHAPES, with more marks at times."""
    width, height, fixed, _ = draws.one_of(made).split()
    plot = Plot(int(width), int(height), int(fixed, 16), tiles=tiles_by(draws))
    if draws.one_in(3):
        plot.fixed |= plot.free() & draws.cells(-3)
    if draws.one_in(3):
        plot.laid = plot.free() & draws.cells(-3)
    return plot


def plots_to_cut(draws, ask, number, tiles_by=equal_tiles):
    """So many plots: of sides up to 6, half of them, a quarter long, a quarter L and T boards."""
    shapes = ask(SHAPES)
    found = []
    while len(found) < number:
        found += [counted_plot(draws, 6, tiles_by), counted_plot(draws, 6, tiles_by)]
        found += [long_plot(draws, tiles_by), shaped_plot(draws, shapes, tiles_by)]
    return found[:number]


MOST_SEQUENCES = 50_000  # of a plot with equal tiles
MOST_FREE = 16  # cells of a plot with unequal tiles, unless one of them is single


def plots_to_search(draws, ask, number):
    """At most so many plots to find one tiling of, half of them drawn with unequal tiles.

    Where there is no tiling the Rust walks through all child sequences, so they have to be few.
    With a single tile every walk ends in a full board.
    """
    equal = plots_to_cut(draws, ask, number // 2)
    weights = weights_of(ask, equal)
    found = [p for p, w in zip(equal, weights) if w and w.sequences <= MOST_SEQUENCES]
    unequal = plots_to_cut(draws, ask, number // 2, unequal_tiles)
    return found + [p for p in unequal if p.has_single() or p.free().bit_count() <= MOST_FREE]


def is_sum(plot):
    """Whether the number of free cells is a sum of the tiles' numbers of cells."""
    sizes = cell_numbers(plot.tiles)
    sums = [True]
    for number in range(1, plot.free().bit_count() + 1):
        sums.append(any(size <= number and sums[number - size] for size in sizes))
    return sums[-1]


def sized_plot(draws, width, height, tiles_by=equal_tiles):
    """A plot to count, with tiles of one number of cells or of several.

    In half of them the free cells are some that the tiles cut, so that many counts are not 0.
    """
    plot = Plot(width, height, tiles=tiles_by(draws))
    inside = plot.inside()
    if draws.one_in(2):
        marked = inside & ~cut_cells(draws, plot)
    else:
        marked = inside & draws.cells(-3) if draws.one_in(2) else 0
    plot.laid = marked & draws.half() if draws.one_in(3) else 0
    plot.fixed = marked & ~plot.laid
    return plot


def blocks(columns, rows, tiles):
    """A plot of rectangles of these widths and heights, parted by lines of fixed marks."""
    plot = Plot(sum(columns) + len(columns) - 1, sum(rows) + len(rows) - 1, tiles=tiles)
    for i in range(1, len(columns)):
        plot.fixed |= COLUMNS[sum(columns[:i]) + i - 1] & plot.inside()
    for i in range(1, len(rows)):
        plot.fixed |= ROWS[sum(rows[:i]) + i - 1] & plot.inside()
    return plot


class Weight:
    """How large a graph and its layers are, by the oracle's answer to `weigh`."""

    def __init__(self, answer):
        nodes, edges, sequences, over, sizes = answer.split()
        self.nodes, self.edges, self.sequences = int(nodes), int(edges), int(sequences)
        self.over = None if over == "none" else int(over)
        self.sizes = [int(size) for size in sizes.split(",")]
        self.largest = max(self.sizes)


def weights_of(ask, plots, most=20_000):
    """The weights of some plots; none for unequal tiles or a graph of more nodes than the most."""
    answers = ask([f"{plot.command('weigh')} {most}" for plot in plots])
    return [Weight(answer) if " " in answer else None for answer in answers]


# What the program replay_counts lends where a command doesn't say: boards a layer; nodes and edges.
USUAL_ROOMS = {"layers": ["512"], "cuttings": ["512"], "graph": ["1024", "4096"]}


def with_rooms(command):
    """A command with its rooms written out, as the oracle asks for them; it takes none for `one`."""
    name, *fields = command.split()
    if name == "one":
        return " ".join([name, *fields[:5]])
    return command if len(fields) > 5 else " ".join([command, *USUAL_ROOMS.get(name, [])])


def stop(message):
    sys.exit(f"{os.path.basename(sys.argv[0])}: {message}")


def build_oracle(sources, folder):
    """Builds the oracle in a folder outside the repository; its file. ORACLE names one that is built."""
    if "ORACLE" in os.environ:
        return os.environ["ORACLE"]
    build = ROOT / "tools" / "oracle" / "build.sh"
    subprocess.run([build, sources, folder], check=True, stdout=sys.stderr)
    return os.path.join(folder, "oracle")


def answers_of(program, commands, threads=1):
    """Runs a program on commands, one a line; its answers. The Rust has so many threads.

    What it says on standard error is passed on, each line once.
    """
    run = subprocess.run(
        [program],
        input="".join(command + "\n" for command in commands),
        stdout=subprocess.PIPE,
        stderr=subprocess.PIPE,
        encoding="ascii",
        env={**os.environ, "RAYON_NUM_THREADS": str(threads)},
    )
    for said, times in collections.Counter(run.stderr.splitlines()).items():
        print(said if times == 1 else f"{said} ({times} times)", file=sys.stderr)
    run.check_returncode()
    answers = run.stdout.splitlines()
    if len(answers) != len(commands):
        stop(f"{program}: {len(commands)} commands, {len(answers)} answers")
    return answers
