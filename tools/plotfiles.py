#!/usr/bin/env python3
"""Plot files: how they are written, and random ones for the commands `plot`.

    plotfiles.py WORDS > FILE

writes the plot file of some words: a board, `RB WIDTH HEIGHT`, `LB N SCALE` or `TB N SCALE`; then holes,
`HO ROW COLUMN`, counted from 0; then tiles, `TI PATH` or `OR PATH`, a PATH being codes 0 to 7 in one word
and `-` for the empty one, or `pairs`, `threes` or `fours` for the orbits of all edge-joined pieces of so
many cells. `plotfiles.py RB 8 8 HO 0 0 HO 0 7 pairs > my.plot` writes 8 by 8 without its upper corners, in
pairs. Neither sizes nor cells nor the order of the records are judged here: the program tells its
refusals.

Nothing here answers a command. Files that come with what 01 or 02 has for them stand in filecases.py and
holecases.py.
"""

import sys

sys.dont_write_bytecode = True
import plots

BOARDS = ("RB", "LB", "TB")
HOLE = "HO"
TILES = ("TI", "OR")
EN = b"EN"
PIECES = {"pairs": "OR 3", "threes": "OR 33 OR 30", "fours": "OR 333 OR 330 OR 303 OR 306 OR 302"}


def board(mark, a, b):
    """A board's record."""
    return mark.encode() + bytes([a, b])


def hole(row, column):
    """The record of a cell that is fixed, as 02's request 2 has it."""
    return HOLE.encode() + bytes([row, column])


def tile(mark, path):
    """The record of a tile or of its orbit."""
    codes = bytes(map(int, path.strip("-")))
    return mark.encode() + bytes([len(codes)]) + codes


def records(text):
    """The records of a text such as `RB 2 2 HO 0 1 TI 31 OR -`: boards and holes have two numbers."""
    words = text.split()
    found = []
    while words:
        mark = words.pop(0)
        if mark in BOARDS or mark == HOLE:
            found.append(board(mark, int(words.pop(0)), int(words.pop(0))))
        else:
            found.append(tile(mark, words.pop(0)))
    return found


def start(text):
    """The records of a text, with no end behind them."""
    return b"".join(records(text))


def whole(text):
    """The file of a text's records."""
    return start(text) + EN


def command(file):
    return f"plot {file.hex() or '-'}"


def bodies(file):
    """The marks and bodies of a file that is read, but for EN."""
    found, rest = [], file
    while rest != EN:
        mark = rest[:2].decode()
        end = 4 if mark in BOARDS or mark == HOLE else 3 + rest[2]
        found.append((mark, rest[2:end]))
        rest = rest[end:]
    return found


# Random files: a list of records, EN among them, and what is done to it.

SHAPES = [text.upper() for text in plots.SHAPES]


def some_shape(draws):
    """A small board of any kind; now and then 0 by 0, a long one or a larger one."""
    kind = draws.below(16)
    if kind == 0:
        return draws.one_of(["RB 0 0", "LB 3 0", "TB 2 0"])
    if kind < 5:
        return draws.one_of(SHAPES)
    if kind < 7:
        sides = 7 + draws.below(10), 1 + draws.below(2)
        return "RB {} {}".format(*(sides if draws.one_in(2) else sides[::-1]))
    if kind == 7:
        return f"RB {4 + draws.below(5)} {4 + draws.below(5)}"
    return f"RB {1 + draws.below(5)} {1 + draws.below(5)}"


def free_cells(text):
    """How many cells of a board are free."""
    mark, a, b = text.split()[0], *map(int, text.split()[1:])
    if mark == "RB":
        return a * b
    return b * (b + (a if mark == "LB" else 2 * a + 1) * b)


def some_shape_for(draws, cells):
    """A board; in most cases tiles of so many cells may fill it."""
    shape = some_shape(draws)
    for _ in range(draws.below(6)):
        if free_cells(shape) % cells:
            shape = some_shape(draws)
    return shape


def some_paths(draws):
    """Marks and paths of tiles: of one number of cells, of any, none, or very many."""
    kind = draws.below(12)
    if kind == 0:
        return []
    if kind < 5:
        return [("TI", path) for path in plots.equal_tiles(draws).split(",")]
    if kind < 7:
        return [("OR", draws.path(1 + draws.below(4), draws.one_of(["0123", plots.CODES])))]
    if kind < 10:
        number = 1 + draws.below(5)
        marks = [draws.one_of(["TI", "TI", "OR"]) for _ in range(1 + draws.below(5))]
        return [(mark, plots.covering_path(draws, number)) for mark in marks]
    if kind == 10:
        return [("TI", draws.one_of(plots.CODES))] * draws.one_of([63, 64, 65])
    lengths = [draws.below(draws.one_of([3, 6, 33])) for _ in range(1 + draws.below(5))]
    return [(draws.one_of(TILES), draws.path(length)) for length in lengths]


def some_records(draws):
    """The records of a random file; most such files are read."""
    paths = some_paths(draws)
    cells = len(plots.cells_of(paths[0][1])) if paths else 1
    shape = some_shape_for(draws, cells)
    return records(shape) + [tile(mark, path) for mark, path in paths] + [EN]


# Bytes at which the reading of a file changes, and the letters of the marks.
TURNS = bytes([0, 1, 2, 3, 6, 7, 8, 9, 16, 17, 31, 32, 33, 34, 63, 64, 65, 127, 128, 255])
TURNS += b"RBLTIOEN"


def some_byte(draws, file):
    """A byte for a file; for one with holes the letter H too."""
    turns = TURNS + b"H" if HOLE.encode() in file else TURNS
    return bytes([draws.one_of(turns) if draws.below(4) else draws.below(256)])


def cut(draws, found):
    file = b"".join(found)
    return file[: draws.below(len(file))]


def with_byte_changed(draws, found):
    file = b"".join(found)
    at = draws.below(len(file))
    return file[:at] + some_byte(draws, file) + file[at + 1 :]


def with_byte_removed(draws, found):
    file = b"".join(found)
    at = draws.below(len(file))
    return file[:at] + file[at + 1 :]


def with_byte_inserted(draws, found):
    file = b"".join(found)
    at = draws.below(len(file) + 1)
    return file[:at] + some_byte(draws, file) + file[at:]


def with_records_exchanged(draws, found):
    other = list(found)
    i, k = draws.below(len(found)), draws.below(len(found))
    other[i], other[k] = found[k], found[i]
    return b"".join(other)


def with_record_repeated(draws, found):
    at, to = draws.below(len(found)), draws.below(len(found) + 1)
    return b"".join([*found[:to], found[at], *found[to:]])


def with_record_removed(draws, found):
    at = draws.below(len(found))
    return b"".join(found[:at] + found[at + 1 :])


DAMAGES = {
    "cut": cut,
    "with a byte changed": with_byte_changed,
    "with a byte removed": with_byte_removed,
    "with a byte inserted": with_byte_inserted,
    "with records exchanged": with_records_exchanged,
    "with a record repeated": with_record_repeated,
    "with a record removed": with_record_removed,
}


def some_file(draws):
    """What was done to a random file, and the file: two of five are left as they were made."""
    found = some_records(draws)
    if draws.below(5) < 2:
        return "as made", b"".join(found)
    return some_damage(draws, found)


def some_damage(draws, found):
    """Some records with a damage, or with two."""
    name = draws.one_of(list(DAMAGES))
    file = DAMAGES[name](draws, found)
    if file and draws.one_in(8):
        again = draws.one_of([cut, with_byte_changed, with_byte_inserted])
        return "damaged twice", again(draws, [file])
    return name, file


# Random files with holes.


def plot_of(text):
    """A board with its fixed marks, of words such as `LB 3 1`; sizes are right."""
    mark, a, b = text.split()[0], *map(int, text.split()[1:])
    if mark == "RB":
        return plots.Plot(a, b)
    plot = plots.Plot((a if mark == "LB" else 2 * a + 1) * b, 2 * b)
    kept = range(b) if mark == "LB" else range(a * b, (a + 1) * b)
    columns = [column for column in range(plot.width) if column not in kept]
    plot.fixed = sum(plots.cell(row, column) for row in range(b) for column in columns)
    return plot


def plot_in(text):
    """The plot of a text with holes, such as `RB 3 3 HO 1 1 OR 3`."""
    words = text.split()
    plot = plot_of(" ".join(words[:3]))
    tiles = []
    for mark, body in bodies(whole(text))[1:]:
        if mark == HOLE:
            plot.fixed |= plots.cell(*body)
            continue
        path = "".join(map(str, body[1:])) or "-"
        tiles += plots.orbit(path) if mark == "OR" else [path]
    plot.tiles = ",".join(tiles) or "."
    return plot


def places(cells):
    """The rows and columns of a set of cells, in the order of their bits."""
    return [(bit // 16, bit % 16) for bit in range(256) if cells >> bit & 1]


def shuffled(draws, items):
    found = list(items)
    for last in range(len(found) - 1, 0, -1):
        other = draws.below(last + 1)
        found[last], found[other] = found[other], found[last]
    return found


def with_holes(text, cells, tiles=""):
    """The file of a board, of holes at some rows and columns in their order, and of tiles."""
    return start(text) + b"".join(hole(*at) for at in cells) + whole(tiles)


def some_holes(draws, plot, cells):
    """Free cells of a plot whose tiles have so many cells: few, many, all, or all but cut ones."""
    free = places(plot.free())
    kind = draws.below(24)
    if kind == 0 or not free:
        return free
    if kind < 11 and plot.tiles != ".":
        return places(plot.free() & ~plots.cut_cells(draws, plot))
    if kind < 13:
        return places(plot.free() & draws.cells(draws.one_of([-2, -1, 0, 1, 2])))
    number = draws.below(4)
    if draws.below(4):  # so that the tiles may fill what is left
        number += (len(free) - number) % cells
    return shuffled(draws, free)[:number]


def some_large_plot(draws, tiles):
    """16 by 16, of which few cells are free: those of a small rectangle, and the rest holes."""
    plot = plots.Plot(16, 16, tiles=tiles)
    width, height = 1 + draws.below(4), 1 + draws.below(4)
    row, column = draws.below(17 - height), draws.below(17 - width)
    corner = plots.Plot(width, height).inside() << 16 * row + column
    return plot, places(plot.inside() & ~corner)


def some_bad_hole(draws, plot, holes):
    """A cell that is refused, and why: outside the board, or marked already."""
    row, column = (draws.below(side + 1) for side in (plot.height, plot.width))
    kind = draws.below(4)
    if kind == 0 and holes:
        return "a hole twice", draws.one_of(holes)
    if kind == 1 and plot.fixed:
        return "a hole on a mark of the board", draws.one_of(places(plot.fixed))
    far = draws.one_of([16, 17, 128, 255])
    outside = [(plot.height, column), (row, plot.width), (far, column), (row, far), (far, far)]
    return "a hole outside", draws.one_of(outside)


def some_plot_with_holes(draws):
    """A board's words and its plot, the holes in some order, and the records of the tiles."""
    paths = some_paths(draws)
    tiles = []
    for mark, path in paths:
        tiles += plots.orbit(path) if mark == "OR" else [path]
    larger = f"RB {3 + draws.below(5)} {3 + draws.below(4)}"
    shape = draws.one_of([some_shape(draws), larger])
    plot = plot_of(shape)
    plot.tiles = ",".join(tiles) or "."
    holes = some_holes(draws, plot, len(plots.cells_of(tiles[0])) if tiles else 1)
    if draws.one_in(24):
        shape = "RB 16 16"
        plot, holes = some_large_plot(draws, plot.tiles)
    return shape, plot, shuffled(draws, holes), [tile(mark, path) for mark, path in paths]


def some_records_with_holes(draws):
    """What was done to a random file with holes, and its records; most such files are read.

    Some have a bad hole, one in a wrong place, or end in a hole's record.
    """
    shape, plot, holes, tiles = some_plot_with_holes(draws)
    name, kind = "with holes", draws.below(20)
    bad, at = some_bad_hole(draws, plot, holes)
    if kind < 2:
        name = bad
        holes.insert(draws.below(len(holes) + 1), at)
    found = [*records(shape), *(hole(*other) for other in holes), *tiles, EN]
    if kind == 2:
        name = "a hole in any place"
        found.insert(draws.below(len(found) + 1), hole(*draws.one_of([at, (0, 0), *holes])))
    if kind == 3:
        name = "cut in a hole"
        place = draws.one_of([0, 1 + len(holes), 1 + draws.below(len(found) - 1)])
        found[place:] = [hole(*draws.one_of([at, (0, 0)]))[: 2 + draws.below(2)]]
    return name, found


def some_file_with_holes(draws):
    """What was done to a random file with holes, and the file: three of five are left as made."""
    name, found = some_records_with_holes(draws)
    if draws.below(5) < 3:
        return name, b"".join(found)
    name, file = some_damage(draws, found)
    return f"with holes, {name.removeprefix('with ')}", file


def some_file_of_either(draws):
    """A random file, half of them with holes."""
    return some_file_with_holes(draws) if draws.one_in(2) else some_file(draws)


def main(arguments):
    words = " ".join(PIECES.get(word, word) for word in arguments)
    try:
        file = whole(words)
    except (IndexError, ValueError):
        sys.exit(__doc__)
    if not file.startswith(tuple(mark.encode() for mark in BOARDS)):
        sys.exit(__doc__)
    sys.stdout.buffer.write(file)


if __name__ == "__main__":
    main(sys.argv[1:])
