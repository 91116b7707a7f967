"""Plot files with records HO, for the commands `plot`, that come with what 02's request 2 has for them.

As in filecases.py each is a pair: a refusal's number, or words of the answer, and the file. Both were
read off 02 and 01 by hand. Files by their counts stand in holecounts.py.
"""

import sys

sys.dont_write_bytecode = True
from filecases import LATER, WORKED_EXAMPLE, with_changes
from plotfiles import BOARDS, EN, HOLE, board, hole, places, plot_of, start, tile, whole, with_holes

HO = HOLE.encode()
# The places where a hole may stand and those where it may not, as texts: behind a board or another
# hole, and behind a tile.
OPEN = [text for text, tiles in LATER.items() if tiles == 0]
OPEN += ["RB 2 2 HO 0 1", "LB 3 1 HO 0 0 HO 1 2", "TB 1 1 HO 1 1"]
CLOSED = [text for text, tiles in LATER.items() if tiles > 0]
CLOSED += ["RB 2 2 HO 0 1 TI 3", "RB 2 2 HO 0 1 OR 3", "RB 2 2 TI -", "RB 2 2 HO 1 0 OR -", "RB 0 0 TI -"]


def free_places(text):
    """The free cells of a board, in the order of their bits."""
    return places(plot_of(text).free())


def marked_places(text):
    """The cells that LB or TB marks."""
    return places(plot_of(text).fixed)


def by_columns(cells):
    return sorted(cells, key=lambda at: at[::-1])


def size_of(text):
    plot = plot_of(text)
    return plot.width, plot.height


def words(text, free, tiles):
    """The words on a board of which so many cells are free, and on tiles."""
    width, height = size_of(text)
    return f"board {width} {height} free {free}|tiles {tiles}|"


def hole_marks():
    """1, a mark H is cut; 2, one near HO is unknown; at every place, whatever stands behind it."""
    unknown = [b"ho", b"Ho", b"hO", b"OH", b"H0", b"HI", b"HB", b"HR", b"HN", b"HE", b"TO", b"EO", b"RO"]
    behind = [b"", b"\x00\x00EN", EN, b"\x00"]
    for turn, text in enumerate(["", *OPEN, *CLOSED]):
        yield 1, start(text) + b"H"
        for i, mark in enumerate(unknown):
            if (i + turn) % 3 == 0 or not text:
                yield 2, start(text) + mark + behind[(i + turn) % len(behind)]


def misplaced_holes():
    """3, a hole is the first record or stands behind a tile, before its body is looked at."""
    bodies = [b"", b"\x00", b"\xff", b"\x00\x00", b"\x01\x01" + EN, b"\xff\xff" + EN, b"\x00\x01" + EN]
    for body in bodies:
        yield 3, HO + body
    for behind in (WORKED_EXAMPLE, start("RB 2 2"), hole(1, 1) + WORKED_EXAMPLE, tile("TI", "3") + EN):
        yield 3, hole(0, 0) + behind
    for text in CLOSED:
        for body in bodies:
            yield 3, start(text) + HO + body
        yield 3, start(text) + hole(1, 0) + tile("TI", "3") + EN
        yield 3, start(text) + hole(1, 0) + hole(1, 1) + EN
    # Behind 64 tiles, where a tile would be 6; behind EN; and a later board behind a hole.
    full = start("RB 2 2 HO 0 1") + 64 * tile("TI", "3")
    yield 3, full + hole(0, 0) + EN
    yield 3, full + HO
    yield 3, full + HO + b"\xff"
    for text in OPEN:
        for body in (b"", b"\x00", b"\x00\x00", b"\xff\xff" + EN):
            yield 3, whole(text) + HO + body
        for mark in BOARDS:
            for body in (b"", b"\x02", b"\x02\x02EN", b"\xff\xff"):
                yield 3, start(text) + mark.encode() + body


def cut_holes():
    """1, a body byte is missing, though the one that is there would be 15."""
    for text in OPEN:
        for body in (b"", b"\x00", b"\x01", b"\x02", b"\x10", b"\xff"):
            yield 1, start(text) + HO + body
    # The bytes of EN or of another record are taken for a row and a column.
    for text in ("RB 16 16", "RB 2 2 HO 0 0", "RB 0 0"):
        yield 15, start(text) + HO + EN
        yield 15, start(text) + HO + b"\x00" + EN
        yield 15, start(text) + HO + b"\x01E"
        yield 15, start(text) + HO + tile("TI", "3") + EN
        yield 15, start(text) + HO + hole(0, 0) + EN
        yield 1, start(text) + HO + b"H"
    yield 2, start("RB 2 2") + hole(0, 0) + b"\x00" + EN
    yield 2, start("RB 2 2 HO 0 0") + b"\x00\x01" + EN


def every_cell():
    """Each cell of small boards and of the row and the column behind them: free, marked, outside."""
    for text in ("RB 1 1", "RB 3 2", "RB 2 3", "LB 2 1", "LB 3 1", "LB 2 2", "TB 1 1", "TB 1 2", "TB 0 1"):
        width, height = size_of(text)
        free = free_places(text)
        for row in range(height + 1):
            for column in range(width + 1):
                is_free = (row, column) in free
                yield words(text, len(free) - 1, 0) if is_free else 15, with_holes(text, [(row, column)])


def bad_cells():
    """15, a cell is outside the board or marked already, whatever stands behind the record."""
    behind = [EN, b"", b"E", b"xx", b"TI\x21", tile("TI", "3") + EN, hole(0, 0) + EN, board("RB", 17, 1)]
    behind += [EN + b"\x00", HO]
    bad = []
    for text in ("RB 1 1", "RB 4 2", "RB 2 4", "RB 16 1", "RB 1 16", "RB 16 16", "LB 3 1", "TB 2 1"):
        width, height = size_of(text)
        rows = [height, height + 1, 16, 17, 128, 255]
        columns = [width, width + 1, 16, 17, 128, 255]
        bad += [(text, (row, 0)) for row in rows] + [(text, (height - 1, column)) for column in columns]
        bad += [(text, (255, 255)), (text, (height, width))]
    # Columns whose number would be that of a cell in the next row.
    bad += [("RB 16 16", (row, column)) for row in (0, 7, 14) for column in (16, 17, 24, 31)]
    for text in ("LB 3 1", "LB 2 2", "LB 8 2", "TB 1 1", "TB 2 2", "TB 7 1"):
        marked = marked_places(text)
        bad += [(text, at) for at in (marked[0], marked[-1], marked[len(marked) // 2])]
    for text in ("RB 0 0", "LB 5 0", "TB 3 0"):
        bad += [(text, at) for at in ((0, 0), (0, 1), (1, 0), (16, 16), (255, 255))]
    for turn, (text, at) in enumerate(bad):
        yield 15, start(text) + hole(*at) + EN
        yield 15, start(text) + hole(*at) + behind[turn % len(behind)]
    # A cell twice: at once, later, last; and a bad one behind and before good ones.
    for text in ("RB 3 2", "LB 3 1", "TB 1 1"):
        a, b, c = free_places(text)[:3]
        twice = [[a, a], [a, b, a], [a, b, c, b], [a, b, c, c]]
        for cells in [*twice, [b, (9, 9), a], [(9, 9), a], [a, b, (0, 200)]]:
            yield 15, with_holes(text, cells)
            yield 15, with_holes(text, cells, "OR 3")
    # A mark of LB or TB behind good cells.
    for text in ("LB 3 1", "TB 1 1"):
        yield 15, with_holes(text, [*free_places(text)[:2], marked_places(text)[0]], "OR 3")


def exchanged_cells():
    """Rows stand before columns: a board that is no square has a cell one way and none the other."""
    for text, row, column in (
        ("RB 3 2", 0, 2), ("RB 2 3", 2, 0), ("RB 16 1", 0, 15), ("RB 1 16", 15, 0), ("RB 5 4", 3, 4),
        ("RB 12 7", 2, 11), ("LB 4 2", 3, 7), ("TB 2 1", 1, 4), ("LB 1 4", 7, 3),
    ):
        free = len(free_places(text))
        yield words(text, free - 1, 0), with_holes(text, [(row, column)])
        yield words(text, free - 1, 4), with_holes(text, [(row, column)], "OR 3")
        yield 15, with_holes(text, [(column, row)])
        yield 15, with_holes(text, [(column, row)], "OR 3")


def cut_hole_files():
    """1, a good file with holes is cut, at every length."""
    for text in ("LB 3 2 HO 3 5 HO 0 0 OR 30 TI 12", "TB 1 1 HO 1 1 OR 3", "RB 3 4 HO 2 1 HO 1 1 HO 3 2"):
        file = whole(text)
        for length in range(len(file)):
            yield 1, file[:length]


# A good file, and by their places the bytes that stand there instead, with what 01 and 02 then have. RB
# stands at 0, HO at 4 and at 8, OR at 12, EN at 16. The first hole is marked by LB 3 2 and TB 3 2.
CHANGED = whole("RB 3 2 HO 1 2 HO 0 0 OR 3")
CHANGES = [
    {b"LT": 15, b"rEOBHx\x00\xff": 2},
    {b"bIRONx\x00\xff": 2},
    {b"\x04": "board 4 2 free 6|tiles 4|", b"\x10": "board 16 2 free 30|", b"\x01\x02": 15, b"\x00\x11\xff": 4},
    {b"\x03": "board 3 3 free 7|tiles 4|", b"\x10": "board 3 16 free 46|", b"\x01": 15, b"\x00\x11\xff": 4},
    {b"hRTLEOx\x00\xff": 2},
    {b"o0BINRHx\x00\xff": 2},
    {b"\x00": "board 3 2 free 4|tiles 4|", b"\x02\x03\x10\x80\xff": 15},
    {b"\x00\x01": "board 3 2 free 4|tiles 4|", b"\x03\x04\x10\x80\xff": 15},
    {b"hRTLEOx\x00\xff": 2},
    {b"o0BINRHx\x00\xff": 2},
    {b"\x01": "board 3 2 free 4|tiles 4|", b"\x02\x03\x10\x80\xff": 15},
    {b"\x01\x02": "board 3 2 free 4|tiles 4|", b"\x03\x04\x10\x80\xff": 15},
    {b"oETRLHx\x00\xff": 2},
    {b"rOBNIHx\x00\xff": 2},
    # k. Behind an empty path the mark is 3 and E; longer paths take in EN; 4 bytes aren't there.
    {b"\x00": 2, b"\x02\x03\x21\x40\xff": 5, b"\x04\x05\x20": 1},
    {b"\x00\x01\x02\x04\x07": "|tiles 4|", b"\x08\x10\x80\xff3": 5},
    {b"eOTRHx\x00\xff": 2},
    {b"nORBIHx\x00\xff": 2},
]


def changed_hole_files():
    """A good file with holes of which one byte is changed, at every place; two bytes of a mark."""
    yield from with_changes(CHANGED, CHANGES)
    marks = {4: {b"RB": 3, b"LB": 3, b"TB": 3, b"EN": 3}, 8: {b"RB": 3, b"LB": 3, b"TB": 3, b"EN": 3}}
    # TI and OR in a hole's place: the row is k, the column the first code.
    marks[4].update({b"TI": 3, b"OR": 3})
    marks[8].update({b"TI": 2, b"OR": 2})
    # A hole in the place of OR: row 1, column 3; and in that of EN, with no body.
    marks.update({12: {b"HO": 15}, 16: {b"HO": 3}, 0: {b"HO": 3}})
    for place, changes in marks.items():
        for mark, expected in changes.items():
            yield expected, CHANGED[:place] + mark + CHANGED[place + 2 :]


def all_fixed():
    """All cells are fixed: both counts are 0, with one node, no edge and no tiling; or 7 by both.

    The figure called cuttings is then 1 (02's request 3), or refused by 7 too.
    """
    one, none = "layers 1|cuttings 1|graph 1 nodes 2 edges 1|tiling 0: 0 1|", "graph 0 nodes 1 edges 0|"
    full, left = f"layers 0|cuttings 1|{none}", f"layers 0|cuttings 0|{none}"
    lists = {"": 0, "TI -": 1, "OR 3": 4, "TI 3 TI 1": 2, "OR 20": 8, "OR 3 OR 306": 12, "TI - TI 3": 2}
    for turn, text in enumerate(("RB 1 1", "RB 2 1", "RB 1 3", "RB 2 2", "RB 3 2", "LB 2 1", "TB 1 1", "LB 3 2")):
        cells = free_places(text)
        for tiles, number in lists.items():
            is_unequal = tiles in ("OR 3 OR 306", "TI - TI 3")
            counts = "layers refused 7|cuttings refused 7|graph refused 7|" if is_unequal else full
            yield words(text, 0, number) + counts, with_holes(text, cells, tiles)
        turned = cells[turn % len(cells) :] + cells[: turn % len(cells)]
        for other in (cells[::-1], by_columns(cells), turned):
            yield words(text, 0, 4) + full, with_holes(text, other, "OR 3")
        for at in (cells[0], cells[-1]):
            yield 15, with_holes(text, [*cells, at], "OR 3")
        # One cell is left: the single tile cuts it, no other does.
        yield words(text, 1, 1) + one, with_holes(text, cells[1:], "TI -")
        yield words(text, 1, 4) + left, with_holes(text, cells[:-1], "OR 3")


def long_hole_files():
    """16 by 16 with 256 holes: the longest file that is read, 3,270 bytes, and others beside it."""
    cells = free_places("RB 16 16")
    holes = start("RB 16 16") + b"".join(hole(*at) for at in cells)
    tiles = tile("TI", 16 * "32")
    longest = holes + 64 * tiles + EN
    assert len(longest) == 3270
    counts = "layers 0|cuttings 1|graph 0 nodes 1 edges 0|"
    yield f"board 16 16 free 0|tiles 64|{counts}", longest
    over = holes + 65 * tiles
    assert len(over) == 3303
    yield 6, over
    yield 3, longest + b"\x00"
    yield 1, longest[:-1]
    yield 3, longest[:-2] + hole(0, 0) + EN
    yield 3, longest.ljust(4200, b"\x00")
    # Without tiles: 1,030 bytes; the 257th hole is refused, even if it is the first one of many more.
    yield f"board 16 16 free 0|tiles 0|{counts}", holes + EN
    yield 15, holes + hole(0, 0) + EN
    yield 15, holes + hole(15, 15) + EN
    yield 15, holes + 800 * hole(3, 3)
    yield 15, holes + hole(16, 0) + EN
    yield 1, holes + HO + b"\x10"
    yield 1, holes
    yield f"board 16 16 free 0|tiles 4|{counts}", with_holes("RB 16 16", by_columns(cells), "OR 3")
    # One, two and four cells are left.
    for left, tiles, counts in (
        ([(15, 15)], "TI -", "tiles 1|layers 1|cuttings 1|graph 1 nodes 2 edges 1|"),
        ([(0, 0)], "OR 3", "tiles 4|layers 0|cuttings 0|graph 0 nodes 1 edges 0|"),
        ([(7, 8), (8, 8)], "OR 3", "tiles 4|layers 1|cuttings 1|graph 1 nodes 2 edges 1|"),
        ([(0, 0), (15, 15)], "OR 3", "tiles 4|layers 0|cuttings 0|graph 0 nodes 1 edges 0|"),
        ([(3, 4), (3, 5), (4, 4), (4, 5)], "OR 3", "tiles 4|layers 2|cuttings 2|graph 2 nodes "),
    ):
        kept = [at for at in cells if at not in left]
        yield f"board 16 16 free {len(left)}|{counts}", with_holes("RB 16 16", kept, tiles)
