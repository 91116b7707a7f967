"""Plot files that come with what 01 has for them, for the commands `plot`.

Each is a pair. A file that is made for a refusal comes with its number, which was read off 01's
text by hand; a file that is read comes with words of the answer. make-answers holds the oracle's
answers to both. Of the words those on boards and tiles are 01's, by hand; the counts and the
numbers of nodes and edges were found by a search with a program of its own, which isn't kept. The line
of the figure called cuttings, behind that of the layers, is that of 02's request 3.
"""

import sys

sys.dont_write_bytecode = True
from plotfiles import BOARDS, EN, TILES, board, start, tile, whole

# Places of a record behind the board's, and how many tiles stand before it: behind each kind of
# board, behind a tile, behind an orbit, and behind several.
LATER = {
    "RB 2 2": 0,
    "LB 2 1": 0,
    "TB 1 1": 0,
    "RB 0 0": 0,
    "RB 2 2 TI 3": 1,
    "RB 2 2 OR 3": 4,
    "LB 3 1 OR 3 TI 1 OR 20": 13,
}
PLACES = [b""] + [start(text) for text in LATER]

# In lower case, with letters exchanged, of the archive's records, with letters of two marks, and with
# bytes that are no letters. More of them, near HO, stand in holecases.py.
UNKNOWN = [b"rb", b"lb", b"tb", b"ti", b"or", b"en", b"Rb", b"tI", b"eN"]
UNKNOWN += [b"BR", b"BL", b"BT", b"IT", b"RO", b"NE", b"OH", b"TY"]
UNKNOWN += [b"RI", b"LI", b"OB", b"EB", b"TR", b"TN", b"ON", b"ER"]
UNKNOWN += [b"\x00\x00", b"\xff\xff", b"R\x00", b"\x00B", b"\nE", b"E\n", b"\xd2\xc2"]

WORKED_EXAMPLE = whole("RB 2 2 OR 3")


def bad_marks():
    """1, the mark is missing or cut; 2, it is unknown, whatever stands behind it."""
    behind = [b"", b"\x02\x02EN", b"\x01\x03EN", EN, b"\x00"]
    for turn, place in enumerate(PLACES):
        yield 1, place
        for letter in b"RLTOEx\x00":
            yield 1, place + bytes([letter])
        for i, mark in enumerate(UNKNOWN):
            yield 2, place + mark + behind[(i + turn) % len(behind)]


def misplaced():
    """3, the first record is no board, or a later one is: before 1, 4 and 5 of its body."""
    for mark in TILES:
        name = mark.encode()
        for body in (b"", b"\x00", b"\x01", b"\x01\x03", b"\x01\x08", b"\x21", b"\x20\x00"):
            yield 3, name + body
        yield 3, whole(f"{mark} 3")
        yield 3, tile(mark, "3") + WORKED_EXAMPLE
    for behind in (b"", b"\x00", EN, WORKED_EXAMPLE):
        yield 3, EN + behind
    bodies = [b"", b"\x02", b"\x11\x01EN", b"\x00\x05", b"\x00\x00EN", b"\xff\xff", b"\x02\x02OR"]
    for turn, place in enumerate(PLACES[1:]):
        for i, mark in enumerate(BOARDS):
            yield 3, place + board(mark, 2, 2) + EN
            yield 3, place + mark.encode() + bodies[(turn + 2 * i) % len(bodies)]
        yield 3, place + place + EN


def cut_bodies():
    """1, a length or body byte is missing, though what is there would be 4 or 5."""
    for mark in BOARDS:
        for body in (b"", b"\x02", b"\x00", b"\x11", b"\xff"):
            yield 1, mark.encode() + body
    for place in PLACES[1:]:
        for mark in TILES:
            for body in (b"", b"\x01", b"\x02\x03", b"\x20" + 31 * b"\x03"):
                yield 1, place + mark.encode() + body
    for mark in TILES:
        name = start("RB 2 2") + mark.encode()
        for body in (b"\x20", b"\x20\x03", b"\x02\x08", b"\x02\xff", b"\x20" + 31 * b"\xff"):
            yield 1, name + body
        # The bytes of EN or of another record are taken for codes: there are too few, or they are
        # no codes.
        yield 1, name + b"\x03EN"
        yield 1, name + b"\x05\x03\x03EN"
        yield 5, name + b"\x02EN"
        yield 5, name + b"\x03\x03EN"
        yield 1, name + b"\x04" + tile("TI", "-")
        yield 5, name + b"\x04" + tile("TI", "3") + EN


def tiles_behind(number, mark):
    """The words on tiles with one more, or with an orbit of 4."""
    return f"|tiles {number + (1 if mark == 'TI' else 4)}|"


def long_paths():
    """5, k is over 32, with any number of bytes behind it; a k of 32 is read."""
    for text, number in LATER.items():
        for mark in TILES:
            name = start(text) + mark.encode()
            for body in (b"", 33 * b"\x03" + EN, 5 * b"\x03" + EN):
                yield 5, name + b"\x21" + body
            yield 5, name + b"\xff"
            yield tiles_behind(number, mark), name + b"\x20" + 16 * b"\x03\x02" + EN
    for mark in TILES:
        name = start("RB 2 2") + mark.encode()
        for k in (33, 34, 64, 128, 255):
            yield 5, name + bytes([k]) + k * b"\x01" + EN
            yield 5, name + bytes([k]) + (k - 1) * b"\x01"
            yield 5, name + bytes([k]) + EN
        yield 5, name + b"\x21\x08"
        yield tiles_behind(0, mark), name + b"\x20" + 32 * b"\x07" + EN


def bad_codes():
    """5, a code over 7 at the path's first, last or another place; codes of 7 are read."""
    for text, number in LATER.items():
        for mark in TILES:
            name = start(text) + mark.encode()
            for body in (b"\x01\x08", b"\x02\xff\x07", b"\x02\x07\x08", b"\x03\x00\xff\x00"):
                yield 5, name + body + EN
            yield tiles_behind(number, mark), name + b"\x01\x07" + EN
    for mark in TILES:
        name = start("RB 2 2") + mark.encode()
        for code in (9, 16, 33, ord("0"), ord("3"), ord("7"), 128, 255):
            yield 5, name + bytes([1, code]) + EN
        for code in (8, 255):
            for at in (0, 1, 30, 31):
                codes = bytes(code if i == at else 7 for i in range(32))
                yield 5, name + b"\x20" + codes + EN
        for behind in (b"", b"xx", board("RB", 17, 17)):
            yield 5, name + b"\x01\x08" + behind


# The sizes of boards that are read: width, height and free cells.
READ_BOARDS = {
    "RB 0 0": "0 0 free 0",
    "RB 1 1": "1 1 free 1",
    "RB 16 1": "16 1 free 16",
    "RB 1 16": "1 16 free 16",
    "RB 16 15": "16 15 free 240",
    "RB 15 16": "15 16 free 240",
    "RB 16 16": "16 16 free 256",
    "LB 1 1": "1 2 free 2",
    "LB 2 1": "2 2 free 3",
    "LB 3 1": "3 2 free 4",
    "LB 16 1": "16 2 free 17",
    "LB 8 2": "16 4 free 36",
    "LB 5 3": "15 6 free 54",
    "LB 3 5": "15 10 free 100",
    "LB 1 8": "8 16 free 128",
    "LB 2 8": "16 16 free 192",
    "LB 0 0": "0 0 free 0",
    "LB 2 0": "0 0 free 0",
    "LB 17 0": "0 0 free 0",
    "LB 255 0": "0 0 free 0",
    "TB 0 1": "1 2 free 2",
    "TB 1 1": "3 2 free 4",
    "TB 7 1": "15 2 free 16",
    "TB 3 2": "14 4 free 32",
    "TB 2 3": "15 6 free 54",
    "TB 1 4": "12 8 free 64",
    "TB 1 5": "15 10 free 100",
    "TB 0 8": "8 16 free 128",
    "TB 0 0": "0 0 free 0",
    "TB 7 0": "0 0 free 0",
    "TB 8 0": "0 0 free 0",
    "TB 255 0": "0 0 free 0",
}
BAD_BOARDS = {
    "RB": "17,1 1,17 17,17 17,16 16,17 0,5 5,0 0,1 1,0 0,16 16,0 0,17 17,0 0,255 255,0 255,255"
    " 32,8 128,2 1,255 255,1",
    "LB": "17,1 18,1 255,1 0,1 0,8 0,128 0,255 9,2 6,3 3,8 1,9 2,9 1,16 1,128 2,128 1,255 128,2"
    " 64,4 16,16 255,255",
    "TB": "8,1 9,1 127,1 128,1 255,1 4,2 3,3 2,4 1,6 1,8 0,9 0,16 0,17 0,128 0,255 128,128"
    " 255,255",
}


def board_sizes():
    """4, the board's size, whatever stands behind the record."""
    for text, size in READ_BOARDS.items():
        yield f"board {size}|tiles 0|", whole(text)
        yield f"board {size}|tiles 4|", whole(f"{text} OR 3")
    behind = [b"", b"E", b"xx", b"TI\x21", board("RB", 2, 2), tile("TI", "3") + EN, EN + b"\x00"]
    for mark, pairs in BAD_BOARDS.items():
        for turn, pair in enumerate(pairs.split()):
            record = board(mark, *map(int, pair.split(",")))
            yield 4, record + EN
            yield 4, record + behind[turn % len(behind)]


def many_tiles():
    """6, the tiles would pass 64: by tiles, and by orbits of 1, 4 and 8 tiles."""
    square = start("RB 2 2")
    one, lone, four, eight = tile("TI", "3"), tile("OR", "-"), tile("OR", "3"), tile("OR", "20")
    full = [64 * one, 64 * lone, 16 * four, 8 * eight]
    counted = [(63 * one, 63), (63 * lone, 63), (15 * four, 60), (7 * eight, 56)]
    counted += [(7 * eight + four + 3 * one, 63), *((tiles, 64) for tiles in full)]
    mixed = [60 * one + four, 56 * one + eight, four + 60 * one, eight + 56 * lone]
    mixed += [7 * eight + 2 * four, 7 * eight + four + 4 * lone, 63 * one + lone, 63 * lone + one]
    for tiles, number in counted + [(tiles, 64) for tiles in mixed]:
        yield f"|tiles {number}|", square + tiles + EN
    over = [65 * one, 65 * lone, 17 * four, 9 * eight, 66 * one, 65 * one + square]
    # An orbit passes 64 by one, or by more.
    over += [61 * one + four, 57 * one + eight, 15 * four + one + four, 7 * eight + one + eight]
    over += [7 * eight + four + one + four, 62 * one + four, 63 * one + four, 63 * one + eight]
    over += [tiles + more for tiles, more in zip(full, (lone, one, eight, four))]
    for tiles in over:
        yield 6, square + tiles + EN
    for behind in (b"", b"E", b"xx", b"TI\x21"):
        yield 6, square + 65 * one + behind
    yield 6, start("RB 0 0") + 64 * lone + tile("TI", "-") + EN
    for tiles in full:
        yield from behind_64_tiles(square + tiles)


def behind_64_tiles(file):
    """All other causes of a record come before 6."""
    for mark in TILES:
        for body in (b"", b"\x01", b"\x02\x08", b"\x20" + 31 * b"\x03"):
            yield 1, file + mark.encode() + body
        for body in (b"\x21", b"\xff", b"\x01\x08", b"\x02\x07\xff"):
            yield 5, file + mark.encode() + body + EN
    yield 1, file
    yield 1, file + b"T"
    yield 2, file + b"ti\x01\x03EN"
    yield 3, file + board("RB", 2, 2)
    yield 3, file + EN + b"\x00"


def behind_the_end():
    """3, a byte stands after EN: one, many, a record, another EN, a whole file."""
    behind = [b"\x00", b"\n", b"E", b" ", b"\xff", b"\r\n", b"xx", EN, EN + EN, WORKED_EXAMPLE]
    behind += [tile("TI", "3"), tile("OR", "3") + EN, board("RB", 2, 2), b"TI", b"TI\x21"]
    behind += [100 * b"\x00", 50 * EN]
    for more in behind:
        yield 3, WORKED_EXAMPLE + more
    for text in LATER:
        yield 3, whole(text) + b"\x00"
        yield 3, whole(text) + whole(text)
    full = start("RB 2 2") + 64 * tile("TI", "3") + EN
    yield 3, full + 2 * tile("TI", "3") + EN


def cut_files():
    """1, a good file is cut, at every length: with LB, TI and OR, with TB, and 01's example."""
    for file in (whole("LB 4 2 TI 3112 OR 31"), whole("TB 1 1 OR 306 TI - TI 22"), WORKED_EXAMPLE):
        for length in range(len(file)):
            yield 1, file[:length]


# A good file, and by their places the bytes that stand there instead, with what 01 then has. RB
# stands at 0, TI at 4, OR at 8, EN at 12.
CHANGED = whole("RB 2 2 TI 3 OR 1")
CHANGES = [
    {b"L": "board 4 4 free 12|tiles 5|", b"T": "board 10 4 free 24|tiles 5|", b"rEOBx\x00\xff": 2},
    {b"bIRONx\x00\xff": 2},
    {b"\x01": "board 1 2 free 2|", b"\x10": "board 16 2 free 32|", b"\x00\x11\x80\xff": 4},
    {b"\x04": "board 2 4 free 8|", b"\x10": "board 2 16 free 32|", b"\x00\x11\x80\xff": 4},
    {b"tROLEx\x00\xff": 2},
    {b"B": 3, b"iRNY1\x00\xff": 2},
    # k. Behind an empty path the mark is 3 and O; longer paths take in O; 8 bytes aren't there.
    {b"\x00": 2, b"\x02\x03\x05\x07\x21\x40\xff": 5, b"\x08\x09\x20": 1},
    {b"\x00\x02\x07": "|tiles 5|", b"\x08\x10\x80\xff3": 5},
    {b"oETRx\x00\xff": 2},
    {b"rBNIx\x00\xff": 2},
    # k. Here the mark would be 1 and E, and 4 bytes aren't there.
    {b"\x00": 2, b"\x02\x03\x21\x40\xff": 5, b"\x04\x05\x20": 1},
    {b"\x00\x03\x04\x07": "|tiles 5|", b"\x08\x10\x80\xff1": 5},
    {b"eOTRx\x00\xff": 2},
    {b"nRBIx\x00\xff": 2},
]


def with_changes(file, changes):
    """A file with one byte changed, by its places and the bytes that stand there instead."""
    for place, found in enumerate(changes):
        for others, expected in found.items():
            for other in others:
                yield expected, file[:place] + bytes([other]) + file[place + 1 :]


def changed_files():
    """A good file with one byte changed, at every place."""
    yield from with_changes(CHANGED, CHANGES)


def long_files():
    """The longest file without holes that is read, 2,246 bytes, and others as long or longer."""
    tiles = [tile("TI", 16 * "32"), tile("TI", 16 * "10")]
    file = start("RB 2 2") + 32 * b"".join(tiles) + EN
    assert len(file) == 2246
    yield "|tiles 64|layers 2|cuttings 2|graph 2 nodes 4 edges 4|", file
    yield 6, file[:-2] + tiles[0] + EN
    yield 6, file[:-2] + tile("OR", "-") + EN
    yield 3, file + b"\x00"
    yield 1, file[:-1]
    yield 1, file[:-2]
    yield 5, file[:-3] + b"\x08" + EN
    # 4,096 bytes and more: the first 4,096 settle them.
    yield 3, WORKED_EXAMPLE.ljust(4096, b"\x00")
    yield 3, WORKED_EXAMPLE.ljust(4097, b"\x00")
    yield 3, file.ljust(4400, b"E")
    yield 6, file[:-2] + 60 * tiles[0] + EN


# Files by how many tilings they have.
COUNTED = {
    0: "RB 3 3 OR 3, RB 1 5 OR 3, TB 1 1 OR 3, LB 2 1 OR 3, RB 4 4 OR 30, RB 2 2 TI 33",
    1: "RB 2 6 TI 3, RB 2 2 OR 4, TB 0 2 TI 3, TB 3 2 OR 5, RB 5 1 TI 332333, RB 1 16 OR 3",
    2: "RB 3 2 OR 6 TI 0, RB 2 2 OR 0, TB 0 3 OR 16 TI 20, TB 0 3 OR 05, RB 16 2 TI 3 TI 6 TI 5",
    3: "RB 2 3 OR 1, TB 0 2 OR 200 TI 021",
    4: "RB 6 2 OR 02, LB 2 3 OR 37",
    5: "RB 4 2 OR 0, RB 2 4 TI 2 TI 1, TB 0 2 OR 1 TI 5",
    6: "RB 6 3 OR 11, LB 2 3 OR 16 TI 61",
    7: "RB 8 4 OR 333, LB 2 2 OR 12 OR 11",
    8: "RB 5 2 OR 1, TB 2 2 OR 41",
    9: "RB 7 3 OR 33, TB 3 2 OR 421 OR 043",
    10: "RB 4 4 OR 063, LB 2 2 OR 4 TI 2",
    11: "RB 3 4 OR 2, LB 3 2 OR 211 OR 021",
    12: "RB 2 5 OR 4 OR 3, LB 2 2 OR 1",
    13: "RB 6 2 OR 0, LB 2 3 OR 40 TI 56 TI 04",
    14: "RB 10 4 OR 111, RB 3 5 OR 04 TI 11, TB 2 2 OR 236 TI 02, LB 3 3 OR 221",
    15: "RB 4 3 OR 3 TI 7, RB 4 3 OR 16 OR 11, LB 2 2 OR 14 OR 36 TI 26 TI 47,"
    " LB 4 3 OR 0660 OR 3733",
    16: "RB 8 3 OR 14, RB 8 3 OR 51 TI 50, LB 2 3 OR 11, LB 2 3 TI 11 TI 33",
    17: "RB 4 6 OR 45 OR 11, LB 2 3 OR 33 TI 35 TI 16, TB 1 2 OR 300 OR 000 OR 31012",
    18: "RB 6 4 OR 25, LB 4 3 OR 1334 OR 5136 OR 433211",
    19: "RB 9 3 OR 22, LB 2 2 OR 07 OR 61 OR 67",
    20: "RB 6 5 OR 1312, LB 3 2 OR 7 TI 0",
    943: "RB 16 6 TI 333 TI 111",
    1597: "RB 16 2 OR 3, RB 2 16 OR 3",
    29_681: "RB 16 3 OR 3",
    9_475_901: "RB 16 4 OR 3",
    366_944_287: "RB 16 5 OR 3",
    69_289_288_909: "RB 16 6 OR 3",
}


def counted_files():
    """Files with so many tilings, of which the first 16 are listed."""
    for count, texts in COUNTED.items():
        for text in texts.split(","):
            yield f"|layers {count}|cuttings {count}|graph {count} nodes ", whole(text)


def bare_files():
    """Nothing to cut; no tiles; the single tile; tiles that cross themselves or stand twice."""
    for text in ("RB 0 0", "LB 5 0", "TB 3 0"):
        for tiles in ("", "TI -", "OR -", "OR 3", "OR 20 TI 33"):
            yield "|layers 0|cuttings 1|graph 0 nodes 1 edges 0|", whole(f"{text} {tiles}")
    for text in ("RB 1 1", "RB 1 7", "RB 7 1", "RB 5 4", "RB 16 16", "LB 3 1", "LB 2 8", "TB 2 2"):
        yield "|tiles 0|layers 0|cuttings 0|graph 0 nodes 1 edges 0|", whole(text)
        yield "|tiles 1|layers 1|cuttings 1|graph 1 nodes ", whole(f"{text} TI -")
        yield "|tiles 1|layers 1|cuttings 1|graph 1 nodes ", whole(f"{text} OR -")
    yield "|graph 1 nodes 257 edges 256|tiling 0: 0 1 2 3 ", whole("RB 16 16 TI -")
    yield "|graph 1 nodes 129 edges 128|tiling 0: 0 1 2 3 ", whole("RB 16 16 TI 3")
    yield "|graph 1 nodes 129 edges 128|tiling 0: 0 1 2 3 ", whole("RB 16 16 TI 0")
    crossing = ["TI 32", "TI 3232 TI 1", "TI 0101 OR 23", "OR 3021", "TI 3021 TI 0213 TI 333"]
    for tiles in crossing + ["OR 331"]:
        for text in ("RB 2 2", "RB 4 2", "RB 4 4", "RB 3 5", "LB 2 2", "TB 1 2"):
            yield "|layers ", whole(f"{text} {tiles}")
    twice = ["TI 3 TI 3", "OR 3 OR 3", "TI - TI - OR -", "TI 3 TI 2", "OR 20 OR 13", "OR 33 TI 00"]
    for tiles in twice:
        for text in ("RB 3 2", "RB 3 3", "RB 2 6"):
            yield "|layers ", whole(f"{text} {tiles}")


def unequal_files():
    """7 of both counts: two tiles with different numbers of cells."""
    tiles = ["TI - TI 3", "TI 3 TI 33", "OR 3 OR 20", "OR 33 TI -", "TI 3021 TI 33", "TI 32 TI 333"]
    tiles += [7 * "TI 3 " + "TI 33", "TI 3 TI 32 TI 20", "OR 306 OR 333 TI 33"]
    boards = ["RB 0 0", "RB 1 1", "RB 2 2", "RB 4 3", "RB 16 16", "LB 3 2", "TB 1 1"]
    for turn, text in enumerate(boards):
        for more in tiles[turn % 2 :: 2]:
            yield "|layers refused 7|cuttings refused 7|graph refused 7|", whole(f"{text} {more}")


def shaped_files():
    """Every L and T board that is read and has a cell, and rectangles; each with some tiles."""
    shapes = [f"LB {n} {scale}" for scale in range(1, 9) for n in range(1, 16 // scale + 1)]
    shapes += [f"TB {n} {scale}" for scale in range(1, 9) for n in range((16 // scale + 1) // 2)]
    shapes += [f"RB {n} {m}" for n in range(1, 17) for m in (1, 2, 3)]
    shapes += [f"RB {n} {m}" for n in (1, 2, 3) for m in range(4, 17)]
    shapes += [f"RB {n} {n}" for n in range(4, 17)]
    tiles = ["OR 3", "OR 20", "OR 306", "OR 33", "OR 30 OR 33", "TI 3 TI 6 TI 5", "OR 20 TI 33"]
    for turn, shape in enumerate(shapes):
        for some in (tiles[turn % 7], tiles[(2 * turn + 1) % 7]):
            yield "|layers ", whole(f"{shape} {some}")


# What fills the rooms of the program or passes them by one, and counts at 2^64.

LAYERS_OF_512_AND_513 = {
    "RB 5 6 OR 11031 OR 30111 OR 33011": "|layers 240|cuttings 240|graph refused 8|",
    "RB 3 10 OR 12021 OR 12202 OR 3010202 OR 11222 OR 123303 OR 110303 OR 2331002 TI 330113"
    " TI 0110311 TI 013303 TI 222100 TI 1033213 TI 100200": "|layers 133|cuttings 133|graph 133 nodes 904 ",
    "RB 5 5 OR 3111 OR 30111 OR 30322 OR 1211 OR 00230"
    " OR 32011011": "|layers refused 8|cuttings refused 8|graph 224 nodes 1000 ",
    "RB 6 5 OR 11303213 OR 11000203 OR 230223202 OR 12103303 OR 0010012012 OR 3321311"
    " OR 33212313": "|layers refused 8|cuttings refused 8|graph 0 nodes 850 ",
    "RB 5 7 OR 2033 OR 0330 OR 3131 TI 1102320 TI 2033"
    " TI 310013": "|layers refused 8|cuttings refused 8|graph refused 8|",
}
LARGER_LAYERS = {
    "RB 4 5 OR 166 OR 636 OR 053 OR 412 OR 4615 OR 354 OR 770"
    " OR 227": "|layers refused 8|cuttings refused 8|graph 25 nodes 1009 ",
    "RB 4 6 OR 1114 OR 10630 OR 77547 OR 14656 OR 6262 OR 61052"
    " OR 55722": "|layers refused 8|cuttings refused 8|graph 0 nodes 997 ",
    "RB 16 16 OR 3": "|layers refused 8|cuttings refused 8|graph refused 8|",
    "RB 16 16 OR 306": "|layers refused 8|cuttings refused 8|graph refused 8|",
}
NODES_1023_TO_1025 = {
    "RB 12 4 OR 22 TI 66 TI 11 TI 61 TI 44 TI 33 TI 40"
    " TI 014": "|layers 973|cuttings 973|graph 973 nodes 1023 ",
    "RB 5 5 OR 2342 OR 600 OR 611 OR 560": "|layers 0|cuttings 0|graph 0 nodes 1024 ",
    "RB 4 6 OR 433 OR 2306 OR 636 OR 253 OR 43261": "|layers 506|cuttings 506|graph 506 nodes 1024 ",
    "RB 4 7 TI 17 TI 647 TI 013 TI 34 TI 31 TI 103 TI 77 TI 105"
    " TI 53": "|layers 0|cuttings 0|graph refused 8|",
    "RB 7 6 TI 54 TI 645 TI 24 TI 63 TI 11 TI 14 TI 51 TI 16": "|layers 65|cuttings 65|graph refused 8|",
    "RB 8 8 OR 3": "|layers 12988816|cuttings 12988816|graph refused 8|",
    "RB 16 7 OR 3": "|graph refused 8|",
}
COUNTS_AT_2_64 = {
    "RB 16 14 TI 3 TI 6 TI 5": "|layers 3502740242239480580|cuttings 3502740242239480580"
    "|graph 3502740242239480580 nodes 775 ",
    "RB 14 16 TI 3 TI 6 TI 5": "|layers 2991718142753260158|cuttings 2991718142753260158"
    "|graph 2991718142753260158 nodes 862 ",
    "RB 16 15 TI 3 TI 6 TI 5": "|layers refused 9|cuttings refused 9|graph refused 9|",
    "RB 16 16 TI 3 TI 6 TI 5": "|layers refused 9|cuttings refused 9|graph refused 9|",
    # This one has no cutting.
    "RB 15 16 TI 3 TI 6 TI 5": "|layers refused 9|cuttings refused 9|graph refused 9|",
}

# Tiles of 8 cells. Of the first 32 two each fill a square of 4 by 4, in 16 ways, and by them 16 by
# 16 is cut in 16^16 ways, which is 2^64; the first 30 cut it in 15^16 ways; with all there are
# more than 1,024 nodes.
HALVES = "0033371 1733300 3711330 1503111 1537713 3051112 3400331 1313000 0033130 3006130 0003311"
HALVES += " 1133000 1130061 3330002 1303377 1330511 3711303 3031112 1634033 1333002 2200333"
HALVES += " 3330022 2211153 3511122 1531150 5173330 1115006 3060002 1533112 5377333 1562713 3130002"
HALVES += " 1561471 1330002 1150311 3063000 1113306 1150311 1303112 1333000"

# Tiles of 24 cells with which 15 by 16 has 4,256 edges between 708 nodes.
WIDE = """
14213614213614213612021 20000221312131213612021 21720302034063522403130 22137371536226221130313
21120021113614213612021 41120021113614213612021 22203434063342400331120 21112203020343400331120
31133020302406302403130 31133020033407203403130 31130065244063522403130 22137151362262226130313
31133020302434003337120 31133020302434003362120 22252433033407203403130 31133020352243400331120
30630252507225352403130 30630204256334252403130 21707255022533522403130 22131662427336266220212
30630250702253524031303 30630250702253035202120 22072554256334252403130 30630203522225352403130
14271536142136261120021 20000226114021667151130 21702030440511635220031 22622131513622622131306
21120021213136261120021 41120021213136261120021 22020303340724051130031 21112020300240511330021
26142173562614213612021 20000212627331213612021 21720302043603520021120 21217351362142137130313
22614262733614213612021 30053622137614213612021 22203434436334240531120 21112203025243340531120
33126142733614213612021 33126227315362273612021 33162416247313711300315 22612731536226221130313
33371412733614213612021 33621412733614213612021 22203434430311334000214 33114127337153372612021
14213614213626112002120 20000221312131161202021 21700720354063522403130 22137151362262221331306
03163020302434003337120 03163020302434003362120 22007203533407203403130 03163020352243400331120
30003312131262611220031 30003312137362273612021 30003373622137711300315 22131273336226221130313
30003337213762611220031 30003362213762611220031 22203430334072253403130 30003312137133711220031
"""


def with_tiles(text, paths):
    return whole(" ".join([text, *(f"TI {path}" for path in paths)]))


def without(paths, places):
    return [path for place, path in enumerate(paths) if place not in places]


def full_rooms():
    """Boards of a layer, nodes, edges that have just room or are one too many; counts at 2^64."""
    for texts in (LAYERS_OF_512_AND_513, LARGER_LAYERS, NODES_1023_TO_1025, COUNTS_AT_2_64):
        for text, expected in texts.items():
            yield expected, whole(text)
    halves, wide = HALVES.split(), WIDE.split()
    yield f"|layers {15**16}|cuttings {15**16}|graph {15**16} nodes 408 ", with_tiles("RB 16 16", halves[:30])
    yield f"|layers {16**12}|cuttings {16**12}|graph {16**12} nodes ", with_tiles("RB 16 12", halves[:32])
    yield "|layers refused 9|cuttings refused 9|graph refused 9|", with_tiles("RB 16 16", halves[:32])
    yield "|layers refused 9|cuttings refused 9|graph refused 8|", with_tiles("RB 16 16", halves)
    fewer = without(wide, (37, 53, 60)) + ["31150065244063522453150"]
    yield "|graph 12567025 nodes 738 edges 4096|", with_tiles("RB 15 16", fewer)
    yield "|layers 7595536|cuttings 7595536|graph refused 10|", with_tiles("RB 15 16", without(wide, (8, 24)))
    yield "|layers 16777216|cuttings 16777216|graph refused 10|", with_tiles("RB 15 16", wide)
