"""What is stored for a command: the oracle's answer, that of a model, or a refusal by 01 or 02.

The models are those of tilings.py, for `tiling`, and of records.py, for the commands on archive files;
the one for `cuttings` is the oracle's.
"""

import sys

sys.dont_write_bytecode = True
import records
import tilings
from plots import MOST_CODES, MOST_TILES, Plot, cell, stop

MOST_BOARDS = 257  # the room of a command `one` that has none behind it


def is_board(width, height, fixed=0, laid=0):
    """Whether 01 takes a board of this size with these marks."""
    if (width == 0) != (height == 0) or max(width, height) > 16:
        return False
    return (fixed | laid) & ~Plot(width, height).inside() == 0 and fixed & laid == 0


def codes_of(name, number):
    """The number of codes of the path of l or t."""
    return int(number) if name == "l" else 2 * int(number) + 1


def free_cells(fields):
    """How many cells are free on the board of a command."""
    width, height, fixed, laid = (int(word, base) for word, base in zip(fields, (10, 10, 16, 16)))
    return Plot(width, height, fixed, laid).free().bit_count()


def has_room(fields):
    """Whether a command `one` has the room that 01 asks for: one board more than free cells."""
    room = int(fields[5]) if fields[5:] else MOST_BOARDS
    return free_cells(fields) < room


def with_hole(fields):
    """What 02's request 2 has for a command `hole`: the board with the cell fixed, or a refusal."""
    width, height, row, column = (int(fields[place]) for place in (0, 1, 4, 5))
    fixed, laid = int(fields[2], 16), int(fields[3], 16)
    if not is_board(width, height, fixed, laid):
        return "refused 4"
    if row >= height or column >= width or (fixed | laid) & cell(row, column):
        return "refused 15"
    return f"{width} {height} {fixed | cell(row, column):x} {laid:x}"


def figure(layers, free):
    """What 02's request 3 has for a command `cuttings`, by the answer to `layers` and the free cells."""
    return "1" if free == 0 and not layers.startswith("refused") else layers


def refusal(command):
    """01's refusal of a command, or none. The Rust has no refusals.

    Those of `layers`, `cuttings` and `graph` from 7 to 10 are the oracle's.
    """
    name, *fields = command.split()
    if name in ("l", "t"):
        return 5 if fields[0] == "0" or codes_of(name, fields[0]) > MOST_CODES else None
    if name in ("new", "lb", "tb"):
        a, b = map(int, fields)
        size = {"new": (a, b), "lb": (a * b, 2 * b), "tb": ((2 * a + 1) * b, 2 * b)}[name]
        return None if is_board(*size) else 4
    if name in ("full", "children", "layers", "cuttings", "graph", "tilings", "one"):
        width, height, fixed, laid = fields[:4]
        if not is_board(int(width), int(height), int(fixed, 16), int(laid, 16)):
            return 4
        paths = fields[4].split(",") if name != "full" else []
        if len(paths) > MOST_TILES:
            return 6
        if any(len(path) > MOST_CODES for path in paths):
            return 5
        return 8 if name == "one" and not has_room(fields) else None
    return None


def is_for_oracle(command):
    """Whether the oracle has an answer: it takes no board that is none and counts no such tiles."""
    name, number = command.split()[0], refusal(command)
    if name in ("layers", "cuttings", "graph", "tilings", "one"):
        return number is None
    if name == "tiling" or name in records.COMMANDS:
        return False
    return name not in ("full", "children") or number != 4


def stored_answer(command, answer):
    """The answer to store: the oracle's, a model's, or 01's refusal.

    Where ours refuses, the Rust panics or has no limit: it panics for l 0, t 0 and boards with one
    side 0 and the other not, and it takes longer paths, larger boards and more tiles.
    """
    name, field = command.split()[:2]
    number = refusal(command)
    if name == "tiling":
        return tilings.answer(tilings.read(command))
    if name in records.COMMANDS:
        return records.answer(command)
    if name == "hole":
        if answer != with_hole(command.split()[1:]):
            stop(f"{command}: the oracle's answer is {answer}")
        return answer
    expected = True
    if name in ("l", "t"):
        expected = answer == "panic" if field == "0" else len(answer) == codes_of(name, field)
    elif name in ("new", "lb", "tb"):
        expected = (answer in ("panic", "large")) == (number == 4)
    elif number is None:
        expected = answer not in ("panic", "several")
    if not expected:
        stop(f"{command}: the oracle's answer is {answer}")
    if number is not None:
        return f"refused {number}"
    # Which tiling is found is free.
    return "found" if name == "one" and answer != "none" else answer
