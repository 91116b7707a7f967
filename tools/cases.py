"""Random commands that several comparisons draw: plots on the way of runs, rooms, spoilt plots.

Nothing here answers a command. A refusal that a plot is spoilt for, or that a room brings, is read
off document 01.
"""

import sys

sys.dont_write_bytecode = True
import plots
from plots import MOST_CODES, MOST_TILES

MOST_TILINGS = 200  # that the program replay_counts answers
MOST_SEQUENCES = 50_000  # with more the Rust is slow to list its tilings


def new_plot(draws):
    """A plot, and whether it starts a run: then it has no laid mark."""
    is_run = draws.one_in(2)
    return plots.some_plot(draws, not is_run), is_run


def follow(draws, plot, is_run, answer):
    """A random child, or another plot."""
    children = answer.split()[1:]
    if not children or draws.one_in(12):
        return new_plot(draws)
    return plot.child(draws.one_of(children)), is_run


def some_rooms(draws, name, weight):
    """Rooms for a command that counts: none, those that are filled, one less, or random ones."""
    kind = draws.below(8)
    if weight is None or kind < 4:
        return ""
    if name in ("layers", "cuttings"):
        largest = weight.largest
        return f" {[largest, largest - 1, 4096, draws.below(largest + 2)][kind - 4]}"
    nodes, edges = weight.nodes, weight.edges
    if kind == 7:
        return f" {draws.below(nodes + 3)} {draws.below(edges + 3)}"
    return f" {nodes - (kind == 5)} {max(edges - (kind == 6), 0)}"


def fill(draws, plot):
    """Marks the free cells of a plot, all or all but one to four; some are fixed and some laid."""
    left = 0
    if plot.free() and draws.one_in(3):
        for _ in range(1 + draws.below(4)):
            left |= draws.one_of([1 << bit for bit in range(256) if plot.free() >> bit & 1])
    marked = plot.free() & ~left
    laid = draws.one_of([0, marked, marked & draws.half()])
    plot.laid |= laid
    plot.fixed |= marked & ~laid


def some_for_cuttings(draws, plot):
    """Makes a plot one for `cuttings`: half of them are full or nearly full, some with unequal tiles."""
    if draws.one_in(2):
        fill(draws, plot)
    if draws.one_in(40):
        plot.width = plot.height = plot.fixed = plot.laid = 0
    if draws.one_in(16):
        plot.tiles = plots.unequal_tiles(draws)


def room_for_cuttings(draws, weight):
    """A room for a command `cuttings`; with none or one board too where nothing is known."""
    if weight is None and draws.one_in(2):
        return f" {draws.below(2)}"
    return some_rooms(draws, "cuttings", weight)


def plots_to_list(draws, ask, number, most_nodes):
    """Of so many plots those with few tilings, and their weights; of those with none a quarter."""
    drawn = plots.plots_to_cut(draws, ask, number)
    pairs = zip(drawn, plots.weights_of(ask, drawn, most_nodes))
    found = [(p, w) for p, w in pairs if w and w.edges <= 4096 and w.sequences <= MOST_SEQUENCES]
    counts = map(int, ask([plot.command("layers") for plot, _ in found]))
    chosen = [count <= MOST_TILINGS and (count > 0 or draws.one_in(4)) for count in counts]
    return [pair for pair, is_chosen in zip(found, chosen) if is_chosen]


def room_to_search(draws, plot):
    """A room for a command `one` and whether it is enough: for most the usual one, which always is."""
    free = plot.free().bit_count()
    if not draws.one_in(4):
        return "", True
    room = draws.one_of([free + 1, free, 0, draws.below(free + 4)])
    return f" {room}", free < room


def spoil(draws, plot):
    """Makes a plot one that is refused, for one cause or several; the number of the first."""
    causes = [number for number in (4, 6, 5) if draws.one_in(2)] or [draws.one_of([4, 6, 5])]
    paths = plot.tiles.split(",")
    if 5 in causes:
        paths[draws.below(len(paths))] = draws.path(MOST_CODES + 1)
    if 6 in causes:
        paths += [draws.one_of(paths)] * (MOST_TILES + 1 - len(paths))
    if 4 in causes and draws.one_in(2):
        plot.laid |= plots.cell(plot.height, draws.below(plot.width))
    elif 4 in causes:
        plot.fixed |= 1
        plot.laid |= 1
    plot.tiles = ",".join(paths)
    return causes[0]


def command_to_search(draws, plot):
    """A command `one` for a plot, one in 16 of them spoilt, and its refusal or none."""
    number = spoil(draws, plot) if plot.height < 16 and draws.one_in(16) else None
    room, is_enough = room_to_search(draws, plot)
    return plot.command("one") + room, number if number or is_enough else 8


def answers_to_search(ask, commands, refusals):
    """The answers to commands `one` that ours have to be: the Rust's, or refusals."""
    asked = [command for command, number in zip(commands, refusals) if number is None]
    answers = iter(ask([plots.with_rooms(command) for command in asked]))
    for number in refusals:
        if number is not None:
            yield f"refused {number}"
            continue
        answer = next(answers)
        yield answer if answer in ("none", "panic") else "found"
