"""Plots with holes (02's request 2) for the commands on children, counts, tilings and one tiling.

Nothing here answers a command: the counts are the oracle's, and those of the plots of holecounts.py are
held to what stands there by hand.
"""

import sys

sys.dont_write_bytecode = True
import holecounts
import plots
from plotfiles import places, plot_in
from plots import EDGE_STEPS, Plot, cell, stop

EACH = 14  # random plots of each kind
MOST_FREE = 14  # cells of a plot with unequal tiles, so that the Rust soon knows that there is no tiling


def outer(plot):
    """The cells of the outer rows and columns."""
    return plot.inside() & ~(Plot(max(plot.width - 2, 0), max(plot.height - 2, 0)).inside() << 17)


def some_of(draws, cells, most):
    """One to so many cells of a set."""
    found = 0
    for _ in range(1 + draws.below(most)):
        found |= cell(*draws.one_of(places(cells)))
    return found


def in_the_middle(draws, plot):
    return some_of(draws, plot.inside() & ~outer(plot), 3)


def at_the_edge(draws, plot):
    return some_of(draws, outer(plot), 4)


def parting(draws, plot):
    """A whole row or column, or both; at times with a gap."""
    lines = [plots.ROWS[draws.below(plot.height)], plots.COLUMNS[draws.below(plot.width)]]
    line = draws.one_of([lines[0], lines[1], lines[0] | lines[1]]) & plot.inside()
    return line & ~some_of(draws, line, 1) if draws.one_in(3) else line


def enclosing(draws, plot):
    """The cells beside a free one, at times all of them; alone it is left to the single tile."""
    row, column = draws.below(plot.height), draws.below(plot.width)
    found = 0
    for down, right in EDGE_STEPS:
        r, c = row + down, column + right
        if 0 <= r < plot.height and 0 <= c < plot.width:
            found |= cell(r, c)
    return found if draws.below(4) else found & ~some_of(draws, found, 1)


def scattered(draws, plot):
    return plot.inside() & draws.cells(draws.one_of([-3, -2, -1])) or cell(0, 0)


def all_but_cut_ones(draws, plot):
    """The cells that are left when tiles are laid at random places."""
    return plot.inside() & ~plots.cut_cells(draws, plot)


KINDS = [in_the_middle, at_the_edge, parting, enclosing, scattered, all_but_cut_ones]


def some_plot(draws, kind, tiles_by=plots.equal_tiles):
    """A plot with holes of a kind; a plot where the tiles may fill the free cells is preferred."""
    for _ in range(6):
        plot = Plot(3 + draws.below(4), 3 + draws.below(3), tiles=tiles_by(draws))
        plot.fixed = kind(draws, plot)
        if plot.free() and plots.is_sum(plot):
            break
    return plot


def plots_with_holes(draws):
    """The plots of holecounts.py, and so many random ones of each kind."""
    found = [plot_in(text) for text in holecounts.COUNTED]
    found += [plot_in(f"{holecounts.ring(*size)} OR 3") for size in holecounts.RINGS]
    return found + [some_plot(draws, kind) for kind in KINDS for _ in range(EACH)]


def counted_with_holes(draws, ask):
    """The same with their counts by the Rust, of which the first are held to those by hand."""
    found = plots_with_holes(draws)
    counts = [int(answer) for answer in ask([plot.command("layers") for plot in found])]
    by_hand = [*holecounts.COUNTED.values(), *(2 for _ in holecounts.RINGS)]
    for plot, count, expected in zip(found, counts, by_hand):
        if count != expected:
            stop(f"{plot.command('layers')}: by hand the count is {expected}, the Rust's is {count}")
    return list(zip(found, counts))


def with_unequal_tiles(draws):
    """Random plots with holes and tiles of several numbers of cells."""
    found = []
    while len(found) < 6 * EACH:
        plot = some_plot(draws, draws.one_of(KINDS), plots.unequal_tiles)
        if plot.has_single() or plot.free().bit_count() <= MOST_FREE:
            found.append(plot)
    return found
