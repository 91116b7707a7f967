"""01's known plots, and plots with nothing to cut, for the commands that count, search or print."""

import sys

sys.dont_write_bytecode = True
import plots
from plots import DOMINOES, Plot

L_TILES = plots.ORBITS[1]


def different(commands):
    """The commands, each once."""
    return list(dict.fromkeys(commands))


# 01's known plots: a command that makes the board, the tiles, the count.
KNOWN_PLOTS = [
    ("new 0 0", "D", 0),
    ("new 1 1", "-", 1),
    ("new 1 1", "D", 0),
    ("new 2 2", "D", 2),
    ("new 3 2", "D", 3),
    ("new 3 3", "D", 0),
    ("new 3 2", "L", 2),
    ("lb 2 1", "L", 1),
    ("lb 3 1", "D", 1),
    ("tb 1 1", "T", 1),
    ("tb 1 1", "D", 0),
    ("new 4 2", "4,5", 0),
    ("new 4 4", "D", 36),
    ("new 4 4", "T", 2),
    ("new 8 8", "D", 12_988_816),
]


def known(ask):
    """Board and tiles of 01's known plots as they stand in a command, and the counts."""
    starts = {"D": "3", "L": ask(["l 2"])[0], "T": ask(["t 1"])[0]}
    orbit = {name: ask([f"orbit {path}"])[0] for name, path in starts.items()}
    found = []
    for made, name, count in KNOWN_PLOTS:
        width, height, fixed, _ = ask([made])[0].split()
        found.append((f"{width} {height} {fixed} 0 {orbit.get(name, name)}", count))
    return found


def bare_plots():
    """Plots with nothing to cut: 0 by 0, and full boards with fixed and with laid marks."""
    bare = [Plot(0, 0, tiles=tiles) for tiles in (".", "-", DOMINOES)]
    for tiles in (".", "-", L_TILES):
        plot = Plot(3, 2, fixed=0x10003, tiles=tiles)
        plot.laid = plot.free()
        bare += [plot, Plot(2, 1, fixed=3, tiles=tiles), Plot(1, 2, tiles=tiles)]
    return bare


def has_few_sequences(weight):
    """Whether the graph has the usual room, and the Rust builds it quickly."""
    return weight and weight.nodes <= 600 and weight.edges <= 1200 and weight.sequences <= 50_000
