"""The commands of the program replay_plots: what is printed for plot files, and one tiling.

Each section answers a list of commands, by its own generator and by the oracle's answers.
"""

import itertools
import sys

sys.dont_write_bytecode = True
import cuttingcases
import filecases
import holecases
import holecounts
import plotfiles
import plots
import tilings
from answers import figure
from cases import MOST_TILINGS
from cuttingcases import figure_by_hand
from holeplots import counted_with_holes, with_unequal_tiles
from knownplots import KNOWN_PLOTS, bare_plots, different, has_few_sequences, known
from plots import DOMINOES, MOST_CODES, MOST_TILES, Plot, stop

MADE_BY = {"RB": "new", "LB": "lb", "TB": "tb"}  # the commands that make a board


def plot_of(ask, file):
    """The board and the tiles of a file that is read, as in commands, and the free cells.

    Holes are behind the board, and each takes a free cell.
    """
    (mark, numbers), *others = plotfiles.bodies(file)
    width, height, fixed, free = ask([f"{MADE_BY[mark]} {numbers[0]} {numbers[1]}"])[0].split()
    holes = [body for mark, body in others if mark == plotfiles.HOLE]
    for row, column in holes:
        fixed = f"{int(fixed, 16) | plots.cell(row, column):x}"
    free = int(free) - len(holes)
    tiles = []
    for mark, body in others[len(holes) :]:
        path = "".join(map(str, body[1:])) or "-"
        tiles += ask([f"orbit {path}"])[0].split(",") if mark == "OR" else [path]
    return f"{width} {height} {fixed} 0", tiles, free


def graph_lines(ask, plot):
    """The lines of a graph and of its tilings, which are the model's, held to the Rust's."""
    text = ask([plots.with_rooms(f"graph {plot}")])[0]
    if text.startswith("refused"):
        return [f"graph {text}"]
    graph = tilings.Graph(text)
    case = graph.case()
    lines = [f"graph {graph.count} nodes {graph.nodes} edges {case.edges}"]
    for m in range(min(graph.count, 16)):
        nodes = tilings.node_list(case.but(m=m))
        lines.append(f"tiling {m}: " + " ".join(map(str, nodes)))
    weight = plots.Weight(ask([f"weigh {plot} 1024"])[0])
    if has_few_sequences(weight) and graph.count <= MOST_TILINGS:
        graph.check_tilings(ask([f"tilings {plot}"])[0])
    return lines


def hold_text(ask, file, answer):
    """Holds a text to the answers to other commands, which have the Rust's counts and graph."""
    board, tiles, free = plot_of(ask, file)
    width, height = board.split()[:2]
    plot = f"{board} {','.join(tiles) or '.'}"
    lines = [f"board {width} {height} free {free}", f"tiles {len(tiles)}"]
    layers = ask([plots.with_rooms(f"layers {plot}")])[0]
    lines += [f"layers {layers}", f"cuttings {figure(layers, free)}"]
    lines += graph_lines(ask, plot)
    if answer != "".join(f"{line}|" for line in lines):
        stop(f"{plotfiles.command(file)}: the lines are {lines}, the oracle has {answer}")


def held_texts(ask, files):
    """Commands of files, and the answers, to which those of files that are read are held."""
    commands = [plotfiles.command(file) for file in files]
    answers = ask(commands)
    for file, answer in zip(files, answers):
        if not answer.startswith("refused"):
            hold_text(ask, file, answer)
    return commands, answers


def held_files(ask, pairs):
    """Commands of files that come with a refusal or with words, to which the answers are held."""
    pairs = list(pairs)
    commands, answers = held_texts(ask, [file for _, file in pairs])
    for (expected, _), command, answer in zip(pairs, commands, answers):
        is_refusal = isinstance(expected, int)
        if answer != f"refused {expected}|" if is_refusal else expected not in answer:
            stop(f"{command}: the documents have {expected}, the oracle {answer}")
    return different(commands)


WORKED_EXAMPLE = "52 42 02 02 4F 52 01 03 45 4E"
WORKED_TEXT = """board 2 2 free 4
tiles 4
layers 2
cuttings 2
graph 2 nodes 4 edges 4
tiling 0: 0 1 3
tiling 1: 0 2 3
"""


def known_files(_draws, ask):
    """01's worked example, held to 01's text, and its known plots, held to their counts.

    The line of the figure called cuttings, directly behind the layers, is 02's.
    """
    example = plotfiles.command(bytes.fromhex(WORKED_EXAMPLE))
    if ask([example]) != [WORKED_TEXT.replace("\n", "|")]:
        stop(f"{example}: 01 has another text")
    marks = {name: mark for mark, name in MADE_BY.items()}
    orbits = {"D": "OR 3", "L": "OR " + ask(["l 2"])[0], "T": "OR " + ask(["t 1"])[0]}
    pairs = []
    for made, name, count in KNOWN_PLOTS:
        kind, *numbers = made.split()
        tiles = orbits.get(name) or " ".join(f"TI {path}" for path in name.split(","))
        graph = f"{count} nodes " if count < 1000 else "refused 8|"
        file = plotfiles.whole(" ".join([marks[kind], *numbers, tiles]))
        pairs.append((f"|layers {count}|cuttings {figure_by_hand(made, count)}|graph {graph}", file))
    return different([example, *held_files(ask, pairs)])


def refused_files(_draws, ask):
    """Files for each refusal at each place of a record, with others that are read."""
    pairs = [*filecases.bad_marks(), *filecases.misplaced(), *filecases.cut_bodies()]
    pairs += [*filecases.long_paths(), *filecases.bad_codes(), *filecases.board_sizes()]
    return held_files(ask, pairs + [*filecases.many_tiles(), *filecases.behind_the_end()])


def damaged_files(_draws, ask):
    """Good files that are cut at every length or have one byte changed; the longest files."""
    pairs = [*filecases.cut_files(), *filecases.changed_files(), *filecases.long_files()]
    return held_files(ask, pairs)


def read_files(_draws, ask):
    """Files by their numbers of tilings, of all kinds of boards, with any tiles and with none."""
    pairs = [*filecases.counted_files(), *filecases.bare_files(), *filecases.unequal_files()]
    return held_files(ask, pairs + [*filecases.shaped_files(), *filecases.full_rooms()])


def random_files(draws, ask):
    """Random files, three of five damaged."""
    files = [plotfiles.some_file(draws)[1] for _ in range(200)]
    return different(held_texts(ask, files)[0])


def refused_holes(_draws, ask):
    """Files with holes for each refusal at each place, with others that are read."""
    pairs = [*holecases.hole_marks(), *holecases.misplaced_holes(), *holecases.cut_holes()]
    pairs += [*holecases.every_cell(), *holecases.bad_cells(), *holecases.exchanged_cells()]
    return held_files(ask, pairs)


def damaged_holes(_draws, ask):
    """Good files with holes, cut at every length or with a byte changed; the longest files."""
    pairs = [*holecases.cut_hole_files(), *holecases.changed_hole_files()]
    return held_files(ask, pairs + [*holecases.long_hole_files()])


def read_holes(draws, ask):
    """Files with holes by their counts, with all cells fixed, of all kinds of boards and tiles.

    An L or T board and the rectangle with its marks as holes have one text.
    """
    for shaped, holed in holecounts.shaped_by_holes():
        texts = ask([plotfiles.command(shaped), plotfiles.command(holed)])
        if texts[0] != texts[1]:
            stop(f"{plotfiles.command(holed)}: the text is not that of {shaped.hex()}: {texts}")
    pairs = [*holecounts.counted_hole_files(), *holecounts.large_hole_files()]
    pairs += [*holecases.all_fixed(), *holecounts.with_other_tiles(), holecounts.SHED]
    pairs += [("|layers ", file) for both in holecounts.shaped_by_holes() for file in both]
    return held_files(ask, pairs + [*holecounts.holes_in_every_shape(draws)])


def random_holes(draws, ask):
    """Random files with holes, two of five damaged."""
    files = [plotfiles.some_file_with_holes(draws)[1] for _ in range(220)]
    return different(held_texts(ask, files)[0])


def full_files(_draws, ask):
    """Files with no free cell, with one, and with refused layers, by the figure called cuttings."""
    pairs = [*cuttingcases.built_files(), *cuttingcases.nearly_built_files()]
    return held_files(ask, pairs + [*cuttingcases.refused_figures(), *cuttingcases.products()])


def searches_with_holes(draws, ask):
    """One tiling of plots with holes, with and without rooms; with equal tiles as the counts say."""
    unequal = with_unequal_tiles(draws)
    searched(ask, unequal)
    commands = [plot.command("one") for plot in unequal]
    for plot, count in counted_with_holes(draws, ask):
        if (searched(ask, [plot]) == ["none"]) != (count == 0):
            stop(f"{plot.command('one')}: the count is {count}")
        commands.append(plot.command("one"))
        if draws.one_in(4):
            commands += with_search_rooms(plot)
    return different(commands)


# How many random plots of a kind are searched for one tiling: by the tiles' numbers of cells and by
# what is found; where there is none, whether the free cells are a sum of these numbers.
PLOTS_TO_SEARCH = {
    ("equal", "found"): 150,
    ("unequal", "found"): 110,
    ("with a single tile", "found"): 40,
    ("equal", "none, a sum"): 60,
    ("equal", "none, no sum"): 40,
    ("unequal", "none, a sum"): 70,
    ("unequal", "none, no sum"): 30,
}
ROOMS_OF_A_KIND = 8  # plots of each kind that are asked for with rooms too


def single_tilings(draws, ask):
    """One tiling: of known plots, random ones and large boards; rooms and refusals."""
    commands = known_searches(ask) + random_searches(draws, ask) + long_searches(draws, ask)
    return different(commands + search_refusals())


def with_search_rooms(plot):
    """Commands with the room that is asked for, one board less, and none."""
    free = plot.free().bit_count()
    return [plot.command("one") + f" {room}" for room in (free + 1, free, 0)]


def known_searches(ask):
    """01's known plots, of which those with a count other than 0 have a tiling; bare plots."""
    commands = []
    for plot, count in known(ask):
        if (ask([f"one {plot}"]) == ["none"]) != (count == 0):
            stop(f"one {plot}: 01 has the count {count}")
        commands.append(f"one {plot}")
    for plot in bare_plots() + [Plot(3, 2), Plot(1, 1, tiles="3")]:
        commands += [plot.command("one"), *with_search_rooms(plot)]
    return commands


def searched(ask, drawn):
    """The Rust's answers for some plots; the tilings are held to its children."""
    answers = ask([plot.command("one") for plot in drawn])
    hold_boards(ask, [pair for pair in zip(drawn, answers) if pair[1] != "none"])
    return answers


def hold_boards(ask, pairs):
    """Holds tilings to the Rust's children: each board is one of that before, the last full."""
    steps, ends = [], []
    for plot, answer in pairs:
        boards = answer.split()
        if len(boards) < 2 or boards[0] != f"{plot.fixed | plot.laid:x}":
            stop(f"{plot.command('one')}: the oracle's answer is {answer}")
        for marks, child in zip(boards, boards[1:]):
            steps.append((plot.child(marks).command(), child))
        ends.append(f"full {plot.child(boards[-1]).board()}")
    for (command, child), answer in zip(steps, ask([command for command, _ in steps])):
        if child not in answer.split()[1:]:
            stop(f"{command}: the next board of the Rust's tiling, {child}, is no child")
    if any(answer != "true" for answer in ask(ends)):
        stop("the last board of a tiling of the Rust isn't full")


def kind_of_search(plot, answer):
    """The kind of a plot with a free cell, as in PLOTS_TO_SEARCH."""
    tiles = "equal" if len(plots.cell_numbers(plot.tiles)) == 1 else "unequal"
    if tiles == "unequal" and plot.has_single():
        tiles = "with a single tile"
    if answer != "none":
        return tiles, "found"
    return tiles, "none, a sum" if plots.is_sum(plot) else "none, no sum"


def random_searches(draws, ask):
    """So many random plots of each kind; some of them with rooms."""
    chosen = {kind: {} for kind in PLOTS_TO_SEARCH}
    while any(len(chosen[kind]) < number for kind, number in PLOTS_TO_SEARCH.items()):
        drawn = [plot for plot in plots.plots_to_search(draws, ask, 400) if plot.free()]
        for plot, answer in zip(drawn, searched(ask, drawn)):
            kind = kind_of_search(plot, answer)
            if len(chosen[kind]) < PLOTS_TO_SEARCH[kind]:
                chosen[kind][plot.command("one")] = plot
    commands = []
    for found in chosen.values():
        commands += found
        for plot in list(found.values())[:ROOMS_OF_A_KIND]:
            commands += with_search_rooms(plot)
    return commands


def long_searches(draws, ask):
    """Large boards: the longest list (257), dominoes, long paths, a single tile among others."""
    snake = 15 * "3" + "1" + 15 * "2"
    lists = ["-", DOMINOES, snake, f"{snake},{15 * '1'}"]
    large = [Plot(16, 16, tiles=tiles) for tiles in lists]
    while len(large) < 24:
        plot = plots.some_plot(draws, True)
        is_mixed = plot.has_single() and len(plots.cell_numbers(plot.tiles)) > 1
        if is_mixed and plot.free().bit_count() > 20 and len(plot.tiles) < 150:
            large.append(plot)
    searched(ask, large)
    commands = [plot.command("one") for plot in large]
    for plot in large[:2]:
        commands += [*with_search_rooms(plot), plot.command("one") + " 300"]
    return commands


def search_refusals():
    """Boards that are none, too many tiles, too long ones, several at once; also with no room."""
    boards = ["17 16 0 0", "0 3 0 0", "2 2 1 1", "2 2 4 0", "3 2 0 0", "0 0 0 0", "2 1 1 2"]
    many = ",".join(["3"] * MOST_TILES)
    long = "3" * (MOST_CODES + 1)
    lists = [many, f"{many},-", long, f"{many},{long}", f"-,{long}", "3,33"]
    commands = [f"one {board} {tiles}" for board, tiles in itertools.product(boards, lists)]
    return commands + [f"{command} 0" for command in commands]


SECTIONS = [known_files, refused_files, damaged_files, read_files, random_files]
SECTIONS += [single_tilings]
LATER_SECTIONS = [refused_holes, damaged_holes, read_holes, random_holes, searches_with_holes]
FIGURE_SECTIONS = [full_files]
