"""The commands of the program replay_counts: both counts, the figure called cuttings, tilings
and tilings by number.

Each section answers a list of commands, by its own generator and by the oracle's answers.
"""

import itertools
import sys

sys.dont_write_bytecode = True
import cuttingcases
import damages
import plots
import tilings
from answers import refusal
from cases import MOST_TILINGS
from holeplots import counted_with_holes
from knownplots import bare_plots, different, has_few_sequences, known
from plots import MOST_CODES, MOST_TILES, Plot, stop

MOST_ANSWER = 16_000  # bytes of an answer with all tilings of a plot
MOST_NUMBERS = 40  # of a graph, each in its own command
# How many plots have at most so many tilings, and more than the number before.
PLOTS_WITH_TILINGS = {0: 50, 1: 60, 3: 70, 8: 60, 20: 36, 60: 12, 130: 4, MOST_TILINGS: 3}


def known_plots(_draws, ask):
    """01's known plots, whose counts are held to 01's too; the graphs but for that of 8 by 8."""
    commands = []
    for plot, count in known(ask):
        if ask([f"layers {plot}"]) != [str(count)]:
            stop(f"layers {plot}: 01 has the count {count}")
        commands.append(f"layers {plot}")
        if count < 1000:
            commands.append(f"graph {plot}")
    return commands


def is_small(weight):
    """Whether the graph is short enough to be stored and the Rust builds it quickly."""
    return weight and weight.nodes <= 60 and weight.edges <= 120 and weight.sequences <= 50_000


def counted_plots(draws, ask):
    """Layer counts of plots up to 6 by 6, and the graphs that are small."""
    drawn = bare_plots() + [plots.counted_plot(draws, 6) for _ in range(420)]
    commands = []
    for plot, weight in zip(drawn, plots.weights_of(ask, drawn)):
        commands.append(plot.command("layers"))
        if is_small(weight) and (weight.nodes > 2 or draws.one_in(4)):
            commands.append(plot.command("graph"))
    return commands


def with_exact_rooms(plot, weight):
    """Commands with the rooms that a plot fills, and with one less."""
    largest, nodes, edges = weight.largest, weight.nodes, weight.edges
    layers, graph = plot.command("layers"), plot.command("graph")
    commands = [f"{layers} {largest}", f"{layers} {largest - 1}"]
    commands += [f"{graph} {nodes} {edges}", f"{graph} {nodes - 1} {edges}"]
    return commands + [f"{graph} {nodes} {edges - 1}", f"{graph} {nodes - 1} {edges - 1}"]


def exact_rooms(draws, ask):
    """Rooms that a plot fills, and rooms of one less; no room at all."""
    drawn = [plots.counted_plot(draws, 6) for _ in range(300)]
    pairs = zip(drawn, plots.weights_of(ask, drawn))
    chosen = [(plot, weight) for plot, weight in pairs if is_small(weight) and weight.edges > 3]
    commands = []
    for plot, weight in chosen[:70]:
        commands += with_exact_rooms(plot, weight)
    for plot in bare_plots() + [plot for plot, _ in chosen[:6]]:
        layers, graph = plot.command("layers"), plot.command("graph")
        commands += [f"{layers} 0", f"{layers} 1", f"{graph} 0 0", f"{graph} 0 9"]
        commands += [f"{graph} 1 0", f"{graph} 90 0"]
    return commands


def count_refusals(_draws, _ask):
    """Boards that are none, too many tiles, too long ones, unequal ones, and several at once."""
    boards = ["17 16 0 0", "0 3 0 0", "2 2 1 1", "2 2 4 0", "3 2 0 0", "0 0 0 0", "2 1 1 2"]
    many = ",".join(["3"] * MOST_TILES)
    long = "3" * (MOST_CODES + 1)
    lists = [f"{many},3", long, "3,33", f"{many},33", f"{many},{long}", f"33,{long}", f"{many}"]
    lists += ["-,3", "32,33", "3021,33", "3,1,2,0,30", "32,3", "3021,333", "0101,-", "."]
    commands = []
    for board, tiles in itertools.product(boards, lists):
        commands += [f"layers {board} {tiles}", f"graph {board} {tiles}"]
        if refusal(commands[-1]) != 4:
            commands += [f"layers {board} {tiles} 0", f"graph {board} {tiles} 0 0"]
    return commands


# Marks with which trominoes have exactly 2^64 - 1 and 2^64 cuttings, found by a search: strips of 4
# and 5 columns whose counts multiply.
ALMOST_2_64 = 0x824082008308A2008220CA0A82008A408634B2408A008204820282008228820
EXACTLY_2_64 = 0x218021802100711125002100210021122330210071002100210021002140210


def large_counts(_draws, ask):
    """Counts near 2^64 and beyond it, in small layers and small graphs."""
    return counts_at_2_64(ask) + counts_of_blocks(ask) + first_too_great(ask)


def counts_at_2_64(ask):
    commands = []
    almost = Plot(16, 16, ALMOST_2_64, tiles=plots.TROMINOES)
    exactly = Plot(14, 16, EXACTLY_2_64, tiles=plots.TROMINOES)
    for plot, count in ((almost, 2**64 - 1), (exactly, 2**64)):
        layers = plot.command("layers")
        if ask([layers]) != [str(count)]:
            stop(f"{layers}: the Rust's count isn't {count}")
        largest = plots.weights_of(ask, [plot])[0].largest
        commands += [layers, f"{layers} 4096", f"{layers} {largest}", f"{layers} {largest - 1}"]
    return commands


def counts_of_blocks(ask):
    """10^16, whose graph is stored; 117^9; 117^6 * 454^3, which is beyond 2^64."""
    commands = []
    tens = plots.blocks([3] * 4, [3] * 4, plots.TROMINOES)
    nines = plots.blocks([4] * 3, [4] * 3, plots.TETROMINOES)
    beyond = plots.blocks([4, 4, 5], [4] * 3, plots.TETROMINOES)
    for plot in (tens, nines, beyond):
        layers, graph = plot.command("layers"), plot.command("graph")
        weight = plots.weights_of(ask, [plot])[0]
        nodes, edges = weight.nodes, weight.edges
        commands += [layers, f"{layers} {weight.largest}", f"{layers} {weight.largest - 1}"]
        commands += [graph, f"{graph} {nodes - 1} {edges}", f"{graph} {nodes} {edges - 1}"]
        commands += [f"{graph} {nodes - 1} {edges - 1}"]
    commands.append(f"{graph} {nodes} {edges}")  # of the last, refused for its counts alone
    # With one cell less no cutting is left, but path counts beyond 2^64.
    beyond.fixed |= plots.cell(5, 5)
    layers = beyond.command("layers")
    if ask([layers]) != ["0"]:
        stop(f"{layers}: the Rust's count isn't 0")
    return commands + [layers, beyond.command("graph") + f" {nodes} {edges}"]


def first_too_great(ask):
    """Path counts that pass 2^64 before, in and behind the first layer that passes the room.

    Nine rectangles, the midmost of 5 by 5 cells less one, which is cut last. With a row of marks
    more, the layer with the first such count is larger than all before it.
    """
    commands = []
    for row in (0, 0xF):
        plot = plots.blocks([4, 5, 4], [4, 5, 4], plots.TETROMINOES)
        plot.fixed |= plots.cell(5, 5) | row
        weight = plots.weights_of(ask, [plot])[0]
        here = weight.sizes[weight.over]
        before, behind = max(weight.sizes[: weight.over]), max(weight.sizes[weight.over + 1 :])
        for room in (before - 1, before, here - 1, here, behind - 1, behind):
            commands.append(plot.command("layers") + f" {room}")
    return commands


def known_tilings(_draws, ask):
    """All tilings of 01's known plots but 8 by 8, and of plots with nothing to cut.

    With them the longest list of boards, 257: the single tile on 16 by 16.
    """
    commands = [f"tilings {plot}" for plot, count in known(ask) if count <= MOST_TILINGS]
    commands += [plot.command("tilings") for plot in bare_plots()]
    commands += [Plot(16, side, tiles="-").command("tilings") for side in (1, 16)]
    many = ",".join(["3"] * (MOST_TILES + 1))
    commands += ["tilings 17 1 0 0 3", f"tilings 2 2 0 0 {many}", f"tilings 2 2 0 0 {33 * '3'}"]
    return different(commands)


def drawn_graphs(draws, ask, number, is_chosen):
    """Plots that have been drawn, and their counts, where something holds of the weight."""
    drawn = plots.plots_to_cut(draws, ask, number)
    pairs = zip(drawn, plots.weights_of(ask, drawn))
    chosen = [plot for plot, weight in pairs if is_chosen(weight)]
    return zip(chosen, map(int, ask([plot.command("layers") for plot in chosen])))


def random_tilings(draws, ask):
    """All tilings of random plots, of which so many have no tiling, one, a few, and many."""
    commands = []
    left = dict(PLOTS_WITH_TILINGS)
    while any(left.values()):
        for plot, count in drawn_graphs(draws, ask, 400, has_few_sequences):
            kind = next((most for most in left if count <= most), None)
            command = plot.command("tilings")
            if kind is None or not left[kind] or command in commands:
                continue
            if count < 20 or len(ask([command])[0]) < MOST_ANSWER:
                commands.append(command)
                left[kind] -= 1
    return commands


def graphs_of(ask, commands):
    """The Rust's graphs, whose tilings by the model are held to the Rust's tilings."""
    graphs = [tilings.Graph(text) for text in ask([f"graph {plot}" for plot in commands])]
    for graph, text in zip(graphs, ask([f"tilings {plot}" for plot in commands])):
        graph.check_tilings(text)
    return graphs


def small_graphs(draws, ask, number, most_nodes, counts):
    """Different graphs of random plots with so many nodes at most and counts in a range."""
    found = {}
    while len(found) < number:
        drawn = drawn_graphs(draws, ask, 160, lambda weight: weight and weight.nodes <= most_nodes)
        chosen = [plot.command("").strip() for plot, count in drawn if count in counts]
        for graph in graphs_of(ask, chosen):
            found.setdefault(tuple(graph.pairs), graph)
    return list(found.values())[:number]


def some_known(ask, numbers):
    """The graphs of some of KNOWN_PLOTS, by their places there."""
    found = known(ask)
    return graphs_of(ask, [found[number][0] for number in numbers])


def every_number(draws, ask):
    """Every number of graphs with few tilings, and the first that is none; other edges too."""
    cases = [graph.case() for graph in some_known(ask, (1, 3, 4, 6, 12, 13))]
    cases += [graph.case() for graph in small_graphs(draws, ask, 8, 24, range(5, 20))]
    for graph in small_graphs(draws, ask, 8, 9, range(2, 6)):
        cases.append(damages.shuffled(graph.case(), draws))
        cases.append(damages.with_double_edges(graph.case(), draws))
        cases.append(damages.with_unreached_nodes(graph.case(), draws))
    commands = []
    for case in cases:
        count = case.counts[case.full]
        if count <= MOST_NUMBERS:
            commands += [other.command() for other in tilings.numbered(case)]
            commands.append(case.but(m=count).command())
    return different(commands)


def checked(pairs):
    """Commands of cases that come with their refusals, to which the model's answers are held."""
    commands = []
    for number, case in pairs:
        found = tilings.refusal_or_list(case)
        if (found if isinstance(found, int) else None) != number:
            stop(f"{case.command()}: made for the refusal {number}, the model has {found}")
        commands.append(case.command())
    return commands


def damaged_graphs(draws, ask):
    """Damaged copies of graphs, for each cause of refusals 11, 12 and 8, and sound copies."""
    graphs = some_known(ask, (1, 3, 6)) + small_graphs(draws, ask, 3, 9, range(2, 9))
    commands = []
    for graph in graphs:
        commands += checked(damages.with_refusals(graph.case(graph.count - 1)))
    return different(commands)


def great_counts(_draws, _ask):
    """Sums of path counts at 2^64, in graphs that no plot has."""
    return checked(damages.counts_at_2_64())


def changed_graphs(draws, ask):
    """Graphs with random changes; some have no full node."""
    graphs = small_graphs(draws, ask, 30, 12, range(0, 13))
    cases = [damages.some_case(draws, draws.one_of(graphs)) for _ in range(200)]
    return different(case.command() for case in cases)


def counts_with_holes(draws, ask):
    """Both counts of plots with holes, which are equal, the graphs that are small, and all tilings."""
    found = counted_with_holes(draws, ask)
    weights = plots.weights_of(ask, [plot for plot, _ in found])
    commands = []
    for (plot, count), weight in zip(found, weights):
        commands.append(plot.command("layers"))
        if not is_small(weight):
            continue
        graph = plot.command("graph")
        if ask([plots.with_rooms(graph)])[0].split()[0] != str(count):
            stop(f"{graph}: the layer count is {count}")
        commands.append(graph)
        if weight.edges and draws.one_in(8):
            commands += with_exact_rooms(plot, weight)
        if count <= MOST_TILINGS and len(ask([plot.command("tilings")])[0]) < MOST_ANSWER // 4:
            commands.append(plot.command("tilings"))
    return different(commands)


def figures_like_layers(draws, ask):
    """The figure with rooms that are just filled, and with large counts, where the layers have them."""
    found = [text for text in large_counts(draws, ask) + exact_rooms(draws, ask) if text.startswith("layers ")]
    return cuttingcases.held(ask, ((None, text.replace("layers", "cuttings", 1)) for text in found))


SECTIONS = [known_plots, counted_plots, exact_rooms, count_refusals, large_counts]
SECTIONS += [known_tilings, random_tilings, every_number, damaged_graphs, great_counts]
SECTIONS += [changed_graphs]
LATER_SECTIONS = [counts_with_holes]
FIGURE_SECTIONS = [cuttingcases.figures, figures_like_layers, cuttingcases.random_figures]
