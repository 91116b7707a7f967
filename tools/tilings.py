"""The tiling by number, by the text of 01: the answers to commands `tiling`.

The Rust has no such call and no refusals. So these answers come from a model of 01's section
"Tiling by number", whose numbers have no word size. The graphs are the Rust's, as the oracle gives
them, and copies of them with other words, which damages.py makes. Of the Rust's graphs the model's
lists are held to the Rust's tilings.
"""

import dataclasses
import re
import sys

sys.dont_write_bytecode = True
from plots import stop

MOST_ROOM = 16_777_216  # nodes or edges, however many words are lent
LARGEST = 2**64 - 1  # word


@dataclasses.dataclass(frozen=True)
class Case:
    """A command `tiling`: a result, lent words, a number and an output.

    `nodes`, `edges` and `full` are the result, where `full` may be None. Of the node words and of
    the output only the number of words matters.
    """

    nodes: int
    edges: int
    full: int | None
    node_words: int
    counts: tuple[int, ...]
    edge_words: tuple[int, ...]
    m: int
    out: int

    def but(self, **changes):
        return dataclasses.replace(self, **changes)

    def check(self):
        """Stops if the program replay_counts can't lend so many words, or a number is no word."""
        lent = self.node_words <= 4096 and max(len(self.counts), self.out) <= 1024
        words = [self.nodes, self.edges, self.full or 0, *self.counts, *self.edge_words, self.m]
        if not lent or len(self.edge_words) > 2048 or not 0 <= min(words) <= max(words) <= LARGEST:
            stop(f"no command: {self}")

    def pairs(self):
        """The edges, if they are all lent."""
        words = self.edge_words
        return [(words[2 * i], words[2 * i + 1]) for i in range(self.edges)]

    def command(self):
        self.check()
        words = [str(word) for word in self.edge_words]
        edges = ",".join(">".join(words[i : i + 2]) for i in range(0, len(words), 2))
        counts = ",".join(map(str, self.counts))
        full = "none" if self.full is None else self.full
        result = f"{self.nodes} {self.edges} {full} {self.node_words}"
        return f"tiling {result} {counts or '.'} {edges or '.'} {self.m} {self.out}"


def read(command):
    """The case of a command."""
    _, nodes, edges, full, node_words, counts, edge_words, m, out = command.split(" ")

    def words(text):
        return tuple(int(word) for word in re.split("[,>]", text)) if text != "." else ()

    full = None if full == "none" else int(full)
    lent = int(node_words), words(counts), words(edge_words)
    return Case(int(nodes), int(edges), full, *lent, int(m), int(out))


# The model.


def is_graph(case):
    """Whether the result and the words have no cause of refusal 11."""
    if case.nodes == 0:
        return False
    if case.nodes > min(case.node_words // 4, len(case.counts), MOST_ROOM):
        return False
    if case.edges > min(len(case.edge_words) // 2, MOST_ROOM):
        return False
    if case.full is not None and not case.full < case.nodes:
        return False
    pairs = case.pairs()
    if not all(parent < child < case.nodes for parent, child in pairs):
        return False
    if case.counts[0] != 1:
        return False
    sums = [0] * case.nodes
    for parent, child in pairs:
        sums[child] += case.counts[parent]
    return all(case.counts[node] == sums[node] for node in range(1, case.nodes))


def node_list(case):
    """The tiling with the number m, of a sound graph and a number below the full node's count."""
    pairs, m = case.pairs(), case.m
    found = [case.full]
    while found[0] != 0:
        for parent in [parent for parent, child in pairs if child == found[0]]:
            if m < case.counts[parent]:
                break
            m -= case.counts[parent]
        found.insert(0, parent)
    return found


def refusal_or_list(case):
    """The number of the refusal, or the list."""
    if not is_graph(case):
        return 11
    if case.full is None or not case.m < case.counts[case.full]:
        return 12
    found = node_list(case)
    return found if len(found) <= case.out else 8


def answer(case):
    """The answer that the program replay_counts has to give."""
    found = refusal_or_list(case)
    if isinstance(found, int):
        return f"refused {found}"
    return " ".join(map(str, [len(found), *found]))


# Graphs.


def counts_of(nodes, pairs, given=()):
    """The counts by the rule of sums, but for nodes whose counts are given."""
    counts = {0: 1, **dict(given)}
    for node in range(nodes):
        if node not in counts:
            counts[node] = sum(counts[parent] for parent, child in pairs if child == node)
    return tuple(counts[node] for node in range(nodes))


def flat(pairs):
    return tuple(word for pair in pairs for word in pair)


def graph_case(nodes, pairs, full, m=0):
    """A case with words that the graph fills and an output that the list fills."""
    counts = counts_of(nodes, pairs)
    return fitted(Case(nodes, len(pairs), full, 4 * nodes, counts, flat(pairs), m, 0))


def fitted(case):
    """The case with an output of just the list's length, if it has a list."""
    found = refusal_or_list(case.but(out=case.nodes))
    return case if isinstance(found, int) else case.but(out=len(found))


def numbered(case):
    """The case with every number below the full node's count."""
    return [fitted(case.but(m=m)) for m in range(case.counts[case.full])]


def with_edges(case, pairs):
    """The case with other edges and with counts by the rule of sums."""
    counts = counts_of(case.nodes, pairs)
    return fitted(case.but(edges=len(pairs), counts=counts, edge_words=flat(pairs)))


class Graph:
    """A graph of the Rust's, by the oracle's answer to a command `graph`."""

    def __init__(self, text):
        count, nodes, edges, full, *rest = text.split()
        self.count, self.nodes = int(count), int(nodes)
        self.full = None if full == "none" else int(full)
        self.boards = rest[: self.nodes]
        self.pairs = [tuple(map(int, pair.split(">"))) for pair in rest[self.nodes :]]
        counts = counts_of(self.nodes, self.pairs)
        if len(self.pairs) != int(edges) or self.count != (self.full and counts[self.full] or 0):
            stop(f"no graph: {text}")

    def case(self, m=0):
        return graph_case(self.nodes, self.pairs, self.full, m)

    def check_tilings(self, text):
        """Holds the lists of every number to the Rust's tilings, as sets."""
        found = [node_list(case) for case in numbered(self.case())] if self.full else []
        lists = [",".join(self.boards[node] for node in nodes) for nodes in found]
        if len(set(lists)) != len(lists) or text.split() != [str(len(lists)), *sorted_lists(lists)]:
            stop(f"the model's tilings differ: {text}")


def sorted_lists(lists):
    """The lists as the oracle sorts them: by the numbers of their boards."""
    return sorted(lists, key=lambda text: [int(board, 16) for board in text.split(",")])
