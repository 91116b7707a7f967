"""Copies of graphs with other words, for commands `tiling`: damaged ones and other sound ones.

Nothing here answers a command. A case that is made for one refusal comes with its number, or with
None if it stays sound, and the model's answer is held to that.
"""

import sys

sys.dont_write_bytecode = True
from tilings import LARGEST, MOST_ROOM, Case, counts_of, fitted, flat, with_edges


def places(n):
    """The first, a middle and the last place."""
    return sorted({0, n // 2, n - 1})


def changed(words, place, word):
    return (*words[:place], word, *words[place + 1 :])


def bad_sizes(case):
    n, words = case.nodes, case.edge_words
    yield case.but(nodes=0)
    yield case.but(nodes=0, edges=0, full=None)
    yield Case(0, 0, None, 0, (), (), 0, 0)
    for lent in (4 * n - 1, 4 * n - 4, n, 0):
        yield case.but(node_words=lent)
    for lent in (case.counts[:-1], case.counts[:1], ()):
        yield case.but(counts=lent)
    yield case.but(node_words=4 * n - 1, counts=case.counts[:-1])
    # A node of count 0 more, for which a word is missing: nothing else is wrong.
    lone = with_lone_node(case)
    yield lone.but(counts=case.counts)
    yield lone.but(node_words=4 * n + 3)
    for lent in (words[:-1], words[:-2], words[: case.edges], ()):
        yield case.but(edge_words=lent)
    yield case.but(nodes=n - 1)
    yield case.but(nodes=n - 1, full=None)
    for many in (MOST_ROOM + 1, 2**62, LARGEST):
        yield case.but(nodes=many)
        yield case.but(edges=many)
    yield case.but(nodes=n + 1)
    yield case.but(edges=case.edges + 1)


def bad_full_nodes(case):
    n = case.nodes
    for full in (n, n + 1, LARGEST):
        yield case.but(full=full)
    yield case.but(full=n, node_words=4 * n + 4, counts=(*case.counts, 1), m=0)


def with_lone_node(case):
    """The case with one more node, to which no edge leads: its count is 0."""
    counts = (*case.counts, 0)
    return case.but(nodes=case.nodes + 1, node_words=case.node_words + 4, counts=counts)


def with_edge(case, parent, child):
    """The case with one more edge and the same counts."""
    return case.but(edges=case.edges + 1, edge_words=(*case.edge_words, parent, child))


def bad_edges(case):
    n, words = case.nodes, case.edge_words
    for i in places(case.edges):
        parent, child = case.pairs()[i]
        for other in (child, child + 1, LARGEST):
            yield case.but(edge_words=changed(words, 2 * i, other))
        for other in (parent, n, LARGEST):
            yield case.but(edge_words=changed(words, 2 * i + 1, other))
        yield case.but(edge_words=(*words[: 2 * i], child, parent, *words[2 * i + 2 :]))
    # Here every sum is exact, and the edge is the only cause.
    lone = with_lone_node(case)
    yield with_edge(lone, n, n)
    for child in (0, 1, n - 1):
        yield with_edge(lone, n, child)
    for child in (n, n + 1, LARGEST):
        yield with_edge(case, 0, child)
    yield with_edge(case, 0, n).but(node_words=4 * n + 4, counts=(*case.counts, 1))


def bad_counts(case):
    counts, last = case.counts, case.full
    for count in (0, 2, LARGEST):
        yield case.but(counts=changed(counts, 0, count))
    # Every other node's count is the sum of its parents'.
    yield case.but(counts=tuple(2 * count for count in counts))
    yield case.but(counts=(0,) * case.nodes)
    for node in sorted({1, case.nodes // 2, last} - {0}):
        for count in sorted({counts[node] + 1, counts[node] - 1, 0, LARGEST} - {counts[node], -1}):
            yield case.but(counts=changed(counts, node, count))
            if count != LARGEST:
                # Carried on: no other node's count is wrong.
                yield case.but(counts=counts_of(case.nodes, case.pairs(), {node: count}))
    yield with_lone_node(case).but(counts=(*counts, 1))


def late_refusals(case):
    """Refusals 12 and 8, and several causes at once. Each with the refusal."""
    count, n, out = case.counts[case.full], case.nodes, case.out
    bad = case.but(counts=changed(case.counts, n - 1, case.counts[n - 1] + 1))
    passed = [case.but(m=count), case.but(m=count + 1), case.but(m=LARGEST), case.but(full=None)]
    passed += [case.but(full=None, m=0), with_lone_node(case).but(full=n, m=0)]
    short = [case.but(out=out - 1), case.but(out=0)]
    for other in passed:
        yield 12, other
        yield 12, other.but(out=0)
    for other in short:
        yield 8, other
    for other in (bad, bad.but(m=LARGEST), bad.but(full=None), bad.but(m=count + 1, out=0)):
        yield 11, other
        yield 11, other.but(out=out - 1)
    yield 12, case.but(full=0, m=1, out=9)
    yield 12, case.but(full=0, m=1, out=0)
    yield 8, case.but(full=0, m=0, out=0)


def other_full_nodes(case):
    """Results whose full node is another node of the graph: node 0 too, whose list is that node."""
    for node in sorted({0, 1, case.nodes // 2}):
        if not case.counts[node]:
            continue
        other = case.but(full=node, m=case.counts[node] - 1)
        yield fitted(other)
        yield fitted(other.but(m=0)).but(out=case.nodes)


def words_left_over(case):
    n = case.nodes
    garbage = (LARGEST, 3, 0, 7)
    for more in (1, 2, 3, 4):
        yield case.but(node_words=4 * n + more)
        yield case.but(counts=case.counts + garbage[:more])
        yield case.but(edge_words=case.edge_words + garbage[:more])
    for more in (1, 2, 9):
        yield case.but(out=case.out + more)
    yield case.but(
        node_words=4 * n + 9,
        counts=case.counts + garbage,
        edge_words=case.edge_words + garbage[:3],
        out=case.out + 3,
    )
    yield with_lone_node(case)


def with_refusals(case):
    """A sound case and all its changed copies, each with its refusal or None."""
    yield None, case
    for damage in (bad_sizes, bad_full_nodes, bad_edges, bad_counts):
        for other in damage(case):
            yield 11, other
    yield from late_refusals(case)
    for change in (other_full_nodes, words_left_over):
        for other in change(case):
            yield None, other


# Sound graphs that no plot has.


def with_double_edges(case, draws):
    """Some edges stand twice or three times, each with its own turn."""
    pairs = [pair for pair in case.pairs() for _ in range(draws.one_of([1, 1, 2, 3]))]
    return with_edges(case, pairs)


def shuffled(case, draws):
    """The same edges in another order, so the same tilings by other numbers."""
    left, pairs = case.pairs(), []
    while left:
        pairs.append(left.pop(draws.below(len(left))))
    return with_edges(case, pairs)


def with_unreached_nodes(case, draws):
    """Nodes 1 and 2 are new: no edge leads to node 1, and to node 2 none but from node 1.

    Their counts are 0. Edges from them stand among the edges of the other nodes.
    """
    moved = [(p and p + 2, c + 2) for p, c in case.pairs()]
    pairs = [(1, 2)]
    for parent, child in moved:
        if draws.one_in(2):
            pairs.append((draws.one_of([1, 2]), child))
        pairs.append((parent, child))
    counts = counts_of(case.nodes + 2, pairs)
    other = case.but(nodes=case.nodes + 2, node_words=case.node_words + 8, full=case.full + 2)
    return fitted(other.but(edges=len(pairs), counts=counts, edge_words=flat(pairs)))


# Counts at 2^64. Node i of a chain of double edges has the count 2^i: two edges lead to it from the node before.

DOUBLING = [(node, node + 1) for node in range(63) for _ in range(2)]


def doubling_case(parents, count=None, full=64, m=0):
    """A chain of double edges and node 64 with these parents, and with another count than their sum if given."""
    pairs = DOUBLING + [(parent, 64) for parent in parents]
    given = {} if count is None else {64: count}
    counts = counts_of(65, pairs, given)
    return fitted(Case(65, len(pairs), full, 260, counts, flat(pairs), m, 65))


def counts_at_2_64():
    """Sums of 2^64 - 1, which are sound, and sums that pass it, and so another number in a word."""
    down, up = list(range(63, -1, -1)), list(range(64))
    for m in (0, 2**63 - 1, 2**63, 2**64 - 2):
        yield None, doubling_case(down, m=m)
    yield None, doubling_case(up, m=2**64 - 2)
    yield None, doubling_case([63], full=63, m=2**63 - 1)
    yield 12, doubling_case(up, m=LARGEST)
    yield 11, doubling_case(down, 2**64 - 2)
    for parents, count in (
        ([63, 63], 0),
        ([63, 63], LARGEST),
        ([63, 63, 0], 1),
        ([0, 63, 63], 1),
        ([63, 5, 63], 32),
        ([63, 63, 63], 2**63),
        ([63, 63, 63, 63, 2], 4),
        (down + [0], 0),
        ([0] + up, 0),
    ):
        yield 11, doubling_case(parents, count)
    yield 11, doubling_case([63, 63], 0, full=None)
    yield 11, doubling_case([63, 63], 0, full=63)


# Random changes.


def some_word(draws, near):
    """A word near another, small or large."""
    beside = min(near + 1, LARGEST), max(near - 1, 0)
    return draws.one_of([near, *beside, 0, 1, 2, draws.below(9), LARGEST])


def some_change(draws, case):
    """The case with one thing changed at random, at times several together."""
    kind = draws.below(12)
    words, counts = case.edge_words, case.counts
    if kind == 0:
        return case.but(nodes=some_word(draws, case.nodes))
    if kind == 1:
        return case.but(edges=some_word(draws, case.edges))
    if kind == 2:
        return case.but(full=draws.one_of([None, some_word(draws, max(case.nodes - 1, 0))]))
    if kind == 3 and counts:
        place = draws.below(len(counts))
        return case.but(counts=changed(counts, place, some_word(draws, counts[place])))
    if kind == 4 and words:
        place = draws.below(len(words))
        return case.but(edge_words=changed(words, place, some_word(draws, words[place])))
    if kind == 5:
        return case.but(node_words=max(case.node_words + draws.below(12) - 7, 0))
    if kind == 6:
        return case.but(counts=counts[: len(counts) - draws.below(3)])
    if kind == 7:
        return case.but(edge_words=words[: len(words) - draws.below(4)])
    if kind == 8:
        return case.but(m=some_word(draws, case.m))
    if kind == 9:
        return case.but(out=draws.below(case.out + 3))
    if kind == 10:
        pair = draws.below(9), draws.below(9)
        return case.but(edge_words=words + pair, edges=min(case.edges + 1, LARGEST))
    return case.but(counts=counts + (draws.below(3),), node_words=case.node_words + 4)


def some_case(draws, graph):
    """A copy of a graph that is changed by random steps, sound ones and others."""
    if not graph.count:
        return some_change(draws, graph.case().but(out=draws.below(9)))
    case = graph.case(draws.below(graph.count))
    for change in (with_double_edges, shuffled, with_unreached_nodes):
        if draws.one_in(4):
            case = change(case, draws)
    if draws.one_in(8):
        case = draws.one_of(list(with_refusals(case)))[1]
    if draws.one_in(4):
        case = fitted(case.but(m=draws.below(case.m + 2)))
    for _ in range(draws.one_of([0, 0, 1, 1, 1, 2])):
        case = some_change(draws, case)
    return case
