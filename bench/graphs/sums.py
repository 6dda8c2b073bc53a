#!/usr/bin/env python3
"""Usage: bench/graphs/sums.py
Prints, for 0 to 4 nodes, one number for all graphs of so many nodes: an FNV-1a sum of each graph's order or cycle and of the
ancestors of each node. They are found by slow definitions: all lists of the nodes are tried for the least one in which each node
stands after its dependencies, and the cycle and the ancestors are found by the words that define them. The tests of `pl_graph`
(`crates/pl_base_tests/src/tests/graphs.rt`) compare what it answers with these numbers.

A graph's number has a bit for each pair of nodes, the pair (0, 0) first, then (0, 1): the first of the two depends on the second.
To the sum come: 1 and the order, or 0 and the cycle, and then for each node its ancestors; each list as its length and its nodes."""
from itertools import permutations


def mixed(total, number):
    return ((total ^ number) * 0x100000001B3) % 2**64


def with_all(total, nodes):
    for number in [len(nodes), *nodes]:
        total = mixed(total, number)
    return total


def edges_of(n, number):
    pairs = [(a, b) for a in range(n) for b in range(n)]
    return [pair for bit, pair in enumerate(pairs) if number >> bit & 1]


def order(n, edges):
    """The least list in which each node stands after those that it depends on, or None."""
    for nodes in permutations(range(n)):
        if all(nodes.index(b) < nodes.index(a) for a, b in edges):
            return list(nodes)
    return None


def cycle(n, edges):
    """Nodes without remaining dependencies are taken away while there are any. From the least remaining node the least remaining
    dependency is followed until a node repeats. The cycle from there is turned to begin with its least node."""
    left = set(range(n))
    while True:
        free = {node for node in left if not any(a == node and b in left for a, b in edges)}
        if not free:
            break
        left -= free
    walk, node = [], min(left)
    while node not in walk:
        walk.append(node)
        node = min(b for a, b in edges if a == node and b in left)
    ring = walk[walk.index(node):]
    at = ring.index(min(ring))
    return ring[at:] + ring[:at]


def ancestors(edges, node):
    """The dependencies of the node, and of those, ascending."""
    found, todo = set(), [node]
    while todo:
        at = todo.pop()
        for a, b in edges:
            if a == at and b not in found:
                found.add(b)
                todo.append(b)
    return sorted(found)


def total(n):
    found = 0xCBF29CE484222325
    for number in range(2 ** (n * n)):
        edges = edges_of(n, number)
        nodes = order(n, edges)
        found = with_all(mixed(found, 0), cycle(n, edges)) if nodes is None else with_all(mixed(found, 1), nodes)
        for node in range(n):
            found = with_all(found, ancestors(edges, node))
    return found


for n in range(5):
    print(n, hex(total(n)))
