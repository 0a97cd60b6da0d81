#!/usr/bin/env python3
# Scripts whose sheets have much to sort: worst_sheets.py FOLDER writes each there as bytes, under its name.
# A log of 65,536 bytes has room for some 2,150 clauses of counters whose nodes stand under one join each, and for some 2,540 where
# they stand under several: more were not found. A request turns to what it needs below first, so the log of one counter goes up
# from level to level; going down, it can only do so within a level, or over several counters.
import os, sys


class Script:
    def __init__(self, literals):
        self.numbers = [len(literals), 1]  # the head: literals of the variables below, steps from 1
        self.lengths = []
        for l in literals:
            self.numbers += [1, l]
            self.lengths.append(1)

    def join(self, left, right):
        self.numbers += [2, left, 0, 0, right, 0, 0]
        self.lengths.append(self.lengths[left] + self.lengths[right])
        return len(self.lengths) - 1

    def balanced(self, nodes):
        if len(nodes) == 1:
            return nodes[0]
        half = len(nodes) // 2
        left = self.balanced(nodes[:half])
        return self.join(left, self.balanced(nodes[half:]))

    def levels(self, nodes):
        """A counter whose joins are made level by level, so that the outputs of a level are neighbours."""
        made = []
        while len(nodes) > 1:
            made.append([self.join(*nodes[i : i + 2]) for i in range(0, len(nodes) - 1, 2)])
            nodes = made[-1] + list(nodes[2 * len(made[-1]) :])
        return made

    def request(self, node, values, direction=3):
        for value in values:
            self.numbers += [3, node, value, direction]

    def bytes(self):
        out = bytearray()
        for number in self.numbers:
            while number > 127:
                out.append(number & 127 | 128)
                number >>= 7
            out.append(number)
        return bytes(out)


def ascending(n):
    return Script(range(0, 2 * n, 2))


def most(values):
    """The most clauses where each node stands under one join."""
    script = ascending(46)
    script.request(script.balanced(range(46)), values)
    return script


def in_order():
    """Logged in the order of the sheet, but for the clauses of one output."""
    script = ascending(41)
    script.balanced(range(41))
    for node in range(41, len(script.lengths)):
        script.request(node, range(1, script.lengths[node] + 1))
    return script


def two_counters():
    """The most pairs of clauses logged the other way round: the counter made last first, and down in each level."""
    script = ascending(60)
    for levels in reversed([script.levels(range(30)), script.levels(range(30, 60))]):
        for level in levels:
            for node in reversed(level):
                out = 6 if level is levels[-1] else 0  # outputs left out at both ends, for want of room
                script.request(node, range(script.lengths[node] - out, out, -1))
    return script


def shared():
    """The most clauses: a counter of two under many joins with a third leaf, each logged before those made before it."""
    script = ascending(3)
    pair = script.join(0, 1)
    for node in reversed([script.join(pair, 2) for _ in range(253)]):
        script.request(node, [3, 2, 1])
    return script


def one_output():
    """One output with the most clauses, and what it needs."""
    script = ascending(64)
    script.request(script.balanced(range(64)), [32], 1)
    return script


def chain():
    """Each join has the next leaf on its left, the literals going down."""
    script = Script(range(56, -1, -2))
    node = 0
    for leaf in range(1, 29):
        node = script.join(leaf, node)
    script.request(node, range(22, 6, -1))
    return script


SCRIPTS = {
    "most": most(range(12, 31)),
    "most-descending": most(range(30, 11, -1)),
    "in-order": in_order(),
    "two-counters": two_counters(),
    "shared": shared(),
    "one-output": one_output(),
    "chain": chain(),
}

if __name__ == "__main__":
    for name, script in SCRIPTS.items():
        with open(os.path.join(sys.argv[1], name), "wb") as file:
            file.write(script.bytes())
