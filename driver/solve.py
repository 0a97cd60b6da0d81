#!/usr/bin/env python3
# A SAT solver on the clauses that the driver writes: solve.py DRIVER SOLVER
# Counters over 2 to 6 leaves, joins of windows, and counters under several joins. For every truth of the leaves, given as unit
# clauses: the clauses can be met, and they cannot be with any output of a join other than the count says, the last join or, of
# those that share a counter, each. So each output is forced, and rightly.
import itertools, os, subprocess, sys

driver, solver = sys.argv[1:]
calls = 0


class Script:
    """Commands of a script, with the outputs of each node and what they come to by count."""

    def __init__(self, leaves):
        self.leaves = leaves  # literals, as in DIMACS
        self.next = max(map(abs, leaves)) + 1
        self.lines = [f"head {self.next - 1} 1"]
        self.nodes = []  # outputs, and from truths of leaves to truths of outputs
        for place, l in enumerate(leaves):
            self.lines.append(f"leaf {2 * (abs(l) - 1) + (l < 0)}")
            self.nodes.append(([l], lambda truths, place=place: [truths[place]]))

    def join(self, left, right):
        """Sides are node, offset, limit. The node counts what the sides show, whatever stands below."""

        def shown(side, outputs):
            node, offset, limit = side
            return outputs[offset : offset + limit if limit else None]

        length = sum(len(shown(side, self.nodes[side[0]][0])) for side in (left, right))
        outputs = list(range(self.next, self.next + length))
        self.next += length

        def counted(truths):
            count = sum(sum(shown(side, self.nodes[side[0]][1](truths))) for side in (left, right))
            return [value <= count for value in range(1, length + 1)]

        self.lines.append("join " + " ".join(str(n) for side in (left, right) for n in side))
        self.nodes.append((outputs, counted))
        return len(self.nodes) - 1

    def request_all(self, node, direction):
        for value in range(1, len(self.nodes[node][0]) + 1):
            self.lines.append(f"request {node} {value} {direction}")

    def clauses(self):
        text = "\n".join(self.lines) + "\n"
        done = subprocess.run([driver, "cnf", "--text", "-"], input=text.encode(), capture_output=True)
        assert done.returncode == 0, (text, done.stderr)
        return [[int(w) for w in line.split()[:-1]] for line in done.stdout.decode().splitlines() if line[0] not in "cp"]


def can_be_met(clauses):
    global calls
    calls += 1
    most = max((abs(l) for clause in clauses for l in clause), default=0)
    text = f"p cnf {most} {len(clauses)}\n" + "".join(" ".join(map(str, clause)) + " 0\n" for clause in clauses)
    done = subprocess.run([solver], input=text.encode(), capture_output=True)
    assert done.returncode in (10, 20), (solver, done.returncode, done.stderr)
    return done.returncode == 10


def is_right(script, node, clauses, direction="both"):
    """Whether every output is forced as the count says; by if the true ones alone, by only-if the false ones."""
    outputs, counted = script.nodes[node]
    for truths in itertools.product([False, True], repeat=len(script.leaves)):
        given = clauses + [[l if true else -l] for l, true in zip(script.leaves, truths)]
        wanted = [(o, true) for o, true in zip(outputs, counted(truths))]
        forced = [o if true else -o for o, true in wanted if direction in ("both", "if" if true else "only-if")]
        free = [-o if true else o for o, true in wanted if direction not in ("both", "if" if true else "only-if")]
        # what is not forced may all be the other way, at once
        if not can_be_met(given + [[l] for l in free]) or (forced and can_be_met(given + [[-l for l in forced]])):
            return False
    return True


def hold(name, script, *nodes, direction="both"):
    for node in nodes:
        script.request_all(node, direction)
    clauses = script.clauses()
    if not all(is_right(script, node, clauses, direction) for node in nodes):
        sys.exit(f"driver: {name}: the clauses do not count, as {os.path.basename(solver)} says:\n" + "\n".join(script.lines))


def plain(node):
    return (node, 0, 0)


def chain(script, nodes):
    node = nodes[0]
    for leaf in nodes[1:]:
        node = script.join(plain(node), plain(leaf))
    return node


def balanced(script, nodes):
    if len(nodes) == 1:
        return nodes[0]
    half = len(nodes) // 2
    return script.join(plain(balanced(script, nodes[:half])), plain(balanced(script, nodes[half:])))


LEAVES = [1, -2, 3, 4, -5, 6]

for shape in (balanced, chain):
    for n in range(2, 7):
        script = Script(LEAVES[:n])
        hold(f"{shape.__name__} counter of {n}", script, shape(script, range(n)))
    for direction in ("if", "only-if"):
        script = Script(LEAVES[:4])
        hold(f"{shape.__name__} counter of 4, {direction}", script, shape(script, range(4)), direction=direction)

# joins of windows over a counter of 3 and one of 3 or 2, and a window over a join of windows; limit 3 hides nothing
WINDOWS = [(1, 0), (2, 0), (0, 1), (0, 2), (1, 1), (0, 3)]
for left in WINDOWS:
    script = Script(LEAVES[:5])
    a, b = chain(script, [0, 1, 2]), balanced(script, [3, 4])
    hold(f"window {left} beside a plain side", script, script.join((a, *left), plain(b)))
for left, right in zip(WINDOWS, WINDOWS[2:] + WINDOWS[:2]):
    script = Script(LEAVES)
    a, b = chain(script, [0, 1, 2]), balanced(script, [3, 4, 5])
    hold(f"windows {left} and {right}", script, script.join((a, *left), (b, *right)))
script = Script(LEAVES)
a, b = balanced(script, [0, 1, 2]), balanced(script, [3, 4])
c = script.join((a, 1, 0), (b, 0, 1))
hold("a window over windows", script, script.join((c, 0, 2), plain(5)))

# a counter of 3 under two joins, by two windows, by one with its limit set and not, or whole; and a join over one of the two
for left, right in [*zip(WINDOWS, WINDOWS[1:] + WINDOWS[:1]), ((1, 0), (1, 2)), ((0, 0), (0, 3))]:
    script = Script(LEAVES[:5])
    leg = chain(script, [0, 1, 2])
    team, club = script.join((leg, *left), plain(3)), script.join(plain(4), (leg, *right))
    hold(f"one counter by {left} and by {right}", script, team, club)
script = Script(LEAVES)
leg = balanced(script, [0, 1, 2])
team, club = script.join(plain(leg), plain(3)), script.join((leg, 1, 0), plain(4))
hold("one counter below one join and below another", script, team, script.join(plain(club), plain(5)), club)
script = Script(LEAVES[:4])
pairs = [script.join(plain(0), plain(leaf)) for leaf in (1, 2, 3)]
hold("one leaf under three joins", script, *pairs)
for direction in ("if", "only-if"):
    script = Script(LEAVES[:4])
    left, right = script.join(plain(0), plain(1)), script.join(plain(2), plain(3))
    both = [script.join((left, 0, limit), plain(right)) for limit in (0, 1)]
    hold(f"two joins over the same two, {direction}", script, *both, direction=direction)

# the check notices: with any one clause left out, an output is not forced
for shape in (balanced, chain):
    script = Script(LEAVES[:3])
    node = shape(script, range(3))
    script.request_all(node, "both")
    clauses = script.clauses()
    for place in range(len(clauses)):
        if is_right(script, node, clauses[:place] + clauses[place + 1 :]):
            sys.exit(f"driver: {shape.__name__} counter of 3: clause {place + 1} may be left out, and nothing is noticed")
print(f"driver: {os.path.basename(solver)} finds that the clauses count; {calls} calls")
