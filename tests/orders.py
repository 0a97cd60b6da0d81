#!/usr/bin/env python3
# Pairs of random scripts with the same leaves, joins and set of requests: orders.py SHEET DRIVER
# The requests come in another order, between other joins, repeated, both as two; sides that show a node to its end have a
# limit here and none there; a close ends one, both or neither. Nodes stand under one join each, or under several. The two
# sheets are equal byte by byte. For a part of the pairs the logs and the clauses for a solver are looked at too: the logs
# differ in order, or the test would show little, and the clauses are the sheet's lines. SEED=N repeats a run, COUNT=N is
# another number of pairs.
import os, random, subprocess, sys, time

sys.dont_write_bytecode = True
from answers import clauses, coded, dimacs

sheet, driver = sys.argv[1:]
seed, count = (int(os.environ.get(name) or default) for name, default in (("SEED", time.time()), ("COUNT", 3000)))
random.seed(seed)
LOOKED_AT = 10  # every tenth pair
LEAF, JOIN, REQUEST, CLOSE = 1, 2, 3, 4


class Node:
    def __init__(self, made, length, below):
        self.made = made  # how many commands make it
        self.length = length
        self.below = below  # the leaves below it, a bit for each


def side(node, length, windows):
    """Node, offset and limit, and the length they show; `windows` is the share of windows."""
    if length > 1 and random.random() < windows:
        offset = random.randrange(length)
        limit = random.randint(0, length - offset)
        return [node, offset, limit], limit or length - offset
    return [node, 0, 0], length


def written(command, nodes):
    """A command in other words: a limit that leaves out nothing for no limit, or none for such a limit."""
    if command[0] != JOIN:
        return command
    sides = [command[1:4], command[4:]]
    for side in sides:
        rest = nodes[side[0]].length - side[1]
        if side[2] in (0, rest):
            side[2] = random.choice([0, 0, rest])
    return [JOIN] + sides[0] + sides[1]


def apart(nodes, taken):
    """Two nodes with no leaf below both, half of the time one under a join; nothing where the first has no other."""
    first = random.choice(taken) if taken and random.random() < 0.5 else random.randrange(len(nodes))
    others = [n for n, node in enumerate(nodes) if not node.below & nodes[first].below]
    return others and random.sample([first, random.choice(others)], 2)


def counters():
    """A head, leaf and join commands, the nodes, and whether any of them stands under several joins."""
    most = random.choice([4, 6, 8, 10, 12]) if random.random() < 0.97 else random.randint(32, 44)
    windows = random.choice([0, 0.3, 0.6])
    variables = random.choice([most, most + 40, 5000, 1048600, 100000000])
    unused = random.sample(range(variables), most)
    literals, commands, nodes, free, taken = [], [], [], [], []

    def join(pair):
        left, right = (side(node, nodes[node].length, windows) for node in pair)
        commands.append([JOIN] + left[0] + right[0])
        below = nodes[pair[0]].below | nodes[pair[1]].below
        nodes.append(Node(len(commands), left[1] + right[1], below))
        taken.extend(pair)

    shared = random.random() < 0.6
    while unused or len(free) > 1:
        if shared and len(free) > 2 and random.random() < 0.1:
            break
        if len(free) < 2 or (unused and random.random() < 0.6):
            if literals and random.random() < 0.05:
                commands.append([LEAF, random.choice(literals)])  # its old node
                continue
            commands.append([LEAF, 2 * unused.pop() + random.randrange(2)])
            nodes.append(Node(len(commands), 1, 1 << len(literals)))
            literals.append(commands[-1][1])
        else:
            join([free.pop(random.randrange(len(free))) for _ in range(2)])
        free.append(len(nodes) - 1)
    for _ in range(random.randint(1, most) if shared else 0):
        pair = apart(nodes, taken)
        if pair:
            join(pair)
    return [variables, random.choice([1, 100, 16000, 2097000, 100000000])], commands, nodes, len(set(taken)) < len(taken)


def requests(nodes):
    """Sets of directions by node and value; mostly of the nodes made last, which need most below."""
    wanted = {}
    for _ in range(random.randint(2, 12 if len(nodes) < 30 else 80)):  # the many may not fit in the log
        node = max(random.randrange(len(nodes)) for _ in range(random.randint(1, 3)))
        wanted.setdefault((node, random.randint(1, nodes[node].length)), set()).update(random.choice([{1}, {2}, {1, 2}]))
    return wanted


def script(head, commands, nodes, wanted):
    named = []
    for (node, value), directions in wanted.items():
        ways = [[3], [1, 2], [3, 1], [2, 3]] if len(directions) == 2 else [list(directions)]
        named += [[REQUEST, node, value, way] for way in random.choice(ways) for _ in range(random.choice([1, 1, 2]))]
    random.shuffle(named)
    late = random.random() < 0.3  # all after the last join
    placed = [[] for _ in range(len(commands) + 1)]
    for request in named:
        placed[len(commands) if late else random.randint(nodes[request[1]].made, len(commands))].append(request)
    played = placed[0] + [c for command, after in zip(commands, placed[1:]) for c in [written(command, nodes), *after]]
    return b"".join(map(coded, sum(played, head))) + (bytes([CLOSE]) if random.random() < 0.5 else b"")


def run(data, *arguments):
    return subprocess.run(arguments, input=data, stdout=subprocess.PIPE, check=True).stdout


def stop(why, *scripts):
    sys.exit(f"orders: seed {seed}: {why}\n" + "\n".join(script.hex() for script in scripts))


lines = full = several = looked_at = other_logs = 0
for place in range(count):
    head, commands, nodes, shared = counters()
    wanted = requests(nodes)
    pair = [script(head, commands, nodes, wanted) for _ in range(2)]
    sheets = [run(script, sheet) for script in pair]
    refused = [printed for printed in sheets if printed.startswith(b"refused")]
    if any(not printed.startswith(b"refused 14 ") for printed in refused):
        stop("refused, and not for want of room", *pair)
    if refused:
        full += 1
        continue
    if sheets[0] != sheets[1]:
        stop("the sheets of two orders differ", *pair)
    several += shared
    lines += sheets[0].count(b"\n") - 1
    if place % LOOKED_AT:
        continue
    looked_at += 1
    logs = [list(clauses(bytes.fromhex(run(script, driver, "play", "--hex", "-").decode()))) for script in pair]
    other_logs += logs[0] != logs[1]
    files = [run(script, driver, "cnf", "-") for script in pair]
    if files[0] != files[1]:
        stop("the clauses for a solver differ", *pair)
    printed = [[int(l) for l in line.split()] for line in sheets[0].splitlines()[1:]]
    if files[0].decode().splitlines()[2:] != [dimacs(literals) for literals in printed]:
        stop("the clauses for a solver are not the sheet's lines", pair[0])
if looked_at > 99 and not looked_at // 2 < other_logs:  # by chance few of few may differ
    stop(f"of {looked_at} pairs only {other_logs} have their clauses in another order in the log")
print(f"sheet: {count - full} pairs of scripts in two orders, seed {seed}: sheets equal byte by byte, {lines} lines;", end=" ")
print(f"{several} with nodes under several joins; left out for want of room: {full};", end=" ")
print(f"of {looked_at} looked at, {other_logs} have logs in other orders")
