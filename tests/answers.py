# The file of recorded answers (crates/replay/stdin), the numbers of scripts and logs, and the clauses of a log.

GROUPS = 4  # of seven bits, at most


class Fault(Exception):
    """No number reads; the place of the byte, from 1."""


def number(data, at):
    value = 0
    for group in range(GROUPS):
        if at + group == len(data):
            raise Fault(at + group + 1)
        byte = data[at + group]
        if (group and byte == 0) or (group == GROUPS - 1 and byte > 127):
            raise Fault(at + group + 1)
        value += (byte & 127) << 7 * group
        if byte < 128:
            return value, at + group + 1


def coded(value):
    """The bytes of a number."""
    out = bytearray()
    while value > 127:
        out.append(value & 127 | 128)
        value >>= 7
    return bytes(out + bytes([value]))


def recorded(data):
    """The cases: script, length of the log lent, the six numbers, the log up to its length."""
    count, at = number(data, 0)
    for _ in range(count):
        size, at = number(data, at)
        length, at = number(data, at)
        script, at = data[at : at + length], at + length
        answer = []
        for _ in range(6):
            value, at = number(data, at)
            answer.append(value)
        log, at = data[at : at + answer[2]], at + answer[2]
        yield script, size, answer, log
    assert at == len(data)


def clauses(log):
    """The literals of each clause, in log order."""
    at = 0

    def next_number():
        nonlocal at
        value, at = number(log, at)
        return value

    while at < len(log):
        kind = next_number()
        if kind in (1, 3):
            next_number()
        count = next_number()
        if kind == 3:
            yield [next_number() for _ in range(count)]
        elif kind == 2:
            for _ in range(count):
                if next_number() in (0, 1, 3):
                    next_number()
        else:
            for _ in range(2 * count + 1 if kind == 1 else count):
                next_number()


def dimacs(literals):
    """A clause as a line of DIMACS CNF, where variable x is x + 1."""
    return " ".join([f"{'-' if l % 2 else ''}{l // 2 + 1}" for l in literals] + ["0"])


def in_order(clauses):
    """By the variable of the last literal, then by the literals; Python compares lists so, place by place."""
    return sorted(clauses, key=lambda literals: (literals[-1] // 2, literals))
