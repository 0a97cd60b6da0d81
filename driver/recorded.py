#!/usr/bin/env python3
# The driver on the scripts of the recorded answers: recorded.py DRIVER < ANSWERS
#   play   the six numbers are those recorded, and the words read back are the log's bytes
#   --hex  the log's bytes
#   disassemble, assemble   the same script; one that does not read gives the place of the byte that does not
#   cnf    the clauses of the recorded log, in the order of the sheet's lines, and no more variables than occur
import os, re, subprocess, sys

sys.dont_write_bytecode = True
sys.path.append(os.path.join(os.path.dirname(os.path.abspath(__file__)), "../tests"))
from answers import Fault, clauses, coded, dimacs, in_order, number, recorded

driver = sys.argv[1]
NUMBERS_AFTER = {1: 1, 2: 6, 3: 3, 4: 0}


def place_of_fault(script):
    try:
        _, at = number(script, 0)
        _, at = number(script, at)
        while at < len(script):
            code, after = number(script, at)
            if code not in NUMBERS_AFTER:
                return at + 1
            at = after
            for _ in range(NUMBERS_AFTER[code]):
                _, at = number(script, at)
    except Fault as fault:
        return fault.args[0]


def literal(word):
    return 2 * int(word.lstrip("¬x")) + word.startswith("¬")


def bytes_of_words(lines, step):
    """The log that the words of `play` stand for, its steps counted on from the first."""
    out = []
    for line in lines:
        label, kind, rest = re.fullmatch(r"  (#\d+)? +(\w+) (.*)", line).groups()
        if kind in ("sum", "derivation"):
            assert label == f"#{step}", line
            step += 1
        else:
            assert label is None, line
        if kind == "sum":
            terms, bound, witness = re.fullmatch(r"(.*) >= (\d+)(?:, witness (\S+))?", rest).groups()
            terms = [term.split(" ") for term in terms.split(" + ")]
            out += [1, literal(witness) + 1 if witness else 0, len(terms)]
            out += [n for c, l in terms for n in (int(c), literal(l))] + [int(bound)]
        elif kind == "derivation":
            tokens = rest.split(" ")
            out += [2, len(tokens)]
            for token in tokens:
                if token[0] == "#":
                    out += [0, int(token[1:])]
                elif token[0] == "/":
                    out += [3, int(token[1:])]
                else:
                    out += {"+": [2], "saturate": [4]}.get(token) or [1, literal(token)]
        elif kind == "clause":
            literals, step_of = re.fullmatch(r"(.*) by #(\d+)", rest).groups()
            out += [3, int(step_of), len(literals.split(" "))] + [literal(l) for l in literals.split(" ")]
        else:
            assert kind == "delete", line
            steps = [] if rest == "nothing" else [int(s[1:]) for s in rest.split(" ")]
            out += [4, len(steps)] + steps
    return b"".join(map(coded, out))


def run(status, data, *arguments):
    done = subprocess.run([driver, *arguments], input=data, capture_output=True)
    assert done.returncode == status, (arguments, done.returncode, done.stderr)
    return done.stdout, done.stderr.decode()


def check(script, log_size, answer, log):
    refused = answer[0] != 0
    out, err = run(int(refused), script, "play", "-", str(log_size))
    assert err == ""
    lines = out.decode().splitlines()
    numbers = [int(re.match(r"[a-z ]+: (\d+)", line).group(1)) for line in lines[:6]]
    assert numbers == answer, (numbers, answer)
    lines = lines[6:]
    if refused:
        assert lines.pop(0).startswith(f"Question {answer[0]} refuses ")
    step = number(script, number(script, 0)[1])[0] if lines else 0
    assert bytes_of_words(lines, step) == log

    out, err = run(int(refused), script, "play", "--hex", "-", str(log_size))
    assert bytes.fromhex(out.decode()) == log and (err != "") == refused

    place = place_of_fault(script)
    if place is None:
        text, _ = run(0, script, "disassemble", "-")
        assert run(0, text, "assemble", "-")[0] == script
    else:
        out, err = run(1, script, "disassemble", "-")
        assert out == b"" and f", byte {place} (the first is 1): " in err, (place, err)

    if not refused:
        comment, header, *lines = run(0, script, "cnf", "-")[0].decode().splitlines()
        wanted = in_order(clauses(log))
        variables = max((l // 2 + 1 for literals in wanted for l in literals), default=0)
        assert comment.startswith("c ") and header == f"p cnf {variables} {answer[4]}"
        assert lines == [dimacs(literals) for literals in wanted]
    return place is None


whole = count = 0
for script, log_size, answer, log in recorded(sys.stdin.buffer.read()):
    count += 1
    try:
        whole += check(script, log_size, answer, log)
    except AssertionError as fault:
        sys.exit(f"driver: recorded answer {count} is not met: {fault}; script {script.hex()}, log of {log_size} bytes")
print(f"driver: {count} recorded answers shown and read back; {whole} scripts to text and back,", end=" ")
print(f"{count - whole} that do not read")
