#!/usr/bin/env python3
# The sheet program on the scripts of the recorded answers: sheet.py SHEET [ORACLE] < ANSWERS
# What a sheet should be is worked out here, from the recorded log. The program takes a log of 65,536 bytes: where an answer
# was recorded with one that was too short or too long, that of another case with the same script is taken, or ORACLE's.
import re, subprocess, sys

sys.dont_write_bytecode = True
from answers import clauses, in_order, recorded

LOG = 65536


def sheet_of(answer, log):
    refusal, place, _, steps, written, nodes = answer
    if refusal:
        return f"refused {refusal} at {place}\n"
    lines = in_order(clauses(log))
    assert len(lines) == written
    return f"nodes {nodes} steps {steps} clauses {written}\n" + "".join(" ".join(map(str, line)) + "\n" for line in lines)


def played(oracle, script):
    out = subprocess.run([oracle, "play", str(LOG)], input=script, capture_output=True, check=True).stdout.decode()
    answer = [int(n) for n in re.search(r"answer \[(.*)\]", out).group(1).split(", ")]
    log = bytes.fromhex(re.search(r"^log ?(.*)$", out, re.M).group(1))
    assert len(log) == answer[2]
    return answer, log


program, oracle = sys.argv[1], (sys.argv[2:] or [None])[0]
fitting, others = {}, {}
for script, size, answer, log in recorded(sys.stdin.buffer.read()):
    # a longer log changes nothing but a refusal for want of room
    if size == LOG or (size < LOG and answer[0] != 14):
        fitting[script] = answer, log
    else:
        others[script] = None
others = [script for script in others if script not in fitting]
if oracle:
    fitting.update((script, played(oracle, script)) for script in others)
lines = 0
for script, (answer, log) in fitting.items():
    want = sheet_of(answer, log).encode()
    got = subprocess.run([program], input=script, capture_output=True, check=True).stdout
    if got != want:
        sys.exit(f"sheet: not as expected on {script.hex()}:\n{got.decode()}\nexpected:\n{want.decode()}")
    lines += want.count(b"\n")
print(f"sheet: {len(fitting)} recorded scripts, {lines} lines as worked out from the recorded logs;", end=" ")
print(f"{len(others)} played on the original for want of room" if oracle else f"{len(others)} left out for want of room")
