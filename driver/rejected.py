#!/usr/bin/env python3
# What examples/reject/run prints: rejected.py CONFLICTS < PRINTED
# Every line has the same reads; they settle every conflict, and no fewer do, as trying all sets shows.
import itertools, re, sys

with open(sys.argv[1]) as text:
    conflicts = [tuple(map(int, words)) for words in (line.partition("#")[0].split() for line in text) if words]
printed = sys.stdin.read().splitlines()
answers = {re.fullmatch(r"\S+: (\d+) of (\d+) reads rejected:(.*)", line).groups() for line in printed}
if len(printed) < 2 or len(answers) != 1:
    sys.exit("driver: the laptops do not reject the same reads:\n" + "\n".join(printed))
[(count, reads, rejected)] = answers
count, reads, rejected = int(count), int(reads), [int(word) for word in rejected.split()]


def settles(rejected):
    return all(a in rejected or b in rejected for a, b in conflicts)


least = next(n for n in range(reads + 1) if any(map(settles, itertools.combinations(range(reads), n))))
if not settles(rejected) or not len(rejected) == count == least:
    sys.exit(f"driver: the reads rejected are {rejected}; {least} would settle {conflicts}")
several = sum(map(settles, itertools.combinations(range(reads), least)))
if several < 2:
    sys.exit("driver: only one set of reads can be rejected, so the laptops cannot differ")
print(f"driver: {len(printed)} laptops reject the same {count} of {reads} reads; {several} sets of {count} would settle the conflicts")
