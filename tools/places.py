#!/usr/bin/env python3
"""Lists, for each point of docs/DESIGN-PASS.md, the lines of crates/*/src that may be a place of it, and counts them.

usage: tools/places.py [COMMIT]     the files of that commit; without it, those of the checkout

It goes by text and lists too much rather than too little: which lines are places is said in docs/DESIGN-PASS.md.
"""
import collections
import difflib
import re
import subprocess
import sys


def git(*words):
    return subprocess.run(("git",) + words, check=True, capture_output=True, text=True).stdout


def read(commit):
    """The files of src, by their paths."""
    if commit:
        paths = git("ls-tree", "-r", "--name-only", commit).split()
    else:
        paths = git("ls-files").split()
    for path in paths:
        if re.fullmatch(r"crates/\w+/src/.*\.rt", path):
            yield path, git("show", commit + ":" + path) if commit else open(path, encoding="utf-8").read()


# The lines of points 1, 3, 4, 6 and 7.
LINES = {
    "1, enums": r"^(pub )?enum ",
    "1, numbers for kinds and refusals": r"number: \d|return \d+;|[Rr]efuse\(\d|\b(code|kind|size|direction|held|value|number)( % 2)? [!=]= \d"
    r"|\d <=? (direction|held)|(push|put)\(\w+, \w+, \d\)|sizes::(KIND|TAKEN)\b",
    "1, flags": r"Result<bool>",
    "3, loops": r"^\s*(while|loop|for)\b",
    "4, by hand": r"if [\w.]+ <=? [\w.]+ \{ [\w. -]+ \} else|% 256|/ 256|256 \*|!= b\.|print(ln)?!|^\s+return false;|\] = \w+\[|\] = 0;",
    "6, lengths and places beside": r"\b(count|len|length|n|k|marks|half|used|spare|keys|output_list|outputs): |apart = |: \[\w+; ",
    "7, switches": r"\bif (only_if|negated|plain|closed|long)\b|\bif \w+ == \d \{|: fn\(|dyn |impl Fn|F: Fn",
}


def functions(text):
    """Name, parameters, requires clauses and body of each function."""
    for item in re.finditer(r"^( *)(?:pub )?(?:extern \"C\" )?fn (\w+)(?:<[^(]*>)?\((.*?)\)(.*?)^\1\}", text, re.M | re.S):
        name, parameters, rest = item.group(2), item.group(3), item.group(4)
        head, _, body = rest.partition("\n" + item.group(1) + "{\n")
        facts = re.findall(r"requires (?:\w+ )?\{(.*?)\}\n", head + "\n", re.S)
        yield name, [p.strip() for p in parameters.split(",") if p.strip()], facts, body


def shape(body):
    """The words of a body, with names and numbers blanked."""
    body = re.sub(r"//.*", "", body)
    return [re.sub(r"^[A-Za-z_]\w*$|^\d+$", lambda w: w.group() if w.group() in KEPT else "x", w) for w in re.findall(r"\w+|[^\s\w]", body)]


KEPT = {"if", "else", "return", "for", "in", "while", "loop", "match", "let", "mut"}


def main():
    commit = sys.argv[1] if len(sys.argv) > 1 else ""
    files = dict(read(commit))
    for point, pattern in LINES.items():
        found = [(path, n, line.strip()) for path, text in files.items() for n, line in enumerate(text.splitlines(), 1)
                 if not line.lstrip().startswith("//") and not line.startswith("ghost use") and "ensures" not in line
                 and "requires" not in line and re.search(pattern, line)]
        print(f"== {point}: {len(found)}")
        for path, n, line in found:
            print(f"{path}:{n}: {line}")

    every = [(path.split("/")[1], *f) for path, text in files.items() for f in functions(text)]
    print(f"== functions: {len(every)}")
    twins = []
    for i, (crate, name, _, _, body) in enumerate(every):
        mine = shape(body)
        for other_crate, other, _, _, other_body in every[i + 1:]:
            theirs = shape(other_body)
            if min(len(mine), len(theirs)) >= 16 and difflib.SequenceMatcher(None, mine, theirs, False).ratio() >= 0.9:
                twins.append(f"{crate}::{name}, {other_crate}::{other}")
    print(f"== 2, functions of one shape: {len(twins)}")
    print("\n".join(twins))

    together = collections.defaultdict(list)
    for crate, name, parameters, facts, _ in every:
        for i in range(len(parameters)):
            for j in range(i + 2, len(parameters) + 1):
                together["; ".join(parameters[i:j])].append(f"{crate}::{name}")
        for fact in facts:
            together["requires " + " ".join(fact.split())].append(f"{crate}::{name}")
    often = {words: names for words, names in together.items() if len(names) >= 3}
    often = {words: names for words, names in often.items()
             if not any(words != w and words in w and set(names) <= set(n) for w, n in often.items())}
    print(f"== 5, parameters or facts together in three functions or more: {len(often)}")
    for words, names in sorted(often.items(), key=lambda item: -len(item[1])):
        print(f"{len(names)}: {words}")


main()
