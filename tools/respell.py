#!/usr/bin/env python3
"""Respells the definitions and lemmas of this repository: words in snake case. Run once, at the top, after the kit's port.py.

A name of specs/ and of proofs/*.antt whose words are joined by capitals or dashes gets underscores, as `sideLen` and `key-dec`
become `side_len` and `key_dec`. A dash stays where it joins a lemma to the name it speaks of: after a type (`Side-asks`), after a
definition that had capitals (`leafCount-join`), and after a definition of the library with an underscore (`flat_map-append`).
Comments keep their words: of them only names with capitals, and names in backticks, are respelled. Functions of src/, strings
and the names of files stay. With --check it writes nothing and lists what would fall together.
"""

import glob
import re
import sys

TOKEN = re.compile(r"[A-Za-zα-ωΑ-Ω_][^\s(){}.,;@\"«»`]*")
DECLARED = re.compile(
    r"^\s*(?:pub |abbrev |unfoldable |ruleset |data |record |infix[lr]? \d+ )*"
    r"([^\s(){};,.:@\"]+(?: [^\s(){};,.:@\"]+)*) : "
)
# Definitions of the library whose name has an underscore.
LIBRARY = {"flat_map", "get_or"}
# Names that would fall together: the lemma takes `_lem`, any other the name beside it.
LEMMAS = """
at-least-zero clause-numbers clause-records clauses-in few-nodes from_first head-fits if-clause only-if-clause is-over join-of
join-outputs key-of last-from last-literal last-variable log-clauses neg-part pos-part nodes-of plain-or side-fits side-keys
side-of side-outputs some_bytes step_after step_sum stored-steps window-if
""".split()
APART = {n: n.replace("-", "_") + "_lem" for n in LEMMAS} | {
    "answer-of": "answer_bytes_of",
    "goesOn": "going_on",
    "leaf-bytes": "bytes_of_leaf",
    "left-at": "at_left",
    "right-at": "at_right",
    "looked-up": "looks_up",
}
APART_IN = {"crates/cert/": {"real-if": "real_if_sum", "real-only-if": "real_only_if_sum"}}


def antt(pattern):
    return sorted(glob.glob(pattern, recursive=True))


def declared():
    names = set()
    for f in antt("crates/*/specs/*.antt") + antt("crates/*/proofs/*.antt"):
        for line in open(f, encoding="utf-8"):
            if line.lstrip().startswith("--"):
                continue
            found = DECLARED.match(line)
            if found:
                names.update(n for n in found.group(1).split() if TOKEN.fullmatch(n))
    return names


def snake(word):
    return re.sub(r"(?<=[a-z0-9])([A-Z])", lambda m: "_" + m.group(1).lower(), word)


def respelled(name, names):
    if name in APART:
        return APART[name]
    parts = name.split("-")
    head = parts[0]
    if head[:1].isupper():
        return head + "".join("-" + snake("_".join(parts[1:])) for _ in parts[1:2])
    joined = len(parts) > 1 and (head in LIBRARY or head in names and head != snake(head))
    if joined:
        return snake(head) + "-" + snake("_".join(parts[1:]))
    return snake("_".join(parts))


def spelling():
    names = declared()
    table = {n: respelled(n, names) for n in names}
    return names, {n: m for n, m in table.items() if n != m}


def code_and_comment(line, mark):
    at = line.find(mark)
    if at < 0:
        return line, ""
    return line[:at], line[at:]


def turned(text, table, mark):
    imported = set(re.findall(r"[^\s{},;]+", " ".join(re.findall(r"(?m)^use .*\{(.*)\}", text))))
    imported.update(n for line in text.split("\n") for n in DECLARED.findall(line))

    def in_code(m):
        word = m.group(0)
        if word not in table:
            return word
        # A lemma with the spelling of a function of src/ is one only where it is imported or declared, and no step's name.
        if "-" not in word and word.islower() and (mark == "//" or word not in imported or m.string[m.start() - 1 : m.start()] == "."):
            return word
        return table[word]

    def in_comment(m):
        word = m.group(0)
        return table[word] if word in table and "-" not in word else word

    lines = []
    for line in text.split("\n"):
        code, comment = code_and_comment(line, mark)
        code = TOKEN.sub(in_code, code)
        comment = re.sub(r"`[^`]*`", lambda m: TOKEN.sub(in_code, m.group(0)), comment)
        comment = TOKEN.sub(in_comment, comment)
        lines.append(code + comment)
    return "\n".join(lines)


def main():
    names, table = spelling()
    files = antt("crates/*/specs/**/*.antt") + antt("crates/*/proofs/**/*.antt") + antt("crates/*/src/*.rt")
    if "--check" in sys.argv:
        tokens = {}
        for f in files:
            for line in open(f, encoding="utf-8"):
                code, _ = code_and_comment(line.rstrip("\n"), "//" if f.endswith(".rt") else "--")
                for t in TOKEN.findall(code):
                    tokens.setdefault(t, set()).add(f)
        targets = {}
        for n, m in table.items():
            targets.setdefault(m, []).append(n)
        for m, ns in sorted(targets.items()):
            if len(ns) > 1:
                print("together:", m, ns)
            if m in names:
                print("declared:", m, ns)
            elif m in tokens:
                where = sorted(tokens[m])
                print("stands:", m, ns, len(where), " ".join(where[:6]))
        print(len(names), "names,", len(table), "respelled")
        return
    for f in files:
        text = open(f, encoding="utf-8").read()
        here = table | next((t for folder, t in APART_IN.items() if f.startswith(folder)), {})
        new = turned(text, here, "//" if f.endswith(".rt") else "--")
        if new != text:
            open(f, "w", encoding="utf-8").write(new)
    print(len(table), "names respelled")


main()
