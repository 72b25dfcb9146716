#!/usr/bin/env python3
"""Respells the repository's own definitions and lemmas: words in snake case, where the older kit had dashes or camel case.

usage: python3 tools/respell.py            rewrites crates/ and the names between backticks in docs/ and README.md
       python3 tools/respell.py --report   says what it would turn, and which names fall together; writes nothing

It is run once, at the top of the repository, right after the kit's port.py. Names that Rattle makes (of goals, invariants
and measures), names of std, functions of src/, strings and comments of src/ are left alone.
"""

import collections
import os
import re
import sys

ROOT = "crates"
NAME = r"[^\s(){}\[\];,.\"`@]+"
TOKEN = re.compile(NAME)
HEAD = re.compile(rf"^(\s*)(?:(?:abbrev|unfoldable|pub|record|data|ruleset|let|where)\s+)*({NAME})(?=[\s(]).*?:(?:\s|$)")
# a name that would mean something else in snake case, or that is a fact's, and what it becomes instead
OTHERWISE = {
    "bit-or": "bit_of_or",
    "bit-xor": "bit_of_xor",
    "with-bit": "with_bit_lem",
    "without-bit": "without_bit_lem",
    "answers-outside": "answers_outside_lem",
    "Principal-word": "PrincipalWord",
    "Object-word": "ObjectWord",
}
# variables of lemmas, which no line heads
LOCALS = {"last-cell", "no-neutral", "not-up", "same-unassign", "up-j", "up-n"}


def files(*endings):
    for folder, dirs, names in os.walk(ROOT):
        dirs[:] = sorted(d for d in dirs if d != "out")
        for name in sorted(names):
            if name.endswith(endings):
                yield os.path.join(folder, name)


def read(path):
    with open(path, encoding="utf-8") as f:
        return f.read()


def snake(name):
    """A word in snake case; a fact keeps its capital."""
    if name in OTHERWISE:
        return OTHERWISE[name]
    turned = name.replace("-", "_")
    if re.match(r"[a-z]", turned):
        turned = re.sub(r"(?<=[a-z])([A-Z])(?=[a-z])", lambda m: "_" + m.group(1).lower(), turned)
    return turned


def made(path, line):
    """Whether a line of an answer file heads the answer of a goal that Rattle names."""
    return re.search(r":\s*(?:goal|given)\.", line) is not None or re.search(r":\s*Rattle\.\S*\.Given\.", line) is not None


def own_names():
    own, goals = set(LOCALS), set()
    for path in files(".antt"):
        for line in read(path).split("\n"):
            line = line.split("--")[0] if line.lstrip().startswith("--") else line
            if line.lstrip().startswith("use "):
                continue
            m = HEAD.match(line)
            if m and made(path, line):
                goals.add(m.group(2))
            elif m:
                own.add(m.group(2))
            for alias in re.findall(rf"\bas ({NAME})", line):
                own.add(alias)
        for line in read(path).split("\n"):
            if line.startswith("use "):
                own.update(re.findall(rf"\bas ({NAME})", line))
    for path in files(".rt"):
        for line in read(path).split("\n"):
            if line.lstrip().startswith("ghost use "):
                own.update(re.findall(rf"\bas ({NAME})", line))
    return own - goals, goals


def std_names(text):
    names = set()
    for m in re.finditer(r"(?:ghost )?use Rattle\.(\w+)\.[^;\n{]*\{([^}]*)\}", text):
        if m.group(1) in KIT:
            names.update(w.split(" as ")[0].strip() for w in m.group(2).split(","))
    return names


KIT = {"std", "core"}


def plain(text, ending):
    """The parts of a text, each with whether it may be turned: strings, and in .rt comments, may not."""
    if ending == ".rt":
        split = re.compile(r"(//[^\n]*|b?\"(?:[^\"\\]|\\.)*\"|b?'(?:[^'\\]|\\.)')")
    else:
        split = re.compile(r"(\"(?:[^\"\\]|\\.)*\")")
    for i, part in enumerate(split.split(text)):
        yield part, i % 2 == 0


def turned(text, ending, table, kept):
    def one(m):
        word = m.group(0)
        return table[word] if word in table and word not in kept else word

    return "".join(TOKEN.sub(one, part) if free else part for part, free in plain(text, ending))


def main(report):
    own, goals = own_names()
    table = {n: snake(n) for n in own if snake(n) != n and re.search(r"[A-Za-z]", n)}
    fallen = collections.defaultdict(set)
    for path in files(".rt", ".antt", ".edit"):
        text = read(path)
        ending = os.path.splitext(path)[1]
        kept = std_names(text)
        if f"{os.sep}proofs{os.sep}" in path and path.endswith(("Answers.antt", "Invariants.antt", "Proof.antt")):
            heads = {m.group(2) for l in text.split("\n") for m in [HEAD.match(l)] if m and made(path, l)}
            kept |= heads
        words = {w for part, free in plain(text, ending) if free for w in TOKEN.findall(part)}
        for word in words & set(table):
            if word in kept:
                fallen["kept in this file, a name of std or of a goal: " + word].add(path)
            elif table[word] in words:
                fallen[f"{word} falls together with {table[word]}"].add(path)
        new = turned(text, ending, table, kept)
        if new != text and not report:
            with open(path, "w", encoding="utf-8") as f:
                f.write(new)
    if report:
        for word in sorted(table):
            print(word, "->", table[word], "(also a goal's name)" if word in goals else "")
        for what in sorted(fallen):
            print(what, *sorted(fallen[what])[:6])
    for path in ["README.md"] + sorted(os.path.join("docs", f) for f in os.listdir("docs") if f.endswith(".md")):
        text = read(path)
        new = re.sub(r"`[^`\n]*`", lambda m: turned(m.group(0), ".antt", table, set()), text)
        if new != text and not report:
            with open(path, "w", encoding="utf-8") as f:
                f.write(new)
        elif report and new != text:
            print("would turn", path)


if __name__ == "__main__":
    main(sys.argv[1:] == ["--report"])
