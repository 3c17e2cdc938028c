#!/usr/bin/env python3
"""Brings this repository's own names to the spelling of today's Rattle, once, right after port.py.

usage: python3 tools/respell.py     at the top of the repository

Definitions, lemmas, fields and local names that specs/ and proofs/ write in camel case or with a dash become snake case.
Types, modules and facts keep their capitals; names that std or the logic gave are left. A lemma that would have its
definition's name gets `_lem`. The clauses in src/, the must-fail edits and the names that docs/ quotes follow.
"""
import collections
import os
import re

NAME = re.compile(r"[A-Za-zα-ωΑ-Ωℕℤ_][A-Za-z0-9_'α-ω₀-₉ℕℤ≡≤<≢-]*")
USE = re.compile(r"^(?:pub )?use\s+(\S+?)\.\{([^}]*)\}", re.M)
QUOTED = re.compile(r"`[^`\n]*`")

# Lemmas that port.py or this script would give the name of the definition that they speak of.
LEMMAS = {
    "crates/record_image/specs/Laws/DecodedHead.antt": ["open_of", "register_of"],
    "crates/numbers/specs/Laws/ShortestForm.antt": ["read_next"],
}
FLAGS = "flags-of"  # a lemma beside the definition `flags_of`


def paths(root, endings, skip=("out", "target", ".git")):
    for folder, folders, files in os.walk(root):
        folders[:] = sorted(d for d in folders if d not in skip)
        for f in sorted(files):
            if f.endswith(endings):
                yield os.path.join(folder, f)


def read(path):
    with open(path, encoding="utf-8") as f:
        return f.read()


def write(path, text):
    with open(path, "w", encoding="utf-8") as f:
        f.write(text)


def code_of(line):
    """The line in two parts: what is read, and its comment."""
    m = re.search(r"(?:^|\s)--(?=\s|$)", line)
    return (line, "") if not m else (line[: m.start()], line[m.start():])


def snake(name):
    if re.fullmatch(r"x[0-9A-F]+", name):
        return name.lower()
    return re.sub(r"([a-z0-9])([A-Z])", r"\1_\2", name).replace("-", "_").lower()


def odd(name):
    return "-" in name or (name[0].islower() and re.search(r"[A-Z]", name))


def names_of(crates):
    """The names of this repository that are to be respelled, with their new spelling."""
    own = {os.path.basename(c) for c in crates}
    given, seen = set(), collections.defaultdict(set)
    for path in paths("crates", ".antt"):
        text = read(path)
        for module, names in USE.findall(text):
            parts = module.split(".")
            if not (parts[0] == "Rattle" and len(parts) > 1 and parts[1] in own):
                given |= {n.strip().split(" as ")[0] for n in names.split(",")}
        for line in text.split("\n"):
            for name in NAME.findall(code_of(line)[0]):
                seen[name].add(path)
    turned = {}
    for name in seen:
        stated = any(os.path.basename(p) != "Proof.antt" for p in seen[name])
        if odd(name) and name not in given and stated:
            turned[name] = snake(name)
    alike = collections.defaultdict(list)
    for name, new in turned.items():
        alike[new].append(name)
    for new, olds in alike.items():
        if len(olds) > 1:
            for name in olds:
                if "-" in name:
                    turned[name] = new + "_lem"
    turned[FLAGS] = "flags_of_lem"
    return turned


def turn(text, turned):
    return NAME.sub(lambda m: turned.get(m.group(0), m.group(0)), text)


def turn_quoted(text, turned):
    return QUOTED.sub(lambda m: turn(m.group(0), turned), text)


def turn_antt(text, turned):
    lines = []
    for line in text.split("\n"):
        code, comment = code_of(line)
        lines.append(turn(code, turned) + turn_quoted(comment, turned))
    return "\n".join(lines)


def turn_source(text, turned):
    """Of a source file the `ghost use` items and the clauses alone: the code keeps its names."""
    lines, depth = [], 0
    for line in text.split("\n"):
        code = re.sub(r"//.*", "", line)
        starts = depth == 0 and re.match(r"\s*(ghost use|requires|ensures|ghost|invariant|decreases)\b", code)
        if starts or depth > 0:
            line = turn(line, turned)
            depth += code.count("{") - code.count("}")
        else:
            line = turn_quoted(line, turned)
        lines.append(line)
    return "\n".join(lines)


def turn_edit(text, turned):
    lines = []
    for line in text.split("\n"):
        lines.append(turn(line, turned) if re.match(r"(old|new):", line) else turn_quoted(line, turned))
    return "\n".join(lines)


def main():
    crates = [os.path.join("crates", d) for d in sorted(os.listdir("crates"))]
    for path, lemmas in LEMMAS.items():
        one = {n: n + "_lem" for n in lemmas}
        write(path, turn_antt(read(path), one))
    turned = names_of(crates)
    for path in paths("crates", ".antt"):
        write(path, turn_antt(read(path), turned))
    for path in paths("crates", ".rt"):
        write(path, turn_source(read(path), turned))
    for name in respelled_by_port():
        turned.setdefault(name, snake(name))
    for path in paths("crates", ".edit"):
        write(path, turn_edit(read(path), turned))
    for path in [p for p in paths("docs", ".md")] + ["README.md"]:
        write(path, turn_quoted(read(path), turned))


def respelled_by_port():
    """The names that port.py respelled itself, which edits and pages still write in the old way."""
    new = {n for p in paths("crates", ".antt") for n in NAME.findall(read(p))}
    old = set()
    for path in list(paths("crates", ".edit")) + list(paths("docs", ".md")) + ["README.md"]:
        text = read(path)
        parts = re.findall(r"^(?:old|new):.*$", text, re.M) if path.endswith(".edit") else []
        for part in parts + QUOTED.findall(text):
            old |= set(NAME.findall(part))
    return {n for n in old if odd(n) and n not in new and snake(n) in new}


if __name__ == "__main__":
    main()
