#!/usr/bin/env python3
"""Brings this repository's own definitions and lemmas to the spelling of today's Rattle: values in snake case.

usage: tools/respell.py     at the top of the repository, once, behind port.py

Each name that specs/ or proofs/ declares or binds, and that is spelled with a dash or in camel case, becomes snake case. Where a definition
in camel case and a fact with dashes would become one name, the fact's gets the ending _holds. Turned are specs/, proofs/, clauses and comments
of src/, must-fail edits, code spans of the documents. Names that the library declares stay, and so do Rust's own names and strings.
"""

import collections
import glob
import os
import re

WORD = re.compile(r"[^\s(){}.;,@\"«»λ`]+")
DECLARED = re.compile(
    r"^(\s*)(?:let )?(?:(?:pub|abbrev|unfoldable|data|record|private|ruleset|mutual|where|syntax)\s+)*"
    r"([^\s(){}.;,@\"«»:=]+)\s*((?:\{[^}]*\}\s*|\([^)]*\)\s*)*):(?!=)"
)
VALUE = re.compile(r"[a-z][A-Za-z0-9_'₀-₉-]*")
OLD_STYLE = re.compile(r"-|[a-z0-9][A-Z]")
CRATES = {path.split("/")[1] for path in glob.glob("crates/*")}


def specs_and_lemmas():
    return sorted(glob.glob("crates/*/specs/**/*.antt", recursive=True) + glob.glob("crates/*/proofs/*.antt"))


def walks():
    return sorted(set(glob.glob("crates/*/proofs/*/**/*.antt", recursive=True)))


def snake(name):
    """`secondInARow` is `second_in_a_row`, `unlistedAQLOfA` is `unlisted_aql_of_a`."""
    return re.sub(r"(?<=[a-z0-9])(?=[A-Z])|(?<=[A-Z])(?=[A-Z][a-z])", "_", name.replace("-", "_")).lower()


def of_libraries(text):
    """The names that a file imports from other libraries than this repository's own."""
    found = set()
    for module, items in re.findall(r"use ([A-Za-z_0-9.]+)\.\{([^}]*)\}", text):
        parts = module.split(".")
        if not (parts[0] == "Rattle" and parts[1] in CRATES):
            found |= {item.strip().split(" as ")[0] for item in items.split(",")}
    return found


def table():
    """Old name to new name, the names of fields and local facts, and all new names."""
    declared, fields, bound, library = set(), set(), set(), set()
    for path in glob.glob("crates/**/*.antt", recursive=True) + glob.glob("crates/*/src/*.rt"):
        library |= of_libraries(open(path, encoding="utf-8").read())
    for path in specs_and_lemmas():
        for line in open(path, encoding="utf-8"):
            if line.strip().startswith("--"):
                continue
            m = DECLARED.match(line)
            if m:
                declared.add(m[2])
                if m[1]:
                    fields.add(m[2])
            if not line.startswith("use "):
                code = re.sub(r"(?:^|\s)--.*", "", line)
                bound |= {w[0] for w in WORD.finditer(code) if VALUE.fullmatch(w[0])}
    names = {name for name in declared | bound if VALUE.fullmatch(name) and name not in library}
    spelled = collections.defaultdict(set)
    for name in names:
        spelled[snake(name)].add(name)
    turned = {}
    for new, olds in spelled.items():
        camel = {name for name in olds if re.search(r"[a-z0-9][A-Z]", name)}
        for old in olds:
            keeps = old in camel if camel else old == new or len(olds) == 1
            turned[old] = new if keeps else new + "_holds"
    return {old: new for old, new in turned.items() if old != new}, fields, set(turned.values())


def turn(text, names):
    return WORD.sub(lambda m: names.get(m[0], m[0]), text)


def turn_line(line, names, after_dot=None):
    """A line of antt: its code whole, of its comment the code spans and the names in camel case."""
    m = re.search(r"(?:^|(?<=\s))--.*", line)
    code, comment = (line[: m.start()], line[m.start() :]) if m else (line, "")

    def one(w):
        if after_dot is not None and code[w.start() - 1 : w.start()] == "." and w[0] not in after_dot:
            return w[0]
        return names.get(w[0], w[0])

    return WORD.sub(one, code) + turn_prose(comment, names)


def turn_prose(text, names):
    def camel(m):
        word = m[0].rstrip(":'")
        return (names.get(word, word) if re.search(r"[a-z0-9][A-Z]", word) else word) + m[0][len(word) :]

    return WORD.sub(camel, re.sub(r"`[^`]*`", lambda m: turn(m[0], names), text))


def turn_rust(line, names):
    """A line of Rattle, but for what stands in quotes."""
    parts = re.split(r'("(?:[^"\\]|\\.)*")', line)
    return "".join(part if k % 2 else turn(part, names) for k, part in enumerate(parts))


def turn_edit(line, names, declared):
    """A line of an edit, which port.py leaves: paths and projections as it spells them, the names, and those that it turned elsewhere."""
    if not re.match(r"(old|new): ", line):
        return turn_prose(line, names) if line.startswith("#") else line
    head, text = line[:5], line[5:]
    text = re.sub(r"Rattle·(\w+)(?:·specs|·proofs)?\.(?:specs|proofs)?\.?(specs|proofs)\.", r"Rattle.\1.\2.", text)
    text = re.sub(r"(?<![\w)\]])\(([\w'₀-₉-]+(?: \.[\w'-]+)+)\)", lambda m: m[1].replace(" .", "."), text)
    text = re.sub(r"(?<=[\w'₀-₉]) \.(?=[\w'-])", ".", text)
    text = re.sub(r"\bgetD\b", "get_or", text)
    if text.startswith("use "):
        text = re.sub(r"(?<![\w_])_([^\w\s_]+)_(?![\w_])", r"◌\1◌", text)
    text = turn(text, names)
    return head + WORD.sub(lambda m: snake(m[0]) if VALUE.fullmatch(m[0]) and snake(m[0]) in declared else m[0], text)


def rewrite(path, one):
    with open(path, encoding="utf-8") as file:
        old = file.read()
    new = "".join(one(line) for line in old.splitlines(keepends=True))
    if new != old:
        with open(path, "w", encoding="utf-8") as file:
            file.write(new)


def main():
    names, fields, declared = table()
    for path in specs_and_lemmas():
        rewrite(path, lambda line: turn_line(line, names))
    for path in walks():
        own = {m[2] for m in map(DECLARED.match, open(path, encoding="utf-8")) if m}
        here = {old: new for old, new in names.items() if old not in own}
        rewrite(path, lambda line: turn_line(line, here, fields))
    for path in glob.glob("crates/*/src/*.rt"):
        rewrite(path, lambda line: turn_rust(line, names))
    for path in glob.glob("crates/*/must-fail/*.edit"):
        rewrite(path, lambda line: turn_edit(line, names, declared))
    for path in ["README.md"] + glob.glob("docs/*.md") + glob.glob("*/README.md"):
        if os.path.basename(path) != "LANDINGS.md":
            rewrite(path, lambda line: re.sub(r"`[^`]*`", lambda m: turn(m[0], names), line))
    print(f"respell: {len(names)} names")


if __name__ == "__main__":
    main()
