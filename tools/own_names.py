#!/usr/bin/env python3
"""Brings the repository's own definitions and lemmas to the spelling of its Rattle, once, after the kit's port.

usage: python3 tools/own_names.py [--look]      in the repository, at the top

Words are in snake case: a definition `linesOf` becomes `lines_of`. In a lemma's name a dash stays where it joins two names, as in `le-length`, and else
becomes `_`. Facts and types keep their capitals. What is declared in the folder of a function's proof keeps its name: goals are named there.
With --look nothing is written; what would fall together is said either way, and then nothing is written.
"""
import glob
import re
import sys

TOKEN = re.compile(r"[^\s(){}\[\],;.:⌜⌝\"`@]+")
DECLARED = re.compile(r"^\s*(?:(abbrev|unfoldable) )?(?:pub )?([^\s:(){};.,\"]+) :(?: |$)")
# Fields and lemmas that would fall together with a definition.
INSTEAD = {f"{name}-in": f"{name}_inside" for name in ("defs", "firsts", "seconds", "outs", "outputs")}
INSTEAD |= {"is_free": "is_free_line", "row-test": "row_test_holds", "size-test": "size_test_holds", "some-output": "has_output", "numbersBelow": "numbers_all_below"}


def snake(part):
    if part[:1].isupper():
        return part
    return re.sub(r"(?<=[a-z0-9₀-₉'])([A-Z])", lambda m: "_" + m.group(1).lower(), part)


def declared():
    """Names declared in specs/ and in the lemma files of proofs/; which of them are definitions or fields of these; which are words, also of the library; and which
    are fields of records of specs/, in which no dash stays."""
    names, definitions, words, fields = {}, set(), set(), set()
    for path in sorted(glob.glob("crates/*/specs/*.antt") + glob.glob("crates/*/proofs/*.antt")):
        text = open(path, encoding="utf-8").read()
        local = None
        for line in text.split("\n"):
            indent = len(line) - len(line.lstrip())
            if line.strip() == "where" or line.rstrip().endswith(" where"):
                if not re.match(r"^\s*(?:pub )?(?:module|record|data) ", line):
                    local = indent
                    continue
            if local is not None and line.strip() and indent <= local:
                local = None
            m = DECLARED.match(line)
            if m and local is None and m.group(2) not in ("pub", "where"):
                names.setdefault(m.group(2), set()).add(path)
                if m.group(1):
                    words.add(m.group(2))
                elif "/specs/" in path:
                    fields.add(m.group(2))
                if m.group(1) or "/specs/" in path:
                    definitions.add(m.group(2))
            m = re.match(r"^\s*(?:pub )?(?:record|data) (?:pub )?(\S+)", line)
            if m:
                words.add(m.group(1))
        for items in re.findall(r"^use (?:Rattle\.std|lib|mathlib|Prim|native|borrow)\S*\.\{([^}]*)\}", text, re.M):
            words |= {w.split(" as ")[0].strip() for w in items.split(",")}
    return names, definitions | words, words, fields


def respelt(name, words):
    parts = name.split("-")
    out = snake(parts[0])
    for before, part in zip(parts, parts[1:]):
        joined = before in words and part in words
        out += ("-" if joined else "_") + snake(part)
    return out


def is_function(path, text, name):
    """A function of the code has no place in a clause, so that a definition may have its name; a parameter or a field may not."""
    word = re.escape(name)
    called = re.search(rf"(?:fn|::|use [^;]*\b){word}\b|\b{word}\(", text)
    return path.endswith(".rt") and called and not re.search(rf"\b{word}:", text)


def main(look):
    names, definitions, words, fields = declared()
    new = {}
    for name in names:
        dashed = "-" in name and not re.search(r"[^\w'₀-₉-]", name)
        camel = name[0].islower() and re.search(r"[a-z0-9][A-Z]", name)
        new[name] = INSTEAD.get(name) or (respelt(name, set() if name in fields else words) if dashed or camel else name)
    made, clashes = {}, []
    for name in new:
        made.setdefault(new[name], []).append(name)
    for spelt, olds in sorted(made.items()):
        if len(olds) > 1:
            # a lemma that would have its definition's name
            first = [n for n in olds if n in definitions] or [n for n in olds if n == spelt]
            if len(first) != 1 or len(olds) > 2:
                clashes.append(f"{' and '.join(olds)} -> {spelt}")
            for name in olds:
                if name not in first:
                    new[name] = spelt + "_lem"
    turn = {name: spelt for name, spelt in new.items() if name != spelt}
    files = sorted(glob.glob("crates/*/specs/*.antt") + glob.glob("crates/*/proofs/**/*.antt", recursive=True) + glob.glob("crates/*/src/*.rt"))
    texts = {path: open(path, encoding="utf-8").read() for path in files}
    for path, text in texts.items():
        # a name behind a dot is a field or stands in a path, and shadows nothing
        bare, here = set(), set()
        for line in text.split("\n"):
            line = line.split("-- " if path.endswith(".antt") else "// ")[0]
            for m in TOKEN.finditer(line):
                here.add(m.group())
                if line[m.start() - 1 : m.start()] != ".":
                    bare.add(m.group())
        for name, spelt in turn.items():
            if name in here and spelt in bare and spelt not in turn and not is_function(path, text, spelt):
                clashes.append(f"{path}: {name} -> {spelt} is there")
    print("\n".join(clashes))
    print(f"{len(turn)} names; {len(clashes)} fall together")
    if look:
        return
    if clashes:
        raise SystemExit(1)
    functions = {name for path, text in texts.items() if path.endswith(".rt") for name in re.findall(r"\bfn (\w+)", text)}
    for path, text in texts.items():
        # the code's functions keep their names
        stays = functions if path.endswith(".rt") else set()
        now = TOKEN.sub(lambda m: m.group() if m.group() in stays else turn.get(m.group(), m.group()), text)
        if now != text:
            open(path, "w", encoding="utf-8").write(now)


main("--look" in sys.argv)
