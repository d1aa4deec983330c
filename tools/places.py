#!/usr/bin/env python3
"""Counts the places that docs/DESIGN-PASS.md speaks of: `tools/places.py [FOLDER] [KIND]`, of this repository or of another checkout of it;
with a KIND, as 3, it names them too."""

import collections
import glob
import re
import sys

WORDS = set("while if else return let mut match as true false len continue break for in".split())
TYPES = set("u8 u16 u32 u64 i32 usize f64".split())
SENTINEL = r"first_\w+$|lost_with|held_by|state_record|find$|after_last|round$|bad_byte|word_in|lower$|enter$|look_up$|entries$|before$"


def functions(sources):
    """(crate, public, name, signature, contract, body) of each function, comments left out."""
    for path, text in sources.items():
        text = re.sub(r"//[^\n]*", "", text)
        ends = r"(?=^ *(?:pub |fn |#\[|struct |enum |impl |const |ghost |trait )|\Z)"
        for m in re.finditer(r'(?ms)^ *(pub(?: extern "C")? )?fn (\w+)(.*?)' + ends, text):
            brace = re.search(r"(?m)^ *\{| \{\n", m[3])
            head, body = (m[3][: brace.start()], m[3][brace.start() :]) if brace else (m[3], "")
            clause = re.search(r"(?m)^ *(requires|ensures)\b", head)
            signature, contract = (head[: clause.start()], head[clause.start() :]) if clause else (head, "")
            yield path.split("crates/")[1].split("/")[0], bool(m[1]), m[2], " ".join(signature.split()), " ".join(contract.split()), body


def shape(signature, body):
    """A function with its names, numbers and number types left out, so that twins look the same."""
    names = {}

    def word(m):
        if m[0] in WORDS:
            return m[0]
        if m[0] in TYPES:
            return "T"
        if re.match(r"b['\"]|\d", m[0]):
            return "N"
        return names.setdefault(m[0], f"v{len(names)}")

    text = re.sub(r"b'[^']*'|b\"[^\"]*\"|\w+", word, signature.split("(", 1)[-1] + body)
    return re.sub(r"\s+", "", text).replace(",)", ")").replace(",}", "}")


def main():
    arguments = sys.argv[1:]
    root = arguments.pop(0) if arguments and "/" in arguments[0] + "/" and glob.glob(arguments[0] + "/crates") else "."
    asked = arguments[0] if arguments else None
    sources = {p: open(p).read() for p in sorted(glob.glob(root + "/crates/*/src/*.rt"))}
    proofs = {p: open(p).read() for p in sorted(glob.glob(root + "/crates/*/proofs/**/*.antt", recursive=True))}
    fns = list(functions(sources))
    code = "\n".join(re.sub(r"(?m)^ghost use.*$|//[^\n]*", "", t) for t in sources.values())

    def where(test):
        return [c + "::" + n + "*" * p for c, p, n, s, k, b in fns if test(n, s, k, b)]

    def found(pattern, text=code):
        return re.findall(pattern, text, re.M)

    twins = collections.defaultdict(list)
    facts = collections.defaultdict(set)
    for c, p, n, s, k, b in fns:
        twins[shape(s, b)].append(c + "::" + n)
        for m in re.finditer(r"requires[^{]*\{(.*?)\}(?= *(?:requires|ensures|decreases|$))", k):
            for fact in re.findall(r"(?<![\w.])([A-Z]\w+)", m[1]):
                facts[fact].add(c + "::" + n)
    answers = "".join(t for p, t in proofs.items() if re.search(r"/proofs/[^/]+/", p))
    deriving = [m for t in sources.values() for m in re.findall(r"((?:#\[derive\([^\]]*\]\s*)?)pub (?:struct|enum) (\w+)", t)]

    kinds = [
        ("1a", "own enums of the shape of Result", found(r"^ *Refused\(u32, usize\)")),
        ("1b", "arms of a match that only hand a refusal on", found(r"Refused\(number, place\) => .*")),
        ("1c", "refusals given by a number", found(r"efused\((?:state, )?[0-9]+, ")),
        ("1d", "functions whose number says that there is none", where(lambda n, s, k, b: s.endswith("-> usize") and re.match(SENTINEL, n))),
        ("1e", "functions with a u8 in their signature", where(lambda n, s, k, b: re.search(r": u8\b|-> u8$", s))),
        ("1f", "tests as a chain of returns", where(lambda n, s, k, b: s.endswith("-> bool") and re.search("return (true|false);", b) and "while" not in b)),
        ("2a", "functions that differ from another in names, numbers and number types alone", [n for g in twins.values() if len(g) > 1 for n in g]),
        ("2b", "pairs for a small and a large memory", where(lambda n, s, k, b: re.search(r"_(few|many|small|large)$", n))),
        ("3", "loops by while", where(lambda n, s, k, b: re.search(r"\bwhile ", b))),
        ("4a", "wide, wide16, bit, equal, same, smaller", found(r"\b(?:wide|wide16|bit|equal|same|smaller)\(")),
        ("4b", "casts", found(r" as (?:u8|u16|u32|u64|usize|i32)\b")),
        ("4c", "public types that can't be compared or shown", [n for d, n in deriving if "PartialEq" not in d]),
        ("5a", "facts in the requires of three functions or more", [f"{len(v)} {f}" for f, v in sorted(facts.items()) if len(v) > 2]),
        ("5b", "functions with eight parameters or more", where(lambda n, s, k, b: not n.startswith("ullimaqsu") and len(re.findall(r"(\w+): ", s)) > 7)),
        ("6a", "fixed arrays as local memory", found(r"= \[[0-9a-z]+; \w+\];")),
        ("6b", "a front that is cut off, a buffer with its length beside it", found(r"&(?:mut )?\w+\[\.\.[^]]+\]")),
        ("7", "functions that are told which step to run", where(lambda n, s, k, b: re.search(r"\b(into|masks|alone|in_set): bool", s))),
        ("8a", "answers of functions' proofs", re.findall(r"(?m)^pub (\S+) : goal\.", answers)),
        ("8b", "lines of proofs above 240 characters", [p for p, t in proofs.items() for line in t.split("\n") if len(line) > 240]),
    ]
    for kind, what, places in kinds:
        print(f"{kind:3} {len(places):5}  {what}")
        if asked == kind:
            print("           " + " ".join(places))


main()
