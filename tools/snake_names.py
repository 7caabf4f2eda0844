#!/usr/bin/env python3
"""Respells this repository's own definitions and lemmas: words in snake case, types and modules in camel case, a dash only between two names.

usage: python3 tools/snake_names.py            at the top of the repository, once, right after port.py
       python3 tools/snake_names.py --list     prints old and new names, and where two would fall together, and writes nothing

It reads the names that files of specs/ and proofs/ declare, fields and constructors among them, and rewrites them there, in proofs of functions, and in clauses and
`ghost use` lines of src/. Functions, types, strings and comments' words of src/ keep their spelling.
"""
import collections
import glob
import os
import re
import sys

WORD = r"[^\s(){}.;,@\"«»\[\]\\]+"
TOKEN = re.compile(r"--[^\n]*|//[^\n]*|\"(?:[^\"\\\n]|\\.)*\"|«[^»\n]*»|" + WORD)
DECLARED = re.compile(r"^\s*(?:(?:abbrev|unfoldable|pub)\s+)*(" + WORD + r"(?:\s+" + WORD + r")*)\s+:(?=\s|$)")
# Names of the library, between which a dash stays a dash.
LIBRARY = set(
    "length append take drop map sum add sub mul div mod pow min max le lt eq neg suc zero round nan inf fin foldl fold reverse set replicate "
    "cond eqb ltb leb log2 sqrt abs up down even odd tab blank refl".split()
)
# Words that are no name of a function within a lemma's name.
FILLERS = {"is", "are", "of", "in", "at", "by", "to", "on", "as", "and", "or", "not", "end", "ends", "some", "first", "last", "before", "more", "less", "within", "each", "at_end"}
# Where a lemma or a field of a claim would fall together with a definition it gets `_lem`. By hand: a name of the library, a parameter of a function in src.
BY_HAND = {"in-float": "in_float_lem", "cosAlpha": "cos_alpha_of", "is-nan": "is_nan_lem"}
USE = re.compile(r"^\s*(?:ghost )?use\s+([^\s{]+)\.\{([^}]*)\}", re.M)


def snake(name):
    return re.sub(r"(?<=[a-z0-9])([A-Z])", lambda m: "_" + m.group(1).lower(), name)


def files():
    for folder in ("specs", "proofs", "src"):
        for f in sorted(glob.glob(f"crates/*/{folder}/**/*", recursive=True)):
            if f.endswith((".antt", ".rt")):
                yield f


def of_library(text, crates):
    """The names that a file brings from the library."""
    out = set()
    for path, names in USE.findall(text):
        if not path.startswith("Rattle.") or path.split(".")[1] not in crates:
            out |= set(re.split(r"[\s,]+", names))
    return out


def generated(name):
    """Names that Rattle makes keep theirs."""
    return re.match(r"(Need-|invariant-loop|decreases-loop|returns|float_to|float_from|int_to|overflow|nonzero|bounds|offset_bounds|slice_bounds|fits-)", name) is not None


def declared():
    names = collections.defaultdict(set)
    for f in files():
        if not f.endswith(".antt") or f.endswith("/Lib.antt"):
            continue
        is_proof = f.endswith("/Proof.antt")
        for line in open(f, encoding="utf-8"):
            m = DECLARED.match(line) or re.match(r"^\s*pub (" + WORD + r")$", line.rstrip())
            if not m:
                continue
            body = line.strip()
            if body.startswith(("let ", "(", "|", "--", "λ")) or " = " in line.split(" :")[0]:
                continue
            # a declaration at the margin, or a field or a definition two or four columns in
            for name in m.group(1).split():
                if is_proof and ("tie.Need" in line or generated(name) or name.endswith("-spec")):
                    continue
                names[name].add(f)
    return names


def functions():
    """The functions that specs/ define."""
    out = set()
    for f in files():
        if "/specs/" in f and not f.endswith("/Lib.antt"):
            for m in re.finditer(r"^\s*(?:abbrev|unfoldable) pub (" + WORD + r") :", open(f, encoding="utf-8").read(), re.M):
                if "-" not in m.group(1) and not m.group(1)[0].isupper() and m.group(1) not in FILLERS:
                    out.add(m.group(1))
    return out


def local(own):
    """Variables of definitions and lemmas that have an upper case letter within."""
    out = set()
    for f in files():
        if f.endswith(".antt"):
            for t in TOKEN.findall(open(f, encoding="utf-8").read()):
                if re.fullmatch(r"[a-z][a-z0-9]*([A-Z][a-z0-9]*)+'?", t) and t not in own:
                    out.add(t)
    return out


def main():
    own = declared()
    for n in sorted(local(own)):
        own[n].add("a variable")
    known = {snake(n) for n in functions()} | LIBRARY
    new = {}
    for n in own:
        if n[0].isupper() and "-" not in n:
            continue
        if n in BY_HAND:
            new[n] = BY_HAND[n]
            continue
        parts = [snake(p) for p in n.split("-")]
        to = parts[0]
        for before, after in zip(parts, parts[1:]):
            joins = before in known and after in known and not any("/specs/" in f for f in own[n])
            to += ("-" if joins else "_") + after
        if to != n:
            new[n] = to
    together = collections.defaultdict(set)
    for n in own:
        together[new.get(n, n)].add(n)
    for to, ns in together.items():
        for n in ns:
            if len(ns) > 1 and "-" in n:
                new[n] = to + "_lem"
    together = collections.defaultdict(set)
    for n in own:
        together[new.get(n, n)].add(n)
    clashes = {to: ns for to, ns in together.items() if len(ns) > 1}
    tokens = {}
    for f in files():
        text = open(f, encoding="utf-8").read()
        tokens[f] = collections.Counter(t for t in TOKEN.findall(text) if not t.startswith(("--", "//", '"')))
    inside = []
    for f, ts in tokens.items():
        for n in ts:
            if n in new and new[n] in ts:
                inside.append((f, n, new[n]))
    if "--list" in sys.argv:
        for to, ns in sorted(clashes.items()):
            print("together:", to, sorted(ns), sorted({f for n in ns for f in own[n]})[:4])
        for f, n, to in inside:
            if to not in clashes:
                print("inside:", f, n, to)
        print(len(new), "names")
        return
    every, crates = new, set(os.listdir("crates"))
    for f in tokens:
        text = open(f, encoding="utf-8").read()
        new = {n: to for n, to in every.items() if n not in of_library(text, crates)}
        out = TOKEN.sub(lambda m: new.get(m.group(0), m.group(0)), text)
        if f.endswith(".antt"):
            # a comment says the new names too
            out = re.sub(r"--[^\n]*", lambda m: re.sub(r"`(" + WORD + r")`", lambda k: "`" + new.get(k.group(1), k.group(1)) + "`", m.group(0)), out)
        else:
            out = re.sub(r"//[^\n]*", lambda m: re.sub(r"`(" + WORD + r")`", lambda k: "`" + new.get(k.group(1), k.group(1)) + "`", m.group(0)), out)
        if out != text:
            open(f, "w", encoding="utf-8").write(out)


main()
