#!/usr/bin/env python3
"""Brings the repository's own names to the spelling of today's Rattle, once, after port.py: definitions, fields, constructors and
lemmas in snake case (`planTotal` is plan_total, `words-fewer` is words_fewer). A field that a definition of specs/ has keeps to that. Types and modules keep their camel case, functions of
src/, exported names, strings, inputs and outputs theirs, and so do the names that Rattle makes (`loop-i-preserved`) and those of its
library. Where a lemma would have the name of a definition or a field, it gets `_lem`.

usage: python3 tools/respell.py [ROOT]      rewrites .antt, .rt and .edit files below ROOT/crates in place, and prints what fell together
"""
import collections
import glob
import os
import re
import sys

WORD = r"[A-Za-z_][A-Za-z0-9_']*"
NAME = re.compile(rf"(?<![A-Za-z0-9_'≢≡ℕℤ-])({WORD}(?:-{WORD})*)(?![A-Za-z0-9_'≢≡ℕ-])")
HEAD = re.compile(rf"^[ \t]*(?:let )?(?:(?:abbrev|unfoldable|pub|data|record|axiom) )*({WORD}(?:-{WORD})*)(?: [({{].*)? :(?=\s|$)(.*)", re.M)
CODE = re.compile(r"/proofs/[^/]+/(?:Proof|Answers|Invariants)\.antt$")


def read(path):
    with open(path, encoding="utf-8") as f:
        return f.read()


def snake(name):
    name = re.sub(r"([A-Z])(?=[A-Z][a-z])", r"\1_", name)
    return re.sub(r"(?<=[a-z0-9'])([A-Z])", lambda m: "_" + m[1], name).lower().replace("-", "_")


def is_camel(name):
    return re.match(r"[a-z][a-z0-9_']*[A-Z]", name) is not None and "-" not in name


def main(root):
    root = os.path.abspath(root)
    crates = {d for d in os.listdir(os.path.join(root, "crates"))}
    files = sorted(p for ext in ("antt", "rt", "edit") for p in glob.glob(os.path.join(root, "crates", "**", "*." + ext), recursive=True) if "/out/" not in p)
    text = {p: read(p) for p in files}
    foreign, own = set(), set()
    for p, t in text.items():
        for m in re.finditer(r"^\s*(?:ghost )?use ([^\s{;]+)(?:\{([^}]*)\})?", t, re.M):
            path = m[1].split(".")
            mine = path[0] == "Rattle" and len(path) > 1 and path[1] in crates
            made = re.search(r"\.(?:Goals|Given|Tie|Statement)\.?$|specs\.declared", m[1])
            if not mine or made:
                foreign |= {w.strip().split(" as ")[0].strip() for w in (m[2] or "").split(",")}
        if p.endswith(".antt"):
            for m in HEAD.finditer(t):
                if CODE.search(p) and re.match(r"\s*(?:goal|tie)\.", m[2]):
                    foreign.add(m[1])
                else:
                    own.add(m[1])
            for m in re.finditer(rf"\blet ({WORD}(?:-{WORD})+)", t):
                own.add(m[1])
    camel = {}
    for p, t in text.items():
        for w in NAME.findall(t):
            if is_camel(w) and w not in foreign:
                camel[w] = snake(w)
    taken = set(camel.values())
    plain = {w for t in text.values() for w in NAME.findall(t) if "-" not in w}
    dashed = {}
    for w in sorted(own - foreign):
        if "-" in w and w[0].islower() and not re.search(r"-(?:Inv|Need|Meas)\b", w):
            to = snake(w)
            dashed[w] = to + "_lem" if to in taken or to in plain else to
    # a lemma whose name port.py turned already
    defined = {camel[m[1]] for p, t in text.items() if p.endswith(".antt") for m in HEAD.finditer(t) if m[1] in camel}
    for p, t in text.items():
        if re.search(r"/proofs/[A-Z][A-Za-z]*\.antt$", p):
            for m in HEAD.finditer(t):
                if m[1] in defined:
                    dashed[m[1]] = m[1] + "_lem"
    back = collections.defaultdict(set)
    for w, to in list(camel.items()) + list(dashed.items()):
        back[to].add(w)
    for to in sorted(back):
        if len(back[to]) > 1:
            print("falls together:", to, sorted(back[to]))
        if to in plain and to not in dashed.values():
            print("stood already:", to, sorted(back[to]))

    def turn(p):
        ghost = p.endswith(".antt") or p.endswith(".edit")

        def one(m):
            w = m[1]
            if re.fullmatch(r"b'.'", w):
                return w  # a byte of the code
            before = m.string[m.start() - 1] if m.start() else " "
            if w in camel:
                return camel[w]
            if (ghost or "-" in w) and w in dashed and before != ".":
                return snake(w) if "/specs/" in p else dashed[w]
            return w

        return NAME.sub(one, text[p])

    changed = 0
    for p in files:
        t = turn(p)
        if t != text[p]:
            with open(p, "w", encoding="utf-8") as f:
                f.write(t)
            changed += 1
    print(f"respell: {len(camel)} definitions and fields, {len(dashed)} lemmas, {changed} files")


if __name__ == "__main__":
    main(sys.argv[1] if len(sys.argv) > 1 else ".")
