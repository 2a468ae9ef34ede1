#!/usr/bin/env python3
"""Brings the definitions and lemmas of crates/ to the spelling of today's Rattle: words in snake case, facts and types in camel case.

usage: python3 tools/spell.py [list]     at the top of the repository, once, after port.py; `list` prints the names and changes nothing

It renames what specs/ and proofs/*.antt define. Functions of src/, exported names, strings, inputs and outputs keep their names.
"""

import collections
import os
import re
import sys

# lemmas that would fall together with the definition that they speak of
CHOSEN = {name: name.replace("-", "_") + "_lem" for name in """
    allocating-at any-held bits-of block-by block-in cell-at cell-start column-start component-at first-row from-bits
    head-of is-over is-pending moved-damaged moved-seen moved-to number-in put-in reserved-new row-removed row-width
    run-start run-with run-without seated-rows span-in target-of types-before value-of with-output wrong-size
    reserve-entities reserve-entity resolve-unknown-gen
""".split()}
CHOSEN.update({name: name.replace("-", "_") + "_lem" for name in """
    any-damaged cell-written column-of is-new last-place next-handle number-here read-bytes read-from totals-of
""".split()})
# those that port.py respelled already, and where the word is the lemma
LEMMAS = {
    "any_held": ["borrow_word/proofs/Determined"],
    "block_in": ["column_entry/proofs/Widths", "store_moves/proofs/Sharing", "store_moves/proofs/Moving", "store_soundness/proofs/Changed",
                 "columns/proofs/Held", "columns/proofs/Steps", "columns/proofs/Answers"],
    "from_bits": ["handle/proofs/Determined"],
    "wrong_size": ["column_entry/proofs/Determined"],
    "taken_out": ["store_moves/proofs/Sharing", "store_moves/proofs/Gathering", "store_moves/proofs/Splicing", "store_moves/proofs/Targets"],
}
OPERATORS = {"orElse": "or_else", "andThen": "and_then"}
TOKEN = re.compile(r"[^\s(){}\[\].,;\"`]+")
DEFINED = re.compile(r"\s*(?:(?:pub|abbrev|unfoldable|ruleset)\s+)*([^\s:(){}\"]+)\s*(?:\([^)]*\)\s*|\{[^}]*\}\s*)*:(?:\s|$)")
NAMED = re.compile(r"\s*(?:pub\s+)?(?:record|data|ruleset)\s+(?:pub\s+)?([^\s:(){}]+)")
BINDERS = re.compile(r"[(λ]\s*((?:[a-z][\w'₀-₉-]*\s*)+)[:.]")


def files(root, ends):
    for folder, dirs, names in os.walk(root):
        dirs[:] = sorted(d for d in dirs if d != "out")
        for name in sorted(names):
            if name.endswith(ends):
                yield os.path.join(folder, name)


def is_shared(path):
    """A file of specs/, or one that stands in proofs/ itself: not a function's proof."""
    parts = path.split(os.sep)
    return parts[2] == "specs" or (parts[2] == "proofs" and len(parts) == 4)


def defined(path):
    found = []
    with open(path, encoding="utf-8") as f:
        for line in f:
            if line.lstrip().startswith(("--", "use ", "infix")):
                continue
            for form in (DEFINED, NAMED):
                m = form.match(line)
                if m and m.group(1) not in ("_", "use", "module", "let", "where"):
                    found.append(m.group(1))
    return found


def spelled(name):
    if name in CHOSEN:
        return CHOSEN[name]
    for old, new in OPERATORS.items():
        name = name.replace(old, new)
    if "◌" in name or not re.match(r"[A-Za-z]", name):
        return name
    if name[0].isupper():
        # a fact or a type; MAX and the like are constants
        return "".join(p[:1].upper() + p[1:] for p in name.split("-")) if "-" in name else name
    words = re.sub(r"(?<=[a-z0-9])([A-Z])", lambda m: "_" + m.group(1).lower(), name)
    return words.replace("-", "_")


def renamed(text, table):
    def one(m):
        word = m.group(0)
        if word in table:
            return table[word]
        return word

    return TOKEN.sub(one, text)


def clause_lines(text, table):
    """A source file: only ghost lines and clauses speak of specs/."""
    out, depth = [], 0
    for line in text.split("\n"):
        if depth or re.match(r"\s*(ghost|requires|ensures)\b", line):
            depth += line.count("{") - line.count("}")
            line = renamed(line, table)
        out.append(line)
    return "\n".join(out)


def proof_text(text, table):
    """A file of antt: a comment speaks of names between backticks alone."""
    out = []
    for line in text.split("\n"):
        if line.lstrip().startswith("--"):
            line = re.sub(r"`[^`]*`", lambda m: renamed(m.group(0), table), line)
        else:
            line = renamed(line, table)
        out.append(line)
    return "\n".join(out)


def main(argv):
    where = collections.defaultdict(set)
    for path in files("crates", (".antt",)):
        if is_shared(path):
            for name in defined(path):
                where[name].add(path)
    table = {n: spelled(n) for n in where if spelled(n) != n}
    for old, new in OPERATORS.items():
        table[old] = new
    # the lemmas of LEMMAS first, each in its files alone
    alone = {}
    for name, places in LEMMAS.items():
        for place in places:
            alone.setdefault(f"crates/{place}.antt", {})[name] = name + "_lem"
    # two names that would be one, in a file that has both
    back = collections.defaultdict(set)
    for old, new in table.items():
        back[new].add(old)
    clashes = {}
    for path in files("crates", (".antt",)):
        with open(path, encoding="utf-8") as f:
            text = f.read()
        code = "\n".join(l for l in text.split("\n") if not l.lstrip().startswith("--"))
        # a part of a path is a module's or a function's name
        words = set(TOKEN.findall(re.sub(r"\w+\.(?=[\w{])", "", code)))
        words -= set(alone.get(path, {}))
        for new, olds in back.items():
            here = {o for o in olds if o in words} | ({new} if new in words else set())
            if len(here) > 1:
                clashes.setdefault((new, tuple(sorted(here))), []).append(path)
    if argv[:1] == ["list"]:
        for old, new in sorted(table.items()):
            print(old, new)
    for (new, here), paths in sorted(clashes.items()):
        print("clash:", new, here, len(paths), paths[0])
    if argv[:1] == ["list"]:
        return
    if clashes:
        raise SystemExit("spell: names fall together; choose others in CHOSEN")
    for path in files("crates", (".antt", ".rt")):
        with open(path, encoding="utf-8") as f:
            text = f.read()
        here = {**table, **alone.get(path, {})}
        new = proof_text(text, here) if path.endswith(".antt") else clause_lines(text, here)
        if new != text:
            with open(path, "w", encoding="utf-8") as f:
                f.write(new)
    print(f"spell: {len(table)} names")


if __name__ == "__main__":
    main(sys.argv[1:])
