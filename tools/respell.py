#!/usr/bin/env python3
"""Spells the repository's own definitions and lemmas as today's Rattle does, after port.py has spelled the library's names.

usage: python3 tools/respell.py [--table]      at the top of the repository, once, after port.py; --table prints old and new and writes nothing

What turns, in every .rt and .antt file below crates/:
  a definition, lemma, field or constructor in camel case gets snake case: frameBytes is frame_bytes
  a dash in a lemma's name gets an underscore: put-skip is put_skip
  a constant in capitals gets an underscore for a dash: CLASS-FIELDS is CLASS_FIELDS
  the name of a function's proof is that of the function with _spec (put-word-spec is put_word_spec)
What stays: types, modules, Rust's own names, the paper's names of its rules (WF-CLASS, DYN-EVAL-LET, ..), and the names of goals in a function's proof files.
A name whose new spelling stands already in a file that has the old one keeps its old spelling, and is printed.
"""
import collections
import glob
import os
import re
import sys

# Names whose new spelling is taken in a file that has them.
BY_HAND = {
    "all-nodes": "all_nodes_lem",
    "firstOut": "first_out_of",
    "inLeft": "in_left_tree",
    "inRight": "in_right_tree",
    "method-at": "method_found_at",
    "oneMore": "one_added_if",
    "own-fields": "own_fields_lem",
    "phase-by": "phase_by_lem",
    "plainRows": "rows_all_plain",
    "run-kind": "run_kind_lem",
    "some-digits": "some_digits_lem",
    "some-name": "some_name_lem",
}
IDENT = r"[^\s(){}\[\],;:.\"@«»\x60]+"
TOKEN = re.compile(r"[^\s(){}\[\],;.\"@«»\x60]+")
FREE = re.compile(r"(?<![^\s(){}\[\],;\"@«»\x60])" + TOKEN.pattern)
DECLARED = re.compile(r"^\s*(?:(?:abbrev|unfoldable|pub|axiom|ghost)\s+)*(" + IDENT + r"(?:\s+" + IDENT + r")*)\s+:(?:\s|$)")
TYPED = re.compile(r"^\s*(?:pub\s+)?(?:record|data)\s+(?:pub\s+)?(" + IDENT + ")")
RULE = re.compile(r"^(?:WF|DYN|T|BD|CFG|H|LH)-[A-Z]")
CAPITALS = re.compile(r"^[A-Z][A-Z0-9]*(?:-[A-Z0-9]+)+$")
CAMEL = re.compile(r"(?<=[a-z0-9])[A-Z]")
# Words of std that a lemma here would have for its name.
STD = {"bit_and", "bit_or", "bit_xor"}


def texts():
    return sorted(p for e in ("rt", "antt") for p in glob.glob(f"crates/*/**/*.{e}", recursive=True) if "/out/" not in p)


def code_of(line):
    """The line's code and its comment."""
    m = re.search(r"(?:^|(?<=\s))(?:--|//)(?=\s|$|/)", line)
    return (line[: m.start()], line[m.start() :]) if m else (line, "")


def in_braces(code):
    """Of an import only the names that it brings in."""
    return re.sub(r"^\s*(?:pub |ghost )*use [^{]*", "", code)


def is_goal_file(path):
    return re.search(r"/proofs/.*/(?:Proof|Answers|Invariants)\.antt$", path) is not None


def declared_in(path, lines):
    names = []
    for l in lines:
        code, _ = code_of(l)
        m = TYPED.match(code)
        if m:
            names.append(m.group(1))
            continue
        m = DECLARED.match(code)
        if m:
            names += m.group(1).split()
    return names


def main(argv):
    files = {p: open(p, encoding="utf-8").read().split("\n") for p in texts()}
    specs, lemmas = set(), set()
    for p, lines in files.items():
        if not p.endswith(".antt") or is_goal_file(p):
            continue
        (specs if "/specs/" in p else lemmas).update(n for n in declared_in(p, lines) if "=" not in n and "λ" not in n)
    table = {}
    for n in specs | lemmas:
        new = BY_HAND.get(n) or spelled(n)
        if new != n:
            table[n] = new
    held = {p: set(t for l in lines for t in FREE.findall(in_braces(code_of(l)[0]))) for p, lines in files.items()}
    kept = set()
    by_new = collections.defaultdict(set)
    for old, new in table.items():
        by_new[new].add(old)
    # A lemma that would have its function's name gets _lem.
    for old, new in list(table.items()):
        if old in lemmas - specs and (new in specs or new in STD or any(o in specs for o in by_new[new] - {old})):
            by_new[new].discard(old)
            table[old] = new + "_lem"
    # So does a lemma that has its function's new name already.
    for new in list(by_new):
        if new in lemmas - specs and any(o in specs for o in by_new[new]):
            table[new] = new + "_lem"
    for p, names in held.items():
        for old in names & table.keys():
            others = by_new[table[old]] - {old}
            if p.endswith(".antt") and table[old] in names - table.keys() or others & names:
                kept.add(old)
    for old in sorted(kept):
        print(f"kept: {old} (beside {table[old]})")
        del table[old]
    if "--table" in argv:
        for old in sorted(table):
            print(old, table[old])
        return
    for p, lines in files.items():
        goals = is_goal_file(p)
        own = set(declared_in(p, lines)) if goals else set()
        out = [turned(l, table, own, p) for l in lines]
        text = "\n".join(out)
        if text != "\n".join(lines):
            with open(p, "w", encoding="utf-8") as f:
                f.write(text)


def snake(n):
    return CAMEL.sub(lambda m: "_" + m[0].lower(), n)


def spelled(n):
    if RULE.match(n):
        return n
    if CAPITALS.match(n):
        return n.replace("-", "_")
    if not n[:1].islower():
        return n
    return snake(n).replace("′", "'").replace("-", "_")


def turned(line, table, own, path):
    code, comment = code_of(line)
    goals = is_goal_file(path)

    def one(m):
        t = m[0]
        if t in own or path.endswith(".rt") and re.fullmatch(r"[a-z0-9_]+", t):
            return t
        return table.get(t, t)

    def chain(m):
        # In a function's proof the first step behind c is named by Rattle.
        if not goals or m[1] != "c":
            return TOKEN.sub(one, m[0])
        head = re.match(r"c(?:\.before)*(?:\.[^\s.(){}\[\],;\"@«»\x60]+)?", m[0])[0]
        return head + TOKEN.sub(one, m[0][len(head) :])

    path_end = re.match(r"^\s*(?:pub |ghost )*use [^{]*", code)
    start = path_end.end() if path_end else 0
    code = code[:start] + re.sub(r"([^\s.(){}\[\],;\"@«»\x60]+)(?:\.[^\s.(){}\[\],;\"@«»\x60]+)*", chain, code[start:])
    # In a comment a name of one word in camel case is never prose; a dashed one is a name only in a code span.
    comment = re.sub(r"\x60([^\x60]*)\x60", lambda m: "\x60" + TOKEN.sub(one, m[1]) + "\x60", comment)
    comment = re.sub(r"\b[a-z]\w*[a-z0-9][A-Z]\w*\b", one, comment)
    return code + comment


if __name__ == "__main__":
    main(sys.argv[1:])
