#!/usr/bin/env python3
"""Spells the names of the repository's definitions and lemmas in its pages as port.py and tools/respell.py have spelled them in the crates.

usage: python3 tools/respell_pages.py TABLE LANDED FILE..      at the top; TABLE: what `tools/respell.py --table` printed in the tree that it ran in; LANDED: a folder with the crates before port.py

A name in camel case turns anywhere in a page, a dashed one in a code span, and behind a production of docs/GRAMMAR.md. Indented and fenced code stays as it is but for those productions.
Prints the names in code spans that stood in LANDED's crates and stand in none here: they are turned by hand.
"""
import glob
import re
import sys

TOKEN = re.compile(r"(?<![/\w-])[^\s(){}\[\],;.:\"@«»\x60|/]+")
CAMEL = re.compile(r"(?<![\w.#/-])[a-z]\w*[a-z0-9][A-Z]\w*(?![\w-])")
NAMED = re.compile(r"^(.*(?:::=| \| ).*\s{2,})([a-z]-?[a-z-]+)$")


def words(root):
    files = [p for e in ("rt", "antt") for p in glob.glob(f"{root}/crates/*/**/*.{e}", recursive=True) if "/out/" not in p]
    return {w for p in files for w in re.findall(r"[^\s(){}\[\],;.:\"@«»\x60|/]+", open(p, encoding="utf-8").read())}


def main(table, landed, paths):
    # A name that is in snake case already is in a page a function's or a crate's, and not the lemma's that was turned to stand beside it.
    names = dict(l.split() for l in open(table, encoding="utf-8") if len(l.split()) == 2 and not re.match(r"[a-z_]+ ", l))
    before, now = words(landed), words(".")

    def one(m):
        old = m[0]
        if old in names or old not in before or old in now or not re.match(r"[a-z]\w*(?:[A-Z-]|-)", old):
            return names.get(old, old)
        # What port.py has turned is in no table.
        new = re.sub(r"(?<=[a-z0-9])[A-Z]", lambda c: "_" + c[0].lower(), old).replace("-", "_").replace("′", "'")
        return new if new in now else old

    def span(m):
        return m[1] + TOKEN.sub(one, m[2]) + m[1]

    for path in paths:
        text = open(path, encoding="utf-8").read()
        out, fenced, blank, indented = [], False, True, False
        for number, l in enumerate(text.split("\n"), 1):
            if l.lstrip().startswith("```"):
                fenced = not fenced
                out.append(l)
                continue
            indented = l.startswith("    ") and (blank or indented)
            blank = not l.strip()
            if fenced:
                l = NAMED.sub(lambda m: m[1] + one(re.match(r".*", m[2])), l)
            elif not indented:
                l = re.sub(r"(`+)([^`]+)\1", span, l)
                l = CAMEL.sub(one, l)
                lost = {w for m in re.findall(r"`([^`]+)`", l) for w in TOKEN.findall(m) if w in before and w not in now}
                for w in sorted(lost):
                    print(f"{path}:{number}: {w}")
            out.append(l)
        new = "\n".join(out)
        if new != text:
            with open(path, "w", encoding="utf-8") as f:
                f.write(new)


if __name__ == "__main__":
    if len(sys.argv) < 4:
        sys.exit(__doc__)
    main(sys.argv[1], sys.argv[2], sys.argv[3:])
