#!/usr/bin/env python3
"""Counts the places that docs/DESIGN-PASS.md speaks of, point by point: python3 tools/design_count.py [COMMIT] [list]

With a commit (any name that git knows) it reads that commit, and without one the files as they lie. `list` names each place.
"""
import re
import subprocess
import sys

args = [it for it in sys.argv[1:] if it != "list"]
lists = "list" in sys.argv[1:]


def run(*words):
    return subprocess.run(words, capture_output=True, text=True, check=True).stdout


def names(pattern):
    known = run("git", "ls-tree", "-r", "--name-only", args[0]) if args else run("git", "ls-files", "-co", "--exclude-standard")
    return sorted(it for it in known.splitlines() if re.fullmatch(pattern, it))


def text(name):
    if args:
        return run("git", "show", f"{args[0]}:{name}")
    with open(name, encoding="utf-8") as it:
        return it.read()


SOURCES = {it: text(it) for it in names(r"crates/[^/]+/src/.*\.rt")}
places = {}


def found(point, name, line, what):
    places.setdefault(point, []).append(f"{name}:{line}: {what}")


def line_of(source, at):
    return source.count("\n", 0, at) + 1


def functions(source):
    """Yields (line, name, parameters, whole text) of each function."""
    for it in re.finditer(r"(?m)^( *)(?:pub )?(?:extern \"C\" )?fn (\w+)[^(\n]*\(", source):
        depth, at = 1, it.end()
        while depth:
            depth += {"(": 1, ")": -1}.get(source[at], 0)
            at += 1
        inner = source[it.end() : at - 1]
        parameters, depth = [""], 0
        for letter in inner:
            depth += {"(": 1, "[": 1, "<": 1, ")": -1, "]": -1, ">": -1}.get(letter, 0)
            if letter == "," and depth == 0:
                parameters.append("")
            else:
                parameters[-1] += letter
        end = source.find(f"\n{it[1]}}}", at)
        yield line_of(source, it.start()), it[2], [p.strip() for p in parameters if p.strip()], source[it.start() : end]


for name, source in SOURCES.items():
    for it in re.finditer(r"(?m)^(?:pub )?enum (\w+)[^{]*\{\n((?:    .*\n)*?)\}", source):
        variants = re.findall(r"(?m)^    \w+(\(.*\))?,", it[2])
        filled = sum(1 for v in variants if v)
        if len(variants) == 2 and filled:
            found("1 own enum of the shape of Option or Result", name, line_of(source, it.start()), it[1])
    for it in re.finditer(r"(?m)^(?:pub )?struct (\w+)[^{;]*\{\n((?:    .*\n)*?)\}", source):
        if re.search(r"(?m)^    pub (ok: bool|number: u16|fault: usize)", it[2]):
            found("1 flag or number of a refusal with values beside it", name, line_of(source, it.start()), it[1])
        if re.search(r"(?m)^    pub len: usize", it[2]):
            found("6 buffer with its length beside it", name, line_of(source, it.start()), it[1])
    for line, function, parameters, whole in functions(source):
        if re.search(r"(?m)^ +match kind \{\n +\d+ =>", whole) or re.search(r"\b(kind|form) [!=]= \d", whole) or re.search(r"node_(word|index)\(s, \w+, 0\) == \d", whole):
            found("1 kind or form by its number", name, line, function)
        if re.search(r"== count\b|, count\)$|or `count`|or `upto`|, or 0\b", whole) and re.search(r"-> usize", whole):
            found("1 number that stands for none", name, line, function)
        if len(parameters) > 6:
            found("5 function with more than six parameters", name, line, f"{function} has {len(parameters)}")
        if re.search(r"(?m)^ +requires.*(WithinLayout s\.now|Laid s\.now)", whole):
            found("5 a script's layout in a requires", name, line, function)
        if re.search(r"(?m)^ +requires.*Starts s\.now starts\.now", whole):
            found("5 a script's runs in a requires", name, line, function)
        if re.search(r"(?m)^ +requires.*kinds\.now ≡ byte_kinds", whole):
            found("5 the table of bytes in a requires", name, line, function)
        if re.search(r"(?m)^ +requires.*length block\.(now|old) ≡ BLOCK", whole):
            found("5 a block's length in a requires", name, line, function)
        if re.search(r"-> (u16|u8|usize)\b", whole.split("\n{")[0]) and re.search(r"(?m)^    match \w+ \{\n(        \w+::\w+(\(.*\))? => [\w:]+,\n)+    \}", whole + "\n"):
            found("4 enum turned into a number by a match", name, line, function)
        if re.search(r"(?m)^    if \w+ \{\n        return 1;\n    \}\n    0", whole):
            found("4 bool turned into a number by an if", name, line, function)
        if re.search(r"(?m)^    match [\w, ().]+ \{\n", whole) and re.search(r"match \w+ \{\n +\w+::\w+(\(.*\))? => match", whole):
            found("4 match in a match", name, line, function)
        if function in ("larger", "wide", "head_wide", "taken", "ran") or re.search(r"fn \w+\(\w+: \w+\) -> \w+\n(    ensures.*\n)?\{\n    \w+ as \w+$", whole):
            found("4 conversion or choice that the library has", name, line, function)
        if re.search(r"-> \[[^\]]*\]\n(    ensures.*\n)?\{\n    \[0; \d+\]$", whole) or function in ("number_tiny", "number_small", "number_middle", "number_long", "read_small", "read_middle", "read_long"):
            found("2 function that differs from others in a size alone", name, line, function)
    for it in re.finditer(r"(?m)^ +while (.*) \{", source):
        found("3 while loop", name, line_of(source, it.start()), it[1])
    for it in re.finditer(r"(?m)^ +loop \{", source):
        found("3 loop without a head", name, line_of(source, it.start()), "loop")
    for it in re.finditer(r"(?m)^(?:pub )?enum (Test)\b", source):
        found("7 switch on which step to run", name, line_of(source, it.start()), it[1])

constants = {}
for name, source in SOURCES.items():
    for it in re.finditer(r"(?m)^ *(?:pub )?const ([A-Z_]+): \w+ = (\d+);", source):
        constants.setdefault((it[1], it[2]), []).append((name, line_of(source, it.start())))
for (word, value), where in constants.items():
    for name, line in where[1:]:
        if name.split("/")[1] != where[0][0].split("/")[1]:
            found("2 constant that another crate has too", name, line, f"{word} = {value}")

answers = names(r"crates/[^/]+/proofs/.*/Answers\.antt")
clauses = sum(len(re.findall(r"(?m)^pub \S+ :", text(it))) for it in answers)
for point in sorted(places):
    print(f"{point}: {len(places[point])}")
    if lists:
        print("".join(f"    {it}\n" for it in places[point]), end="")
print(f"8 answers: {clauses} in {len(answers)} files")
