#!/usr/bin/env python3
"""Respells the repository's own definitions and lemmas: words in snake case, as the library has them. Run it once, at the top, after the kit's port.py.

What is declared in specs/ and in the lemma files of proofs/ turns: camelCase and dashes become snake_case, wherever the name stands in crates/. A dash stays
beside a part with a capital (a type's, a constant's), and where two names would fall together. A function's proof is named f_spec. Source names, strings,
modules and types stay. In comments a name with a dash turns only between backticks. `--list` prints the table and writes nothing.
"""
import collections
import os
import re
import sys

SIGN = re.compile(r"^\s*(?:(?:pattern|unfoldable|abbrev|axiom|pub|ruleset) +)*([^\s(){}.;,@\"«»:=]+)(?: *\{[^}\n]*\})? *[:=] ", re.M)
ALIAS = re.compile(r"^use .* as ([a-z]\w*)$", re.M)
WORD = re.compile(r"[^\s(){}.;,@\"«»`]+")
SPAN = re.compile(r"`[^`\n]*`")
# the names that Rattle makes of a function's clauses and code
MADE = re.compile(r"(loop|returns|invariant|decreases|ensures|Need|overflow|in|if|then|else)-")


def files(root, suffixes):
    for folder, dirs, names in os.walk(os.path.join(root, "crates")):
        dirs[:] = sorted(d for d in dirs if d != "out")
        for name in sorted(names):
            if name.endswith(suffixes):
                yield os.path.join(folder, name)


def is_lemma_file(path):
    parts = path.split(os.sep)
    return "specs" in parts or parts[-2] == "proofs"


def snake(name):
    parts = name.split("-")
    words = [re.sub(r"(?<=[a-z0-9])([A-Z])", lambda m: "_" + m[1].lower(), p) if p[:1].islower() else p for p in parts]
    out = words[0]
    for before, word in zip(words, words[1:]):
        out += ("-" if before[:1].isupper() or word[:1].isupper() else "_") + word
    return out


def table(root):
    declared, used = set(), collections.Counter()
    for path in files(root, (".antt",)):
        text = open(path, encoding="utf-8").read()
        code = re.sub(r"(?<!\S)--[^\n]*", "", text)
        used.update(WORD.findall(code))
        if is_lemma_file(path):
            declared |= set(SIGN.findall(code))
        declared |= set(ALIAS.findall(code))
    turned = {n: snake(n) for n in declared if not MADE.match(n) and snake(n) != n}
    targets = collections.defaultdict(set)
    for old, new in turned.items():
        targets[new].add(old)
    for new, olds in targets.items():
        # two names that would fall together: the one with a dash keeps it
        if new in used or len(olds) > 1:
            for old in olds:
                if "-" in old:
                    kept = snake(old.replace("-", "\0")).replace("\0", "-")
                    turned[old] = "-".join(snake(p) for p in old.split("-"))
    return {o: n for o, n in turned.items() if o != n}, used


def respell(text, names, comment):
    """Code turns whole; behind a comment's mark a name with a dash turns only between backticks."""
    def word(m):
        return names.get(m[0], m[0])

    def camel(m):
        return m[0] if "-" in m[0] else names.get(m[0], m[0])

    lines = []
    for line in text.split("\n"):
        m = re.search(comment, line)
        cut = m.start() if m else len(line)
        code, rest = line[:cut], line[cut:]
        pieces = re.split(r'("(?:[^"\\]|\\.)*")', code)
        code = "".join(p if p.startswith('"') else WORD.sub(word, p) for p in pieces)
        rest = SPAN.sub(lambda s: WORD.sub(word, s[0]), rest)
        lines.append(code + WORD.sub(camel, rest))
    return "\n".join(lines)


def main():
    root = "."
    names, used = table(root)
    if "--list" in sys.argv:
        for old in sorted(names):
            print(old, names[old], "FALLS" if names[old] in used else "")
        return
    for path in files(root, (".antt", ".rt", ".edit")):
        text = open(path, encoding="utf-8").read()
        mark = r"(?<!\S)--" if path.endswith(".antt") else r"//" if path.endswith(".rt") else r"^#"
        new = respell(text, names, mark)
        if path.endswith("Proof.antt"):
            function = path.split(os.sep)[-2].lstrip("+")
            dashed = function.replace("_", "-") + "-spec"
            new = re.sub(rf"(?<![^\s(]){re.escape(dashed)}(?![^\s).])", function + "_spec", new)
        if new != text:
            with open(path, "w", encoding="utf-8") as out:
                out.write(new)


main()
