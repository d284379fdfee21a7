#!/usr/bin/env python3
"""Spells the repository's own definitions and lemmas as words in snake case: in crates/, in must-fail edits, and between backticks in pages and comments.

usage: spelling.py table     prints the table of names, made from what the crates declare
       spelling.py turn      rewrites the files by tools/spelling.tsv: once, on the text that port.py left. A second time would take definitions for lemmas
       spelling.py together  prints names that would fall together in a file
"""

import os
import re
import sys

HERE = os.path.dirname(os.path.realpath(__file__))
ROOT = os.path.dirname(HERE)
TABLE = os.path.join(HERE, "spelling.tsv")
TOKEN = re.compile(r"[^\s(){}\[\].,;:«»\"]+")
WORD = re.compile(r"(?<![\w'-])[a-z][\w']*[A-Z][\w']*(?![\w'-])")
QUOTED = re.compile(r"`[^`\n]*`")
SIGNATURE = re.compile(r"^\s*(?:unfoldable\s+|abbrev\s+|pub\s+)*([^\s(){}:,.;=λ→×|]+)\s*:(?!:)")

# lemmas that an earlier respelling gave the name that a definition has now
BESIDE = ["any_below"]


def files(*endings):
    for top in ("crates", "docs", "compare", "bindings"):
        for folder, dirs, names in os.walk(os.path.join(ROOT, top)):
            dirs[:] = sorted(d for d in dirs if d not in ("out", "target", ".git"))
            for n in sorted(names):
                if n.endswith(endings):
                    yield os.path.join(folder, n)
    if ".md" in endings:
        yield os.path.join(ROOT, "README.md")


def read(path):
    with open(path, encoding="utf-8") as f:
        return f.read()


def snake(name):
    name = name.replace("′", "'").replace("AArch64", "Aarch64")
    if "-" in name:
        name = name.replace("-", "_")
    name = re.sub(r"(?<=[a-z0-9])([A-Z])", lambda m: "_" + m.group(1).lower(), name)
    return re.sub(r"(?<=_)([A-Z])", lambda m: m.group(1).lower(), name)


def is_own_file(path):
    parts = os.path.relpath(path, os.path.join(ROOT, "crates")).split(os.sep)
    return parts[1] == "specs" or (parts[1] == "proofs" and len(parts) == 3)


def declared():
    names = set()
    for p in files(".antt"):
        if is_own_file(p):
            for l in read(p).splitlines():
                m = SIGNATURE.match(l)
                if m and not l.lstrip().startswith("--"):
                    names.add(m.group(1))
    return names


def make():
    """Each own name that is not in snake case, with its spelling; a lemma that would have a definition's name gets `_lem`."""
    names = declared()
    turned = {n: snake(n) for n in sorted(names) if re.match(r"[a-z]", n) and re.search(r"[A-Z′-]", n)}
    definitions = {n if n not in turned else turned[n] for n in names if "-" not in n}
    for old in turned:
        if "-" in old and turned[old] in definitions:
            turned[old] += "_lem"
    for n in BESIDE:
        turned[n] = n + "_lem"
    return turned


def table():
    return dict(l.split("\t") for l in read(TABLE).splitlines() if l)


def turn_antt(text, names):
    out = []
    for line in text.split("\n"):
        code, dash, comment = line, "", ""
        m = re.search(r"(^|\s)--(\s|$)", line)
        if m:
            code, comment = line[: m.start()], line[m.start() :]
        code = TOKEN.sub(lambda t: turn_token(t, names), code)
        comment = QUOTED.sub(lambda t: TOKEN.sub(lambda u: turn_word(u.group(0), names), t.group(0)), comment)
        out.append(code + comment)
    return "\n".join(out)


def turn_token(t, names):
    """A name that is in snake case already and goes by another now (a lemma's beside a definition's) is no part of a module's path."""
    old = t.group(0)
    if old not in names or ("-" not in old and old.islower() and t.string[t.end() : t.end() + 1] == "."):
        return old
    return names[old]


def turn_word(word, names):
    bare = word.strip("`")
    return word.replace(bare, names[bare]) if bare in names else word


def turn_rt(text, names):
    return WORD.sub(lambda t: names.get(t.group(0), t.group(0)), text)


def turn_quoted(text, names):
    return QUOTED.sub(lambda t: WORD.sub(lambda u: names.get(u.group(0), u.group(0)), t.group(0)), text)


def turned_text(path, names):
    text = read(path)
    if path.endswith(".antt"):
        return text, turn_antt(text, names)
    if path.endswith(".edit"):
        target = re.search(r"^file: (\S+)", text, re.M)
        of = turn_antt if target and target.group(1).endswith(".antt") else turn_rt
        return text, "\n".join(l if l.startswith("file:") else of(l, names) for l in text.split("\n"))
    return text, turn_rt(text, names) if path.endswith(".rt") else turn_quoted(text, names)


def turn():
    names = table()
    for p in files(".antt", ".rt", ".edit", ".md"):
        old, new = turned_text(p, names)
        if old != new:
            with open(p, "w", encoding="utf-8") as f:
                f.write(new)


def together():
    names = table() if os.path.exists(TABLE) else make()
    for p in files(".antt", ".rt"):
        text = read(p)
        found = {}
        code = "\n".join(re.sub(r"(^|\s)--(\s.*|$)", "", l) for l in text.split("\n"))
        for t in set(TOKEN.findall(code)):
            found.setdefault(names.get(t, t), set()).add(t)
        for new, olds in sorted(found.items()):
            if len(olds) > 1:
                print(f"{os.path.relpath(p, ROOT)}: {', '.join(sorted(olds))} -> {new}")


if __name__ == "__main__":
    what = sys.argv[1:] or ["help"]
    if what == ["table"]:
        print("\n".join(f"{a}\t{b}" for a, b in sorted(make().items())))
    elif what == ["turn"]:
        turn()
    elif what == ["together"]:
        together()
    else:
        print(__doc__)
        raise SystemExit(2)
