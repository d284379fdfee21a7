#!/usr/bin/env python3
"""The levels of the crates, drawn from crates.txt, and whether docs/ARCHITECTURE.md still says what stands.

    tools/architecture.py            print the levels: a crate stands one above the highest that it depends on
    tools/architecture.py --write    put them into docs/ARCHITECTURE.md, between its two marks
    tools/architecture.py --check    tell where crates.txt, the sources and docs/ARCHITECTURE.md no longer agree; status 1 where they do not
"""

import re
import sys
from pathlib import Path

ROOT = Path(__file__).resolve().parent.parent
CRATES = ROOT / "crates"
PAGE = ROOT / "docs" / "ARCHITECTURE.md"
START, END = "<!-- levels: tools/architecture.py --write -->", "<!-- end of levels -->"
KIT = {"check"}


def listed():
    """Each crate of crates.txt with its dependencies, without the kit's, in the order of the file."""
    lines = [line.split("#")[0] for line in (ROOT / "crates.txt").read_text().splitlines()]
    pairs = [line.split(":") for line in lines if line.strip()]
    return {name.split()[0]: [d for d in deps.split() if d not in KIT] for name, deps in pairs}


def levels(crates):
    found = {}

    def level(name):
        if name not in found:
            found[name] = 1 + max((level(d) for d in crates[name]), default=0)
        return found[name]

    return {name: level(name) for name in crates}


def drawn(crates):
    level = levels(crates)
    rows = ("  ".join(c for c in crates if level[c] == n) for n in range(1, max(level.values()) + 1))
    return "\n".join(f"    {n:2}  {row}" for n, row in enumerate(rows, 1))


def block(crates):
    return f"{START}\n\n{drawn(crates)}\n\n{END}"


def cited(name, crates):
    """The crates that the files of this one name: in code `other::`, in definitions and proofs `Rattle.other`."""
    found = set()
    for file in (CRATES / name).rglob("*.antt"):
        found |= set(re.findall(r"Rattle\.(\w+)", file.read_text()))
    for file in (CRATES / name).rglob("*.rt"):
        code = re.sub(r"//.*", "", file.read_text())
        found |= set(re.findall(r"Rattle\.(\w+)", code)) | set(re.findall(r"(?<![\w:.])(\w+)::", code))
    return {c for c in found if c in crates and c != name}


def of_crates(crates):
    """Folders, lines and what the sources cite."""
    folders = {p.name for p in CRATES.iterdir() if p.is_dir()}
    for name in sorted(folders ^ set(crates)):
        yield f"{name}: " + ("no line in crates.txt" if name in folders else "no folder")
    for name in sorted(folders & set(crates)):
        deps, uses = set(crates[name]), cited(name, crates)
        for c in sorted(uses - deps):
            yield f"{name}: cites {c}, which its line does not name"
        for c in sorted(deps - uses):
            if not any(c in crates[d] for d in deps):
                yield f"{name}: its line names {c}, which neither it nor a crate that it names cites"


def of_page(crates, page):
    """The levels drawn, the crates and the edits that the page names."""
    if block(crates) not in page:
        yield "ARCHITECTURE: the levels drawn there are not those of crates.txt"
    for name in crates:
        if f"`{name}`" not in page:
            yield f"ARCHITECTURE: nothing is said of {name}"
    for edit in sorted(CRATES.glob("*/must-fail/*.edit")):
        if f"`{edit.parts[-3]}/{edit.stem}`" not in page:
            yield f"ARCHITECTURE: no table names the edit {edit.parts[-3]}/{edit.stem}"


def of_names(page):
    """What the tables of the page name: definitions, functions, edits, samples."""
    rows = "\n".join(line for line in page.splitlines() if line.startswith("|"))
    for name, path in re.findall(r"`(\S+)` in `(\w+/specs/\w+)`", rows):
        file = CRATES / f"{path}.antt"
        if not file.exists() or not re.search(rf"(^|\s){re.escape(name)}\b.*[:=]", file.read_text(), re.M):
            yield f"ARCHITECTURE: {path} does not define {name}"
    functions = set(re.findall(r"`([a-z]\w*)::(?:\w+::)?(\w+)`", rows))
    for crate, name in sorted(functions):
        sources = "\n".join(f.read_text() for f in (CRATES / crate / "src").glob("*.rt"))
        if not re.search(rf"\bfn {name}\b", sources):
            yield f"ARCHITECTURE: {crate} has no function {name}"
    for crate, name in set(re.findall(r"`(\w+)/([a-z_0-9]+)`", rows)):
        if not (CRATES / crate / "must-fail" / f"{name}.edit").exists():
            yield f"ARCHITECTURE: there is no edit {crate}/{name}"
    for name in set(re.findall(r"`(\d\d-[\w-]+)`", rows)):
        if not (ROOT / "samples" / f"{name}.sheet").exists():
            yield f"ARCHITECTURE: there is no sample {name}"
    numbers = {int(n) for n in re.findall(r"^\| (\d+) \|", page, re.M)}
    faults = {int(n) for f in CRATES.glob("*/specs/*.antt") for n in re.findall(r"\(fault (\d+) ", f.read_text())}
    for n in sorted(faults - numbers):
        yield f"ARCHITECTURE: the table of refusals has no row {n}"


def main(words):
    crates = listed()
    if words == ["--write"]:
        page = PAGE.read_text()
        PAGE.write_text(page[: page.index(START)] + block(crates) + page[page.index(END) + len(END) :])
    elif words == ["--check"]:
        page = PAGE.read_text()
        said = [*of_crates(crates), *of_page(crates, page), *of_names(page)]
        print("\n".join(said) if said else f"{len(crates)} crates: crates.txt, sources and docs/ARCHITECTURE.md agree")
        return 1 if said else 0
    elif words:
        sys.exit(__doc__)
    else:
        print(drawn(crates))
    return 0


if __name__ == "__main__":
    sys.exit(main(sys.argv[1:]))
