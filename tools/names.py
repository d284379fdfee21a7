#!/usr/bin/env python3
"""Names and numbers of refusals: tools/model.py, include/igvm.h, the Rust crate, docs/REFUSALS.md and samples must agree; those of the answers of
base checks and of ranges: library, header, crate, README.md, docs/SHEET.md and samples; the calls: header, crate and README.md; the numbers of a report:
header, crate, README.md and docs/SHEET.md; the words of an index: header, crate, pages; the limits of include/igvm.h are those of SheetHead; and header, crate and docs/CHANGELOG.md have one version."""
import pathlib
import re
import sys

import model

top = pathlib.Path(__file__).resolve().parent.parent


def read(path):
    return (top / path).read_text()


def words(name):
    """A name in the form of the C header: RelocationSize is RELOCATION_SIZE."""
    return re.sub(r"(?<!^)(?=[A-Z])", "_", name).upper()


rust = read("bindings/rust/src/refusal.rs")
rust = {int(n): name for n, name in re.findall(r"^\s+(\d+) (\w+)\b", rust[rust.index("errors! {"):], re.M)}
header = read("include/igvm.h")
c = {int(n): name for name, n in re.findall(r"IGVM_ERROR_(\w+) = (\d+)", header)}
pages = {int(n): name for n, name in re.findall(r"^### (\d+) (\w+)$", read("docs/REFUSALS.md"), re.M)}
wrong = []
if tuple(rust) != model.REFUSALS:
    wrong.append("the crate's refusals are not those of tools/model.py")
if c != {n: words(name) for n, name in rust.items()}:
    wrong.append("the refusals of include/igvm.h are not the crate's")
if pages != rust:
    wrong.append("the headings of docs/REFUSALS.md are not the crate's names")
for n in rust:
    if not list((top / "samples").glob(f"{n:02}-*.sheet")):
        wrong.append(f"samples has no sheet for {n}")


def answers_of(what, enum, library, prefix, call, table, sample):
    """How many answers a check has: BelowMinimum of the crate's enum is BELOW_MINIMUM in the header, behind IGVM_ and the prefix, and "below the minimum" in the
    crate's text and on the pages. The call has its line in README.md, and docs/SHEET.md a table of this head."""
    crate = read(f"bindings/rust/src/{words(enum).lower()}.rs")
    answers = {int(n): name for name, n in re.findall(rf"{enum}::(\w+) => (\d+),", crate)}
    texts = {n: re.search(rf'{enum}::{name} => "(.*)",', crate).group(1) for n, name in answers.items()}
    if answers != {int(n): name for name, n in re.findall(rf"{enum}::(\w+) => (\d+),", read(f"crates/{library}/src/lib.rt"))}:
        wrong.append(f"the crate's answers of {what} are not those of {library}::{enum}")
    answers = {n: words(name) for n, name in answers.items()}
    in_header = re.search(rf"enum \{{ (IGVM_{prefix}_{answers[1]} = [^}}]*) \}};", header).group(1)
    in_readme = re.search(rf"^\| `{call}` \| 0 to 2; 3: (.*) \|$", read("README.md"), re.M).group(1)
    in_page = read("docs/SHEET.md").partition(f"\n{table}\n")[2].partition("\n\n")[0]
    if list(answers) != list(range(1, len(answers) + 1)):
        wrong.append(f"the crate's answers of {what} are not 1, 2, ..")
    if answers != {n: text.upper().replace(" THE ", "_") for n, text in texts.items()}:
        wrong.append(f"the crate's answers of {what} have other names in words")
    if answers != {int(n): name for name, n in re.findall(rf"IGVM_{prefix}_(\w+) = (\d+)", in_header)}:
        wrong.append(f"the answers of {what} in include/igvm.h are not the crate's")
    if answers != {int(n): name for n, name in re.findall(rf"^ \* +(\d) IGVM_{prefix}_(\w+) ", header, re.M)}:
        wrong.append(f"the answers of {what} in the comments of include/igvm.h are not the crate's")
    if texts != {int(n): text for n, text in re.findall(r"(\d) ([a-z ]+)", in_readme)}:
        wrong.append(f"the answers of {what} in the table of README.md are not the crate's")
    if texts != {int(n): text for n, text in re.findall(r"^\| (\d) \| ([a-z ]+) \|", in_page, re.M)}:
        wrong.append(f"the answers of {what} in docs/SHEET.md are not the crate's")
    for n, name in answers.items():
        if not (top / "samples" / f"{sample}-{n}-{name.lower().replace('_', '-')}.sheet").exists():
            wrong.append(f"samples has no sheet for answer {n} of {what}")
    return len(answers)


checks = answers_of("the base check", "BaseCheck", "addresses", "BASE", "igvm_relocation_base_valid", "| number 3 | answer | when |", "base")
ranges = answers_of("the range check", "BaseRange", "base_ranges", "RANGE", "igvm_relocation_base_range",
                    "| number 3 | answer | when, of the multiples in the range |", "range")

# The calls. README.md has those with a sibling by one line, and says of them that there are so many.
declared = set(re.findall(r"^uint64_t (igvm_\w+)\(", header, re.M))
if declared != set(re.findall(r"pub fn (igvm_\w+)\(", read("bindings/rust/src/calls.rs"))):
    wrong.append("the calls that the crate links are not those of include/igvm.h")
listed = set(re.findall(r"^\| `(igvm_\w+)` \|", read("README.md"), re.M))
siblings = {name for name in listed if f"{name}_numbers" in declared}
if declared != listed | {f"{name}_numbers" for name in siblings}:
    wrong.append("the calls in the table of README.md are not those of include/igvm.h")
count = {7: "seven", 8: "eight", 9: "nine", 10: "ten"}[len(siblings)]
if f"\n| each of the {count} with `_numbers` |" not in read("README.md"):
    wrong.append(f"README.md does not say that {count} calls have a sibling")

# The numbers of a report: no_platform of the crate is NO_PLATFORM in the header, and "no platform" on the pages.
report = {int(n): name for name, n in re.findall(r"IGVM_(\w+) = (\d)", re.search(r"enum \{ (IGVM_NO_PLATFORM = .*), IGVM_REPORT_NUMBERS = 7 \};", header).group(1))}
crate = read("bindings/rust/src/report.rs")
fields = re.findall(r"^    pub (\w+): ", re.search(r"^pub struct Reported \{\n(.*?)^\}", crate, re.M | re.S).group(1), re.M)
if list(report) != [3, 4, 5, 6] or sorted(report.values()) != sorted(name.upper() for name in fields):
    wrong.append("the numbers of a report in include/igvm.h are not the fields of the crate's Reported")
texts = {n: name.lower().replace("_", " ") for n, name in report.items()}
if f"let [_, _, _, {', '.join(name.lower() for name in report.values())}] = " not in crate:
    wrong.append("the crate reads the numbers of a report in another order than include/igvm.h has them")
in_readme = re.search(r"^\| `igvm_report` \| 0 to 2; (.*?)\. ", read("README.md"), re.M).group(1)
if texts != {int(n): text.strip() for n, text in re.findall(r"(\d) ([a-z][a-z ]*)", re.sub(r"\([^)]*\)", "", in_readme))}:
    wrong.append("the numbers of a report in the table of README.md are not those of include/igvm.h")
in_page = read("docs/SHEET.md").partition("\n## Words of a report\n")[2].partition("\n## ")[0]
if texts != {int(n): text for n, text in re.findall(r"^\| (\d) \| ([a-z ]+)[:|,]", in_page, re.M)}:
    wrong.append("the numbers of a report in docs/SHEET.md are not those of include/igvm.h")

# The words of an index: start of the crate's IndexedRegion is the first word of three.
crate = read("bindings/rust/src/region_index.rs")
fields = re.findall(r"^    pub (\w+): ", re.search(r"^pub struct IndexedRegion \{\n(.*?)^\}", crate, re.M | re.S).group(1), re.M)
in_page = read("docs/SHEET.md").partition("\n## Words of an index\n")[2].partition("\n## ")[0]
if fields != [what for k, at, what in re.findall(r"^\| (\d) \| 24j(?: \+ (\d+))? \| (\w+) \|", in_page, re.M) if int(at or 0) == 8 * int(k)]:
    wrong.append("the words of an index in docs/SHEET.md are not the fields of the crate's IndexedRegion")
if f"IGVM_REGION_INDEX_WORDS = {len(fields)}," not in header or f"REGION_INDEX_BYTES: usize = {8 * len(fields)};" not in crate:
    wrong.append("a region of an index has other words in include/igvm.h, or bytes in the crate, than fields")

limits = dict(re.findall(r"pub const (\w+): usize = (\d+);", read("crates/sheet/src/lib.rt")))
for name in ("PLATFORM_ROWS", "INITIALIZATION_ROWS", "DIRECTIVE_ROWS", "SHEET_BYTES"):
    if f"IGVM_MAX_{name} = {limits.get(name)}," not in header:
        wrong.append(f"IGVM_MAX_{name} of include/igvm.h is not SheetHead::{name}")
most_rows = sum(int(limits[f"{name}_ROWS"]) for name in ("PLATFORM", "INITIALIZATION", "DIRECTIVE"))
for path in ("bindings/rust/src/report.rs", "bindings/rust/src/refusal.rs", "docs/REFUSALS.md", "docs/SHEET.md"):
    if f"{8 * most_rows:,}" not in read(path):
        wrong.append(f"{path} does not say that {8 * most_rows:,} bytes are enough for a report")
index_bytes = f"{8 * len(fields) * int(limits['INITIALIZATION_ROWS']):,}"
for path in ("include/igvm.h", "bindings/rust/src/region_index.rs", "bindings/rust/src/refusal.rs", "docs/REFUSALS.md", "docs/SHEET.md"):
    if index_bytes not in read(path):
        wrong.append(f"{path} does not say that {index_bytes} bytes are enough for an index")
version = ".".join(re.findall(r"IGVM_VERSION_\w+ = (\d+)", header))
if f'\nversion = "{version}"\n' not in read("bindings/rust/Cargo.toml"):
    wrong.append(f"{version} of include/igvm.h is not the crate's version")
if re.search(r"^## (\S+):", read("docs/CHANGELOG.md"), re.M).group(1) != version:
    wrong.append(f"{version} of include/igvm.h is not the first of docs/CHANGELOG.md")
for line in wrong:
    print(line)
if wrong:
    sys.exit(1)
print(f"{len(rust)} refusals, {len(declared)} calls, {checks} answers of the base check, {ranges} of the range check, {len(report)} numbers of a report, {len(fields)} words of an index, {len(limits)} limits, "
      f"version {version}: header, crate, pages and samples agree")
