"""Holds the pages to the source, a test for each thing that a page promises:
- each theorem that LAWS.md names stands in the file that its row names;
- each definition and theorem that COVERAGE.md names stands in the file in brackets behind it, and each edit in a must-fail/;
- each public function has its line in CONTRACTS.md;
- each path that a page names is there;
- each crate is in the README's list, and each page of docs/.
The last line is 'N passed, M failed'."""
import glob
import os
import re
import sys

passed = 0
failed = 0


def test(name, faults):
    """One test: it holds where there are no faults."""
    global passed, failed
    if not faults:
        passed += 1
        return
    failed += 1
    print(f"FAILED {name}")
    for fault in faults:
        print(f"  {fault}")


def read(path):
    with open(path, encoding="utf-8") as file:
        return file.read()


def declares(text, name):
    marks = r"(?:(?:unfoldable|abbrev|pub|record|data) )*"
    return re.search(r"^\s*" + marks + re.escape(name) + r"(?:\s|$)", text, flags=re.M) is not None


top = "crates/meaning/proofs/"
proofs = {p[len(top):-len(".antt")]: read(p) for p in glob.glob(top + "**/*.antt", recursive=True)}
specs = {p: read(p) for p in glob.glob("crates/*/specs/*.antt")}
others = {p: read(p) for p in glob.glob("crates/*/proofs/*.antt") if not p.startswith(top)}
everything = "\n".join(list(proofs.values()) + list(specs.values()) + list(others.values()))

laws = read("docs/LAWS.md")
test(
    "every name in docs/LAWS.md is declared",
    [n for n in sorted(set(re.findall(r"`([A-Za-z][\w-]*)`", laws))) if not declares(everything, n)],
)
misplaced = []
rows = 0
for row in re.findall(r"^\|(.*)\|$", laws, flags=re.M):
    cells = [cell.strip() for cell in row.split("|")]
    files = re.split(r",\s*", cells[-1])
    if len(cells) == 3 and all(file in proofs for file in files):
        rows += 1
        for name in re.findall(r"`([a-z][\w-]*)`", cells[1]):
            if not any(declares(proofs[file], name) for file in files):
                misplaced.append(f"{name} does not stand in {cells[-1]}")
test("every theorem stands in the file that docs/LAWS.md names", misplaced or ([] if rows > 20 else ["no rows with files"]))

# A group of names and the file that they stand in: `one`, `two` (Outcome/Outcomes).
coverage = read("docs/COVERAGE.md")
places = {os.path.basename(p)[:-len(".antt")]: text for p, text in specs.items() if p.startswith("crates/meaning/")}
misplaced = []
named = 0
for words, file in re.findall(r"((?:`[^`|]+`[^`|()]{0,40}?)+)\(([A-Za-z]+(?:/[A-Za-z]+)?)\)", coverage):
    texts = [t for t in (proofs.get(file), places.get(file)) if t is not None]
    for name in re.findall(r"`([\w◌-]+)`", words) if texts else []:
        named += 1
        if not any(declares(t, name) for t in texts):
            misplaced.append(f"{name} does not stand in {file}")
test("every name in docs/COVERAGE.md stands in its file", misplaced or ([] if named > 300 else ["no names with files"]))
edits = {os.path.basename(p)[:-len(".edit")] for p in glob.glob("crates/*/must-fail/*.edit")}
told = [e for words in re.findall(r"[;|] edits? ([\w, -]+?) \|", coverage) for e in words.split(", ")]
test("every edit that docs/COVERAGE.md names is there", [e for e in told if e not in edits] or ([] if told else ["no edits"]))

# A function is named in full, or after a comma by what follows the last name's crate and module.
contracts = read("docs/CONTRACTS.md")
missing = []
functions = 0
for path in sorted(glob.glob("crates/*/src/*.rt")):
    crate = path.split("/")[1]
    for name in re.findall(r'^\s*pub (?:extern "C" )?fn (\w+)', read(path), flags=re.M):
        functions += 1
        told = name if crate != "duchrelin" else name[len("duchrelin"):]
        if not re.search(r"(?:`|::)(?:duchrelin)?" + re.escape(told) + r"`", contracts):
            missing.append(f"{path}: {name}")
test("every public function has its line in docs/CONTRACTS.md", missing or ([] if functions > 20 else ["no functions found"]))

pages = ["README.md"] + sorted(glob.glob("docs/**/*.md", recursive=True))
for page in pages:
    absent = []
    for path in sorted(set(re.findall(r"`((?:crates|docs|tests|include|bench|examples|specs|programs|man)/[\w./*-]*)`", read(page)))):
        place = path if not path.startswith("specs/") else "crates/meaning/" + path
        if not glob.glob(place):
            absent.append(path)
    test(f"every path that {page} names is there", absent)

readme = read("README.md")
crates = re.findall(r"^(\w+)(?: staticlib)?:", read("crates.txt"), flags=re.M)
test("the README names every crate", [c for c in crates if f"crates/{c}" not in readme])
test(
    "the README names every page of docs/",
    [p for p in sorted(glob.glob("docs/*.md")) if os.path.basename(p)[:-3] not in readme],
)

print(f"{passed} passed, {failed} failed")
sys.exit(1 if failed else 0)
