#!/usr/bin/env python3
"""Tells where the tables of docs/CRATES.md and the sources differ in what a crate uses directly.

    python3 tools/uses.py

Code is what `use` items of src/ name, tests apart; besides is what only clauses, specs and proofs name.
"""
import pathlib
import re

ROOT = pathlib.Path(__file__).resolve().parent.parent
CRATES = {line.split(":")[0].strip() for line in (ROOT / "crates.txt").read_text().splitlines() if ":" in line}


def named(folder, kind, pattern):
    """The other crates that files of one kind name, tests apart."""
    found = set()
    for path in (ROOT / "crates" / folder).rglob(kind):
        inside = path.relative_to(ROOT / "crates" / folder)
        if inside.parts[0] != "out" and path.stem != "tests":
            found |= set(re.findall(pattern, path.read_text(), re.M)) & CRATES
    return found - {folder}


def uses(crate):
    modules = {path.stem for path in (ROOT / "crates" / crate / "src").rglob("*.rt")}
    code = named(crate, "*.rt", r"^\s*(?:pub )?use (\w+)::") - modules
    besides = named(crate, "*.rt", r"Rattle\.(\w+)\.") | named(crate, "*.antt", r"Rattle\.(\w+)\.")
    return code, besides - code


def words(cell):
    return {word.strip() for word in cell.split(",")} - {"", "–"}


told = set()
for row in re.findall(r"^\| `(\w+)` \|.*\|(.*)\|(.*)\|$", (ROOT / "docs" / "CRATES.md").read_text(), re.M):
    crate, code, besides = row
    told.add(crate)
    for what, page, source in zip(("code", "besides"), (words(code), words(besides)), uses(crate)):
        if page != source:
            print(f"{crate}, {what}: only on the page {sorted(page - source)}, only in the sources {sorted(source - page)}")
page = (ROOT / "docs" / "CRATES.md").read_text()
for crate in sorted(CRATES - told):
    if f"`{crate}`" not in page:
        print(f"{crate}: not on the page")
