"""The public items of glft.rs, each of which is to have its row in docs/DIFFERENCES.md."""
import glob
import os
import re

from asked import HERE

SOURCES = os.path.join(HERE, "..", "..", "crates", "*", "src", "*.rt")
SECTION = re.compile(r"^## Public items\n(.*?)(?=^## |\Z)", re.M | re.S)
ITEM = re.compile(r"^ *pub(?:\(crate\))? (?:(?:const|struct|enum|fn) (\w+)|(\w+):)", re.M)
ENUM = re.compile(r"^pub enum \w+ \{\n(.*?)^\}", re.M | re.S)
PART = re.compile(r"^ +(\w+)(?:\(| \{|:)", re.M)
DERIVED = re.compile(r"derive\(([^)]*)\)")


def public(glft):
    """Items, fields, variants and derived traits."""
    names = [a or b for a, b in ITEM.findall(glft)]
    for body in ENUM.findall(glft):
        names += PART.findall(body)
    for traits in DERIVED.findall(glft):
        names += traits.split(", ")
    return set(names)


def quoted(text):
    """The last word of each name in backticks."""
    return {re.findall(r"\w+", name)[-1] for name in re.findall(r"`([^`]+)`", text)}


def missing(glft, document):
    """How many items there are; and those with no row, and names of ours that are no name in crates/*/src."""
    section = SECTION.search(document)[1]
    rows = [row.split("|")[1:-1] for row in section.splitlines() if row.startswith("| ")]
    sources = "".join(open(path).read() for path in glob.glob(SOURCES))
    ours = set().union(*(quoted(cells[1] + cells[0] * ("the same" in cells[1])) for cells in rows))
    items = public(glft)
    absent = items - set().union(*(quoted(cells[0]) for cells in rows))
    return len(items), sorted(absent) + sorted(ours - set(re.findall(r"\w+", sources)))
