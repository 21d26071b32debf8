"""Makes the two glft.rs that the oracle is built from, out of the published file.

    python3 route.py GLFT FOLDER

FOLDER/platform.rs is the file as published, without its tests, if it has any. FOLDER/routed.rs has its
elementary calls led to document 01's functions (elementary.rs), a call that counts each finished step,
and one that counts each rebalancing. Both end in a line that adds the child module inside.rs. Every
change is counted, so a file that is not the expected one is refused.
"""
import pathlib
import re
import sys

CALLS = {"exp": 3, "ln": 2, "ln_1p": 2, "sqrt": 1, "ceil": 1}
COUNTED = {
    "budget = budget.saturating_sub(1);": " crate::count::step();",
    "if steps > 0 && min < REBALANCE_FLOOR {": " crate::count::rebalancing();",
}


def routed(text):
    for name, times in CALLS.items():
        text, n = re.subn(r"\.%s\(\)" % name, ".routed_%s()" % name, text)
        if n != times:
            sys.exit("route.py: %d calls of %s, and not %d" % (n, name, times))
    for place, added in COUNTED.items():
        if text.count(place) != 1:
            sys.exit("route.py: not once: " + place)
        text = text.replace(place, place + added)
    return text + "\nuse crate::elementary::Routed as _;\n"


def main():
    published = pathlib.Path(sys.argv[1]).read_text().split("\n#[cfg(test)]")[0]
    folder = pathlib.Path(sys.argv[2])
    child = '\n#[path = "../inside.rs"]\npub mod inside;\n'
    (folder / "platform.rs").write_text(published + child)
    (folder / "routed.rs").write_text(routed(published) + child)


if __name__ == "__main__":
    main()
