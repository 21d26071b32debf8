"""Holds lines of the five elementary functions to reckon.py's.

    python3 compare.py ARGUMENTS LINES...

LINES are files of what reckon.py would write for ARGUMENTS. The first lines that differ are printed, and the
status is then 1.
"""
import itertools
import sys

import reckon

TOLD = 5


def differing(path, lines):
    """How many lines of a file are not the reckoned ones."""
    count = 0
    with open(path) as file:
        for number, (told, ours) in enumerate(itertools.zip_longest(lines, file, fillvalue="none"), 1):
            if ours != told + "\n":
                count += 1
                if count <= TOLD:
                    print("%s, line %d: %s\n  reckon.py: %s" % (path, number, ours.rstrip("\n"), told))
    return count


def main():
    arguments, *files = sys.argv[1:]
    lines = list(reckon.lines(arguments))
    count = sum(differing(path, lines) for path in files)
    print("%d lines in each of %d files, %d differ" % (len(lines), len(files), count))
    sys.exit(1 if count else 0)


if __name__ == "__main__":
    main()
