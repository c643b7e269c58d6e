"""Holds the stack of each function, from the table that bench/bench.c prints, to the bounds in the header and in the man page.

Called with the file that has the table. The last line is 'N passed, M failed'.
"""

import re
import sys

HEADER, MAN = "include/duchrelin.h", "man/duchrelin.3"


def plain(path):
    """The words of a page, without the marks of comments and of troff."""
    text = open(path, encoding="utf-8").read()
    text = re.sub(r"^ \* ", "", text, flags=re.M)
    text = re.sub(r"^\.BR (\w+) \(\)$", r"\1", text, flags=re.M)
    return " ".join(text.split())


def bounds(path):
    """What a page promises: bytes for the route, bytes for each other function."""
    said = re.findall(r"duchrelin_route takes less than (\d+) KiB of stack, each other function less than (\d+) KiB\.", plain(path))
    return [tuple(1024 * int(number) for number in pair) for pair in said]


def main(table):
    measured = dict(re.findall(r"^\| (\w+) \| (\d+) \|", open(table, encoding="utf-8").read(), flags=re.M))
    declared = re.findall(r"^duchrelin_\w+ duchrelin_(\w+)\(", open(HEADER, encoding="utf-8").read(), flags=re.M)
    said = bounds(HEADER)
    tests = [
        ("the header says it once", len(said) == 1),
        ("the man page says the same", bounds(MAN) == said),
        ("every function of the header is measured, and no other", sorted(measured) == sorted(declared)),
    ]
    for route, other in said:
        for name, touched in measured.items():
            bound = route if name == "route" else other
            print(f"{name}: {touched} bytes, less than {bound}")
            tests.append((f"the stack of {name}", int(touched) < bound))
        # What measures nothing would pass all of these: the local memory of a sum alone is 130 numbers.
        tests.append(("the measurement sees local memory", int(measured.get("sum", 0)) >= 130 * 8))
    failed = [name for name, good in tests if not good]
    for name in failed:
        print(f"FAILED {name}")
    print(f"{len(tests) - len(failed)} passed, {len(failed)} failed")
    return 1 if failed else 0


if __name__ == "__main__":
    sys.exit(main(sys.argv[1]))
