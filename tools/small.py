#!/usr/bin/env python3
"""What the program `small` has to write, by another way: small.py SCRIPTS | small.py PRINT

The sets come from Python's own combinations. `scripts` writes a script a line, as the oracle takes them; `print` reads the oracle's
out cells, a line for each, and writes the text. tools/small joins the two and compares."""
import itertools
import sys

HEADER = "512 4096 2 2 100"
SOLVE = "2 0 1000000"
VERDICTS = {0: "TRUE", 1: "FALSE"}


def clauses(v):
    """Each clause without a variable twice, by length, then by literal numbers."""
    found = []
    for k in range(1, v + 1):
        found += [c for c in itertools.combinations(range(2 * v), k) if len({l // 2 for l in c}) == k]
    assert len(found) == 3**v - 1
    return found


def sets(v):
    """Each set of at most three, by size, then by its clauses."""
    return [s for k in range(4) for s in itertools.combinations(clauses(v), k)]


def satisfiable(v, s):
    """Whether some row makes a literal of each clause true, by trying all."""
    return any(all(any((row >> l // 2) & 1 == l & 1 for l in c) for c in s) for row in range(2**v))


def scripts():
    for v in (1, 2, 3):
        for s in sets(v):
            records = "".join(f" 1 {len(c)} {' '.join(map(str, c))}" for c in s)
            print(f"{v} {HEADER}{records} {SOLVE}")


def text(lines):
    for v in (1, 2, 3):
        conflicts = []
        for s in sets(v):
            cells = [int(x) for x in next(lines).split()]
            answer, n = cells[len(s)], cells[len(s) + 1]
            assert (answer == 0) == satisfiable(v, s), s
            print(f"answer={VERDICTS[answer]}\nconflicts={n}")
            conflicts.append(n)
        print(f"most={max(conflicts)} {conflicts.index(max(conflicts)) + 1}")
    assert next(lines, None) is None


if sys.argv[1:] == ["scripts"]:
    scripts()
elif sys.argv[1:] == ["print"]:
    text(iter(sys.stdin))
else:
    sys.exit(__doc__)
