#!/usr/bin/env python3
"""Times `polyanna report` on languages whose class lines are costly, beside the smallest file, in one run.

    bench/classes.py         makes the files in a temporary folder, and prints a line for each

Each line has the processor time of a whole run (the best of three) and that of the smallest file. Each run has 16 MiB
of address space, libraries included, and must end with status 0 in it. Wanted: within a second for each file.

The files at the limits have relations whose cubes of numbers of rows sum to at most 2^21, over five values: one has no
table, one has many, and in one each class has at most one; four are at the limit on vectors of sets, over two to five
values. Then come families of each class, and languages of binary relations that make a search without a fixed order of
cells, or without the cells that failed last, run very long.
"""
import itertools
import os
import random
import resource
import subprocess
import sys
import tempfile

TOP = os.path.dirname(os.path.dirname(os.path.abspath(__file__)))
PROGRAM = os.path.join(TOP, "crates", "polyanna", "out", "polyanna")
MOST_MEMORY = 16 << 20
MOST_SECONDS = 1.0


def text(size, relations):
    """The file of a language: each relation is a list of tuples of one length."""
    lines = ["polyanna 1", f"domain {size}"]
    for number, rows in enumerate(relations):
        lines.append(f"relation r{number} {len(rows[0])}")
        lines += ["tuple " + " ".join(map(str, row)) for row in rows]
    return "\n".join(lines + ["end", ""])


def full(size, arity):
    return list(itertools.product(range(size), repeat=arity))


def constants(size):
    return [[(value,)] for value in range(size)]


def no_table():
    """128 rows at random."""
    return text(5, [random.Random(1).sample(full(5, 4), 128)])


def many_tables():
    """Every operation preserves relations of all tuples."""
    return text(5, [full(5, 3)] + [full(5, 2)] * 9 + [full(5, 1)] * 22)


def medians():
    """Rows that ascend, with the constants: the median preserves them."""
    rows = [row for row in full(5, 4) if list(row) == sorted(row)]
    return text(5, [rows] + constants(5))


def near_unanimity(size):
    """Not all of three are 1, and 0 beside the last value: no majority operation, but one of arity four."""
    rows = [row for row in full(2, 3) if row != (1, 1, 1)]
    return text(size, [rows, [(0, size - 1), (size - 1, 0)]] + constants(size))


def horn(size):
    """The last value is at least the lesser of the others: the minimum preserves it."""
    return text(size, [[(x, y, z) for x, y, z in full(size, 3) if z >= min(x, y)]] + constants(size))


def sums(size):
    """x - y + z = w modulo the size, and each constant."""
    rows = [(x, y, z, (x - y + z) % size) for x, y, z in full(size, 3)]
    return text(size, [rows] + constants(size))


def unequal(size):
    return text(size, [[row for row in full(size, 2) if row[0] != row[1]]])


def random_rows(count):
    return text(5, [random.Random(count).sample(full(5, 4), count)])


def many_sets(size, arity, count, rows):
    """The constant 0 and rows at random in each relation: many vectors of sets, all of which go to 0."""
    tuples = full(size, arity)
    return text(size, [tuples[:1] + random.Random(seed).sample(tuples[1:], rows - 1) for seed in range(count)])


def fourth_powers():
    """The fourth powers of 38 rows are within their limit, and those of 39 are not."""
    return text(2, [full(2, 6)[:38]])


def binary(size, pairs, unary=()):
    rows = [tuple(map(int, pair)) for pair in pairs.split()]
    return text(size, [rows] + [[(value,)] for value in unary])


def families():
    for size in range(2, 6):
        yield f"Horn clauses over {size} values", horn(size)
    for size in (3, 5):
        yield f"arity four over {size} values", near_unanimity(size)
    for size in (2, 3):
        yield f"sums modulo {size}", sums(size)
    for size in (3, 4, 5):
        yield f"inequality of {size} values", unequal(size)
    for count in (16, 32, 64):
        yield f"{count} rows at random", random_rows(count)


def files():
    yield "the smallest file", text(1, [])
    yield "at the limits, no table", no_table()
    yield "at the limits, many tables", many_tables()
    yield "at the limits, one Mal'tsev table", sums(5)
    for size, arity, count, rows in [(2, 6, 32, 40), (3, 6, 17, 49), (4, 5, 2, 101), (5, 4, 2, 101)]:
        yield f"at the limit on sets over {size} values", many_sets(size, arity, count, rows)
    yield "38 rows of six places", fourth_powers()
    yield "70 rows of medians", medians()
    yield from families()
    graph = "00 34 20 30 40 01 43 21 31 24 02 12 14 32 42 03 13 23"
    dear = "00 24 20 30 40 01 11 21 31 41 44 12 34 32 42 03 13 23 33 43 04 14"
    for name, language in [
        ("five arcs and their turns", binary(5, "04 34 41 40 32 13 22 21 30 14")),
        ("a graph and one constant", binary(5, "03 14 23 24 30 32 34 41 42 43", [3])),
        ("a graph and each constant", binary(5, graph, range(5))),
        ("three edges and each constant", binary(5, "03 04 30 34 40 43", range(5))),
        ("sixteen arcs", binary(5, "03 04 12 13 14 21 23 24 30 31 32 34 40 41 42 43")),
        ("the dearest with a table", binary(5, dear, [0, 3])),
    ]:
        yield name, language


def bounded():
    resource.setrlimit(resource.RLIMIT_AS, (MOST_MEMORY, MOST_MEMORY))


def seconds(path):
    """The least processor time of three runs, and the last status."""
    best = None
    for _ in range(3):
        before = resource.getrusage(resource.RUSAGE_CHILDREN)
        with open(path, "rb") as source:
            done = subprocess.run(
                [PROGRAM, "report"], stdin=source, stdout=subprocess.DEVNULL, preexec_fn=bounded, check=False
            )
        after = resource.getrusage(resource.RUSAGE_CHILDREN)
        spent = after.ru_utime + after.ru_stime - before.ru_utime - before.ru_stime
        best = spent if best is None else min(best, spent)
    return best, done.returncode


def main():
    if not os.access(PROGRAM, os.X_OK):
        sys.exit("bench: build the program first, by ./polyanna")
    failed, smallest = False, None
    with tempfile.TemporaryDirectory() as folder:
        path = os.path.join(folder, "input")
        for name, language in files():
            with open(path, "w", encoding="ascii") as out:
                out.write(language)
            spent, status = seconds(path)
            smallest = spent if smallest is None else smallest
            good = spent <= MOST_SECONDS and status == 0
            failed |= not good
            print(
                f"{name}: {1000 * spent:.1f} ms, the smallest file {1000 * smallest:.1f} ms"
                f"{'' if status == 0 else f', status {status}'}{'' if good else '  MISSED'}"
            )
    sys.exit(1 if failed else 0)


if __name__ == "__main__":
    main()
