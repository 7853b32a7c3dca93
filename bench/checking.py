#!/usr/bin/env python3
"""Times `polyanna check` on reports with long logs beside `wc -lw` on the same files, in one run.

    bench/checking.py        makes the inputs in a temporary folder, and prints a line for each

A log has 1, 3 or 9 million valid steps, most of them alike: a step without a case, of 16 bytes, or a step by a
variable with two references; or 200,000 steps by a constraint of 128 rows, each with as many references to a step
whose nogood has three pairs. Each line has the seconds of both programs (the best of three), bytes and steps in a
second, and the memory. A report of which nothing is judged, since its item is that of an instance with another name,
tells what reading alone takes.

Wanted: 9 million steps of 16 bytes within 4 s and 1 GB, and 200 MB a second of reading alone.
"""
import itertools
import os
import sys
import tempfile

from read import PROGRAM, memory, seconds

TRIANGLE = b"""polyanna 1
domain 2
relation neq 2
tuple 0 1
tuple 1 0
instance tri x y z
constraint neq x y
constraint neq y z
constraint neq z x
end
"""
# a log that refutes the triangle: its steps before the last, and the last
BEFORE = b"""c 0 2 0 0 1 0 0
c 0 2 0 1 1 1 0
c 1 2 1 0 2 0 0
c 1 2 1 1 2 1 0
c 2 2 0 0 2 0 0
c 2 2 0 1 2 1 0
v 1 2 0 0 2 1 2 0 3
v 2 1 0 0 2 4 6
v 1 2 0 1 2 0 2 2 1
v 2 1 0 1 2 8 5
"""
LAST = b"v 0 0 2 7 9\n"
SECONDS = 4
MEMORY = 1 << 30
READING = 200e6


def logged(name, step):
    """A maker of a file with a report whose log has so many steps, most of them this one."""

    def make(path, steps):
        with open(path, "wb") as out:
            out.write(TRIANGLE)
            out.write(b"polyanna-report 1\ninstance %s no majority %d\n" % (name, steps))
            out.write(BEFORE)
            left = steps - BEFORE.count(b"\n") - 1
            for first in range(0, left, 1 << 16):
                out.write(step * min(1 << 16, left - first))
            out.write(LAST)
            out.write(b"end\n")

    return make


def wide(path, steps):
    """A file with a report whose log has so many steps by a constraint of 128 rows and two by one without rows. Each of
    the many has a nogood of three pairs, which is that of the first step, so that each row's reference leads there."""
    rows = list(itertools.islice(itertools.product(range(3), repeat=5), 128))
    with open(path, "wb") as out:
        out.write(b"polyanna 1\ndomain 3\nrelation never 1\nrelation wide 5\n")
        out.write(b"".join(b"tuple %s\n" % b" ".join(b"%d" % v for v in row) for row in rows))
        out.write(b"instance w a b c d e x y z\nconstraint never a\nconstraint wide a b c d e\nend\n")
        out.write(b"polyanna-report 1\ninstance w no nu4 %d\n" % (steps + 2))
        out.write(b"c 0 3 5 0 6 0 7 0 0\n")
        out.write(b"c 1 3 5 0 6 0 7 0 128%s\n" % (b" 0" * 128) * steps)
        out.write(b"c 0 0 0\nend\n")


def main():
    if not os.access(PROGRAM, os.X_OK):
        sys.exit("bench: build the program first, by ./polyanna")
    failed = False
    alike = logged(b"tri", b"c 0 2 0 0 1 0 0\n")
    unread = logged(b"other", b"c 0 2 0 0 1 0 0\n")
    chosen = logged(b"tri", b"v 1 2 0 0 2 1 2 0 3\n")
    with tempfile.TemporaryDirectory() as folder:
        for name, make, steps in [
            ("steps without a case", alike, 1_000_000),
            ("steps without a case", alike, 3_000_000),
            ("steps without a case", alike, 9_000_000),
            ("the same, not judged", unread, 9_000_000),
            ("steps by a variable", chosen, 9_000_000),
            ("steps of 128 cases", wide, 200_000),
        ]:
            path = os.path.join(folder, "input")
            make(path, steps)
            size = os.path.getsize(path)
            ours = seconds([PROGRAM, "check"], path)
            theirs = seconds(["wc", "-lw"], path)
            used = memory([PROGRAM, "check"], path)
            good = (ours <= SECONDS and used <= MEMORY) or make in (chosen, wide)
            if make is unread:
                good = good and size / ours >= READING
            failed |= not good
            print(
                f"{name}: {steps} steps, {size / 1e6:.0f} MB in {ours:.3f} s, wc -lw {theirs:.3f} s, "
                f"{size / ours / 1e6:.0f} MB and {steps / ours / 1e6:.2f} million steps a second, "
                f"{used / 1e6:.0f} MB of memory{'' if good else '  MISSED'}"
            )
    sys.exit(1 if failed else 0)


if __name__ == "__main__":
    main()
