#!/usr/bin/env python3
"""Times `polyanna report` on large inputs beside `wc -lw` on the same files, in one run.

    bench/read.py            makes the inputs in a temporary folder, and prints a line for each

Each line has the seconds of both (the best of three), their ratio, and the program's memory over the input's size.
Wanted: within 10 times `wc -lw` or 50 ms, whichever is more, and at most 4 times the input's size of memory. The
memory at an input below 16 MiB is not told: what is measured there is the memory of this script, which starts the
program.
"""
import itertools
import os
import subprocess
import sys
import tempfile
import time

TOP = os.path.dirname(os.path.dirname(os.path.abspath(__file__)))
PROGRAM = os.path.join(TOP, "crates", "polyanna", "out", "polyanna")
MOST = 1 << 28


def comment(path, size):
    """A file of so many bytes, of which nearly all are comment lines."""
    head = b"polyanna 1\ndomain 2\nrelation one 1\ntuple 1\n"
    tail = b"end\n"
    line = b"# " + b"nothing to see here, " * 3 + b"\n"
    left = size - len(head) - len(tail)
    with open(path, "wb") as out:
        out.write(head)
        out.write(line * (left // len(line)))
        out.write(b"#" * (left % len(line) - 1) + b"\n" if left % len(line) else b"")
        out.write(tail)


def repeated(path, size):
    """A file of so many bytes or a few less, of which nearly all are tuple lines that repeat 128 tuples."""
    tuples = list(itertools.islice(itertools.product(range(3), repeat=5), 128))
    block = b"".join(b"tuple " + b" ".join(b"%d" % v for v in t) + b"\n" for t in tuples)
    head = b"polyanna 1\ndomain 3\nrelation r 5\n"
    with open(path, "wb") as out:
        out.write(head)
        out.write(block * ((size - len(head) - 4) // len(block)))
        out.write(b"end\n")


def largest(path):
    """A file at the limits: 32 relations of 40 tuples, whose cubes make 2,048,000, and 8 instances of 40 variables
    with 256 constraints each, all names of 32 bytes."""
    tuples = list(itertools.islice(itertools.product(range(3), repeat=5), 40))
    names = ["x" * 29 + f"{x:03}" for x in range(40)]
    with open(path, "w") as out:
        out.write("polyanna 1\ndomain 3\n")
        for r in range(32):
            out.write(f"relation {'r' * 29}{r:03} 5\n")
            for t in tuples:
                out.write("tuple " + " ".join(map(str, t)) + "\n")
        for i in range(8):
            out.write(f"instance {'i' * 29}{i:03} " + " ".join(names) + "\n")
            for c in range(256):
                scope = " ".join(names[(7 * c + 11 * k) % 40] for k in range(5))
                out.write(f"constraint {'r' * 29}{c % 32:03} {scope}\n")
        out.write("end\n")


def seconds(command, path):
    best = None
    for _ in range(3):
        with open(path, "rb") as source:
            begin = time.perf_counter()
            subprocess.run(command, stdin=source, stdout=subprocess.DEVNULL, check=False)
            spent = time.perf_counter() - begin
        best = spent if best is None else min(best, spent)
    return best


def memory(command, path):
    """The most memory of the command, in bytes."""
    child = os.fork()
    if child == 0:
        with open(path, "rb") as source:
            os.dup2(source.fileno(), 0)
        os.dup2(os.open(os.devnull, os.O_WRONLY), 1)
        os.execv(command[0], command)
    _, _, used = os.wait4(child, 0)
    return used.ru_maxrss * 1024


def main():
    if not os.access(PROGRAM, os.X_OK):
        sys.exit("bench: build the program first, by ./polyanna")
    failed = False
    with tempfile.TemporaryDirectory() as folder:
        for name, make in [
            ("2^28 bytes, most of them comment", lambda p: comment(p, MOST)),
            ("2^28 + 1 bytes", lambda p: comment(p, MOST + 1)),
            ("2^28 bytes of repeated tuples", lambda p: repeated(p, MOST)),
            ("a file at the limits", largest),
        ]:
            path = os.path.join(folder, "input")
            make(path)
            size = os.path.getsize(path)
            ours = seconds([PROGRAM, "report"], path)
            theirs = seconds(["wc", "-lw"], path)
            times = memory([PROGRAM, "report"], path) / size if size >= 1 << 24 else None
            good = ours <= max(10 * theirs, 0.05) and (times is None or times <= 4)
            failed |= not good
            told = "" if times is None else f", memory {times:.2f} times {size} bytes"
            print(
                f"{name}: {ours:.3f} s, wc -lw {theirs:.3f} s, ratio {ours / theirs:.2f}{told}"
                f"{'' if good else '  MISSED'}"
            )
    sys.exit(1 if failed else 0)


if __name__ == "__main__":
    main()
