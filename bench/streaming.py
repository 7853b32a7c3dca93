#!/usr/bin/env python3
"""Times the lines of one `polyanna report` as they come through a pipe: each is written as soon as it is found.

    bench/streaming.py [PROGRAM]    makes the file in a temporary folder, and prints a line for each of three runs

The file is at the limits: 32 relations over five values, and eight instances of 40 variables and 256 constraints. The
relations are the four rotations of the values, triples of two neighbouring values that are not the upper one three
times, and all tuples. They are preserved by an operation of arity four and by none of the other classes, and the search
for it is what the last class lines wait for. Each instance is a ring of rotations through all variables, by steps of
seven, in which one of them, another in each instance, goes back; it is written again until there are 256 constraints.
So the rotations do not close, which arc consistency does not show, and each No has a log of 4,456 steps, to which the
last of some 430,000 leads that the solver made. The longest log that was found, among rings by other steps or at
random, and with other rotations, has 4,486 steps; the families of `solving.py` have some 150. With a PROGRAM, that is
run in the place of the proved one.

Each line has the time from the start to the first class line, to the last one, to the first line of an instance and to
the end, the number of reads of the pipe, the steps and the bytes of the report, and the most memory of the program.

Wanted: in each run the first class line comes by an earlier read than the last one, by at least a millisecond, and the
program ends with status 0 and takes at most 128 MB.
"""
import itertools
import os
import subprocess
import sys
import tempfile
import time

from read import PROGRAM
from solving import few_ones, full

VALUES = 5
VARIABLES = 40
CONSTRAINTS = 256
INSTANCES = 8
RELATIONS = 32
STRIDE = 7
MEMORY = 128e6
SECONDS = 0.001


def relations():
    """The names and the rows of the relations; the last ones have all tuples."""
    shifts = range(VALUES)
    found = [(f"turn{by}", [(value, (value + by) % VALUES) for value in shifts]) for by in shifts[1:]]
    found += [(f"few{by}", [tuple((value + by) % VALUES for value in row) for row in few_ones(3)]) for by in shifts]
    found += [(f"pair{number}", full(VALUES, 2)) for number in range(4)]
    return found + [(f"any{number}", full(VALUES, 1)) for number in range(RELATIONS - len(found))]


def ring(back):
    """The constraints of an instance, of which the one at this place goes back, written again up to the limit."""
    places = [STRIDE * number % VARIABLES for number in range(VARIABLES)]
    pairs = zip(places, places[1:] + places[:1])
    lines = [f"constraint turn{4 if number == back else 1} x{x} x{y}" for number, (x, y) in enumerate(pairs)]
    return list(itertools.islice(itertools.cycle(lines), CONSTRAINTS))


def text():
    lines = ["polyanna 1", f"domain {VALUES}"]
    for name, rows in relations():
        lines.append(f"relation {name} {len(rows[0])}")
        lines += ["tuple " + " ".join(map(str, row)) for row in rows]
    for back in range(INSTANCES):
        lines.append(f"instance i{back} " + " ".join(f"x{number}" for number in range(VARIABLES)))
        lines += ring(back)
    return "\n".join(lines + ["end", ""])


def run(program, path):
    """What was read and when, seconds from the start, with the time of the end, the status, and the most memory."""
    parts = []
    with open(path, "rb") as source:
        begin = time.perf_counter()
        with subprocess.Popen([program, "report"], stdin=source, stdout=subprocess.PIPE) as running:
            while part := os.read(running.stdout.fileno(), 1 << 16):
                parts.append((time.perf_counter() - begin, part))
            _, status, used = os.wait4(running.pid, 0)
            ended = time.perf_counter() - begin
            running.returncode = os.waitstatus_to_exitcode(status)
    return parts, ended, running.returncode, used.ru_maxrss * 1024


def arrivals(parts):
    """Each line that begins with `class` or `instance`, with the time of the read that ended it."""
    found, rest = [], b""
    for when, part in parts:
        *lines, rest = (rest + part).split(b"\n")
        found += [(when, line) for line in lines if line.startswith((b"class ", b"instance "))]
    return found


def main():
    program = os.path.abspath(sys.argv[1]) if len(sys.argv) > 1 else PROGRAM
    if not os.access(program, os.X_OK):
        sys.exit("bench: build the program first, by ./polyanna")
    failed = False
    with tempfile.TemporaryDirectory() as folder:
        path = os.path.join(folder, "input")
        with open(path, "w", encoding="ascii") as out:
            out.write(text())
        for _ in range(3):
            parts, ended, status, used = run(program, path)
            found = arrivals(parts)
            classes = [when for when, line in found if line.startswith(b"class ")]
            answers = [(when, line.split()) for when, line in found if line.startswith(b"instance ")]
            if status != 0 or len(classes) != 7 or len(answers) != INSTANCES:
                sys.exit(f"bench: the run ended with {status}, {len(classes)} class lines and {len(answers)} answers")
            steps = sum(int(words[4]) for _, words in answers if words[2:4] == [b"no", b"nu4"])
            size = sum(len(part) for _, part in parts)
            good = classes[-1] - classes[0] >= SECONDS and used <= MEMORY
            failed |= not good
            print(
                f"first class line {1000 * classes[0]:.1f} ms, last {1000 * classes[-1]:.1f} ms, first answer "
                f"{1000 * answers[0][0]:.1f} ms, end {1000 * ended:.1f} ms, {len(parts)} reads, {steps} steps in "
                f"{size / 1e6:.2f} MB, {used / 1e6:.0f} MB of memory{'' if good else '  MISSED'}",
                flush=True,
            )
    sys.exit(1 if failed else 0)


if __name__ == "__main__":
    main()
