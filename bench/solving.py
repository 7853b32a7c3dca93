#!/usr/bin/env python3
"""Times `polyanna report` on instances of each class that has a solver, beside their languages alone, in one run.

    bench/solving.py [--made] [FAMILY]    makes the files in a temporary folder, and prints a line for each size of each
                                          family

A file has one instance: 10, 20 or 40 variables and 30 to 256 constraints at random. They are drawn as they come
(`free`), or so that hidden values meet them, and there is a solution (`hidden`); where a relation lets two values take
turns, also with a ring of it, of odd length through half of the variables, and hidden values of the others (`ring`):
there is no solution, and arc consistency does not show it. Of each kind there are three, and the line has their
answers, the most steps or parts that are printed, and the most processor time: that of a whole run (the best of three) less that
of the language without the instance. Each run has so much address space, libraries included, as its class may take, and
must end with status 0 in it. With a FAMILY, those whose names contain it are run alone.

With --made the line also has the most steps that a solver made for a No before its log was trimmed, which no command
tells. A program that is built first, in the temporary folder with copies of the crates, counts them for all instances
with such a No, before anything is timed. It has no contracts and is run by `rt try`, unproved, since no time is taken
from it. That takes half a minute for the build, and some ten minutes for the instances of all families.

Wanted: by arcs (semilattice operations and set functions) an answer within 10 ms, by majority operations within 50 ms,
each in 16 MiB; by operations of arity four within 1 s, in 128 MiB; by affine and Mal'tsev operations within 20 ms, in
16 MiB.
"""
import itertools
import os
import random
import resource
import subprocess
import sys
import tempfile

import building

TOP = os.path.dirname(os.path.dirname(os.path.abspath(__file__)))
PROGRAM = os.path.join(TOP, "crates", "polyanna", "out", "polyanna")
MEBIBYTE = 1 << 20
# the most milliseconds and MiB of the class that answers
LIMITS = {
    "semilattice": (10, 16),
    "set-function": (10, 16),
    "majority": (50, 16),
    "nu4": (1000, 128),
    "affine": (20, 16),
    "maltsev": (20, 16),
}
# the cubes of the numbers of rows of a language sum to at most 2^21
MOST_ROWS = 100
SIZES = [(10, 30), (10, 60), (20, 30), (20, 60), (20, 120), (40, 30), (40, 60), (40, 120), (40, 256)]
# what the program that counts uses, and its src/main.rt
USED = "pol_base pol_outside pol_relation pol_optable pol_classify pol_nogood pol_lang pol_arc pol_strong".split()
COUNTER = """//! Writes of each instance of a file how many steps the log of its No has before it is trimmed.
#![tactic(auto)]

use pol_arc::{Consistency, arc};
use pol_base::{ClassName, NoMemory};
use pol_classify::classify;
use pol_lang::read_file;
use pol_nogood::LogAnswer;
use pol_optable::{Classes, Nu4};
use pol_outside::{ReaderSource, read_all};
use pol_relation::{Instance, Language};
use pol_strong::solve_nu;
use std::alloc::Global;
use std::process::ExitCode;

fn main(rt: HostRuntime) -> ExitCode {
    let mut source = ReaderSource::new(rt.stdin());
    let Ok(bytes) = read_all(rt.alloc(), &mut source, 1 << 28) else {
        return ExitCode::FAILURE;
    };
    let Ok((file, _rest)) = read_file(rt.alloc(), bytes.as_slice()) else {
        return ExitCode::FAILURE;
    };
    let Ok(classes) = classify(rt.alloc(), file.lang()) else {
        return ExitCode::FAILURE;
    };
    for i in 0..file.instances() {
        match made(rt.alloc(), file.lang(), file.instance(i), &classes) {
            Ok(Some(steps)) if println!(rt; "{steps}").is_ok() => {}
            _ => return ExitCode::FAILURE,
        }
    }
    ExitCode::SUCCESS
}

/// The steps of arc consistency where these show that there is no solution, and else those of strong consistency.
/// Nothing where the instance has a solution, or is not answered by a log.
fn made(
    alloc: Global,
    lang: &Language,
    inst: &Instance,
    classes: &Classes,
) -> Result<Option<u32>, NoMemory> {
    if let Consistency::Wiped(log) = arc(alloc, lang, inst)? {
        return Ok(Some(log.len()));
    }
    let given = match (classes.first(), &classes.majority, &classes.nu4) {
        (Some(ClassName::Majority), Some(op), _) => solve_nu(alloc, lang, inst, op)?,
        (Some(ClassName::Nu4), _, Nu4::Found(op)) => solve_nu(alloc, lang, inst, op)?,
        _ => return Ok(None),
    };
    Ok(match given {
        LogAnswer::No(log) => Some(log.len()),
        LogAnswer::Yes(_) => None,
    })
}
"""


def full(size, arity):
    return list(itertools.product(range(size), repeat=arity))


def constants(*values):
    return [[(value,)] for value in values]


def clauses(size, arity, count, seed):
    """Rows that meet clauses of two literals, each that a place is at least, or below, a value: the median preserves
    them. So many clauses that leave rows, and more until these are at most 100."""
    rng = random.Random(seed)
    rows = full(size, arity)
    while count > 0 or len(rows) > MOST_ROWS:
        literals = [(place, rng.randrange(1, size), rng.random() < 0.5) for place in rng.sample(range(arity), 2)]
        kept = [row for row in rows if any((row[place] >= value) == up for place, value, up in literals)]
        count -= 1
        rows = kept or rows
    return rows


def closed(size, arity, count, seed):
    """Rows at random and their minima, at most 100."""
    rng, rows = random.Random(seed), set()
    for row in rng.sample(full(size, arity), count):
        more = rows | {row} | {tuple(map(min, row, other)) for other in rows}
        if len(more) > MOST_ROWS:
            break
        rows = more
    return sorted(rows)


def few_ones(arity):
    """At most two of the places are 1 and the others are 0: an operation of arity four preserves it."""
    return [row for row in full(2, arity) if sum(row) <= 2]


def families():
    """The name, the class, the size of the domain, the relations, and the one that a ring is made of."""
    unequal = [(0, 1), (1, 0)]
    pairs = full(2, 2)
    yield "two colours", "majority", 2, [unequal], unequal
    yield "two colours, one fixed", "majority", 2, [unequal] * 3 + constants(0), unequal
    yield "2-SAT", "majority", 2, [[row for row in pairs if row != out] for out in [(0, 0), (1, 1), (1, 0)]], None
    for size in (3, 5):
        relations = [clauses(size, 2, 3, seed) for seed in range(4)]
        yield f"medians over {size} values", "majority", size, relations + constants(0, size - 1), None
    for size, arity in ((5, 4), (3, 6)):
        relations = [clauses(size, arity, 4, 1)] + [clauses(size, 2, 3, seed) for seed in range(4)]
        relations += constants(0, size - 1)
        yield f"medians of {arity} places over {size} values", "majority", size, relations, None
    for size in (2, 3, 5):
        rows = [(x, y, z) for x, y, z in full(size, 3) if z >= min(x, y)]
        rows = rows if len(rows) <= MOST_ROWS else closed(size, 3, 60, 1)
        yield f"Horn clauses over {size} values", "semilattice", size, [rows] * 3 + constants(0, size - 1), None
    for size, arity in ((5, 4), (3, 6)):
        relations = [closed(size, arity, 40, 1)] + constants(0, size - 1)
        yield f"minima of {arity} places over {size} values", "semilattice", size, relations, None
    even = [(0, 0, 0), (0, 2, 2), (2, 0, 2), (2, 2, 0)]
    yield "an even number beside a value", "set-function", 3, [even] * 3 + constants(1), None
    for size, arity in ((3, 3), (5, 3), (5, 4), (3, 6)):
        apart = [(0, size - 1), (size - 1, 0)]
        name = f"arity four, of {arity} places over {size} values"
        yield name, "nu4", size, [few_ones(arity), apart], apart
        yield f"{name}, some fixed", "nu4", size, [few_ones(arity)] * 3 + [apart] + constants(*range(size)), apart
    for size, arity in ((2, 6), (3, 4), (5, 3)):
        sums = [[row for row in full(size, arity) if sum(row) % size == right] for right in (0, 1)]
        yield f"sums of {arity} places modulo {size}", "affine", size, sums, None
    for size in (3, 5):
        sums = [[row for row in full(2, 3) if sum(row) % 2 == right] for right in (0, 1)]
        turn = [(1, 0), (0, 1)] + [(value, value) for value in range(2, size)]
        name = f"sums modulo 2 beside other values, of {size}"
        yield name, "maltsev", size, sums + [turn] + constants(size - 1), None
    yield "sums modulo 4", "maltsev", 4, [[row for row in full(4, 3) if sum(row) % 4 == right] for right in (0, 1)], None


def text(size, relations, variables, constraints):
    """The file of a language, where each relation is a list of rows of one length, and of an instance, if there are
    variables. Relations that are equal are written once."""
    lines = ["polyanna 1", f"domain {size}"]
    names = {}
    for rows in relations:
        if tuple(rows) not in names:
            names[tuple(rows)] = f"r{len(names)}"
            lines.append(f"relation {names[tuple(rows)]} {len(rows[0])}")
            lines += ["tuple " + " ".join(map(str, row)) for row in rows]
    if variables:
        lines.append("instance i " + " ".join(f"x{variable}" for variable in range(variables)))
        for rows, scope in constraints:
            lines.append(f"constraint {names[tuple(rows)]} " + " ".join(f"x{variable}" for variable in scope))
    return "\n".join(lines + ["end", ""])


def drawn(size, relations, ring, variables, count, kind, seed):
    """So many constraints, on variables of which no two are the same."""
    rng = random.Random(seed)
    values = [rng.randrange(size) for _ in range(variables)]
    free, constraints = list(range(variables)), []
    if kind == "ring":
        free, circle = free[variables // 4 * 2 - 1 :], free[: variables // 4 * 2 - 1]
        constraints = [(ring, scope) for scope in zip(circle, circle[1:] + circle[:1])]
    for _ in range(100 * count):
        if len(constraints) >= count:
            break
        rows = rng.choice(relations)
        scope = rng.sample(free, len(rows[0]))
        if kind == "free" or tuple(values[variable] for variable in scope) in rows:
            constraints.append((rows, scope))
    return constraints


def kinds(ring):
    return ("free", "hidden", "ring") if ring else ("free", "hidden")


def files(family, kind, variables, count):
    """The files of three instances of a kind."""
    _, _, size, relations, ring = family
    for seed in range(3):
        constraints = drawn(size, relations, ring, variables, count, kind, 1000 * variables + 3 * count + seed)
        yield text(size, relations, variables, constraints)


def run(path, memory):
    """The least processor milliseconds of three runs, the last status, and what was written."""
    best = None

    def bounded():
        resource.setrlimit(resource.RLIMIT_AS, (memory * MEBIBYTE, memory * MEBIBYTE))

    for _ in range(3):
        before = resource.getrusage(resource.RUSAGE_CHILDREN)
        with open(path, "rb") as source:
            done = subprocess.run(
                [PROGRAM, "report"], stdin=source, stdout=subprocess.PIPE, preexec_fn=bounded, check=False
            )
        after = resource.getrusage(resource.RUSAGE_CHILDREN)
        spent = after.ru_utime + after.ru_stime - before.ru_utime - before.ru_stime
        best = spent if best is None else min(best, spent)
    return 1000 * best, done.returncode, done.stdout.decode("ascii")


def answer(report):
    """The class that answered, what it said, and the number of steps."""
    for line in report.splitlines():
        words = line.split()
        if words[0] == "instance" and len(words) > 3:
            counted = words[2] == "no" and words[3] != "maltsev"
            return words[3], words[2], int(words[4]) if counted else 0
    return None, "nothing", 0


def refuted(wanted):
    """The files of the families with such a name of which the report has a No with a log."""
    for family in families():
        if wanted not in family[0] or family[1] in ("affine", "maltsev"):
            continue
        for (variables, count), kind in itertools.product(SIZES, kinds(family[4])):
            for source in files(family, kind, variables, count):
                command = [PROGRAM, "report"]
                done = subprocess.run(command, input=source.encode("ascii"), capture_output=True, check=False)
                chosen, said, _ = answer(done.stdout.decode("ascii"))
                if chosen == family[1] and said == "no":
                    yield source


def steps_made(folder, wanted):
    """How many steps the solver made for each of the refuted files, by their texts."""
    sources = list(refuted(wanted))
    if not sources:
        return {}
    cases = os.path.join(folder, "cases")
    os.mkdir(cases)
    for number, source in enumerate(sources):
        with open(os.path.join(cases, str(number)), "w", encoding="ascii") as out:
            out.write(source)
    # the interpreter, which it is run on too, stops at once
    command = ["rt", "try", "--cases", cases, "--steps", "1"]
    counter = building.make(folder, "made", USED, COUNTER)
    done = subprocess.run(command, cwd=counter, stdin=subprocess.DEVNULL, capture_output=True, check=False)
    # of each case a line `== NAME`, and the number
    words = done.stdout.decode("ascii").split()
    made = {sources[int(name)]: int(steps) for name, steps in zip(words[1::3], words[2::3])}
    if done.returncode != 0 or len(words) != 3 * len(sources):
        sys.exit(f"{done.stderr.decode()[-4000:]}\nbench: the steps were not counted")
    return made


def measure(path, family, kind, variables, count, alone, made):
    """What is told of three instances of a kind, and whether each limit held."""
    wanted = family[1]
    most, memory = LIMITS[wanted]
    slowest, steps, before, told, good = 0.0, 0, 0, [], True
    for source in files(family, kind, variables, count):
        with open(path, "w", encoding="ascii") as out:
            out.write(source)
        spent, status, report = run(path, memory)
        chosen, said, number = answer(report)
        slowest, steps, before = max(slowest, spent - alone), max(steps, number), max(before, made.get(source, 0))
        told.append(said if status == 0 and chosen == wanted else f"{said} by {chosen} with status {status}")
        good &= status == 0 and chosen == wanted and spent - alone <= most
    logs = f" in at most {steps} {'parts' if wanted == 'affine' else 'steps'}" if steps else ""
    logs += f" of at most {before} made" if before else ""
    return f"{kind} {', '.join(told)}{logs}, {slowest:.1f} ms{'' if good else ' MISSED'}", good


def main():
    if not os.access(PROGRAM, os.X_OK):
        sys.exit("bench: build the program first, by ./polyanna")
    words = [word for word in sys.argv[1:] if word != "--made"]
    wanted = words[0] if words else ""
    good = True
    with tempfile.TemporaryDirectory() as folder:
        path = os.path.join(folder, "input")
        made = steps_made(folder, wanted) if "--made" in sys.argv[1:] else {}
        for family in families():
            name, kind, size, relations, ring = family
            if wanted not in name:
                continue
            with open(path, "w", encoding="ascii") as out:
                out.write(text(size, relations, 0, []))
            alone, _, _ = run(path, LIMITS[kind][1])
            print(f"{name}: {kind}, at most {LIMITS[kind][0]} ms, and the language alone {alone:.1f} ms", flush=True)
            for variables, count in SIZES:
                lines = [measure(path, family, drawing, variables, count, alone, made) for drawing in kinds(ring)]
                good &= all(held for _, held in lines)
                told = "; ".join(line for line, _ in lines)
                print(f"  {variables} variables, {count} constraints: {told}", flush=True)
    sys.exit(0 if good else 1)


if __name__ == "__main__":
    main()
