#!/usr/bin/env python3
"""Times `eliminate` of the crate pol_modp on dense systems, more equations than the commands of the program reach.

    bench/eliminating.py     builds a program in a temporary folder, and prints a line for each system

A system has 4096 equations of 40 variables modulo 2, 3 or 5, and all coefficients are drawn. The right sides are those
of hidden values (`solvable`), or that of the last equation is one more, so that there is no solution and only the last
equation shows it (`without a solution`). Each line has the processor time of one elimination: that of 101 less that of
one, each the best of three runs, divided by 100. Wanted: at most 50 ms for each.

The folder has copies of pol_modp and of the crates that it stands on, as crates.txt has them, and the program, which
reads no clock. It is built by `rt run`, which proves all of them first, as ./polyanna does: what `rt try` builds, with
no proof, is full of checks and dozens of times slower. This takes some minutes where nothing was proved before.
"""
import os
import resource
import subprocess
import sys
import tempfile

import building

MOST_MILLISECONDS = 50
FEW, MANY = 1, 101
PROGRAM = """//! Eliminates a dense system so many times, and writes a checksum of the answers.
#![tactic(auto)]

ghost use Rattle.std.specs.Prelude.{IsTrue};
ghost use Rattle.pol_modp.specs.Equations.{IsEquation, IsSmallPrime};

use pol_base::NoMemory;
use pol_modp::{Elim, Equation, eliminate};
use std::alloc::Global;
use std::process::ExitCode;
use std::{env, io};

/// The words are the modulus, what is added to the last right side, and how many times.
fn main(rt: HostRuntime) -> ExitCode {
    let Ok(numbers) = numbers(&rt) else {
        return ExitCode::FAILURE;
    };
    let sum = match numbers.as_slice() {
        [2, more, times] => checksum(rt.alloc(), 2, *more, *times),
        [3, more, times] => checksum(rt.alloc(), 3, *more, *times),
        [5, more, times] => checksum(rt.alloc(), 5, *more, *times),
        _ => Ok(None),
    };
    match sum {
        Ok(Some(sum)) if println!(rt; "{sum}").is_ok() => ExitCode::SUCCESS,
        _ => ExitCode::FAILURE,
    }
}

fn numbers(rt: &HostRuntime) -> io::Result<Vec<u32>> {
    let mut numbers = Vec::new(rt.alloc());
    for word in env::args(rt)?.skip(1) {
        numbers.push(word.parse::<u32>().unwrap_or(0))?;
    }
    Ok(numbers)
}

/// Nothing where the answer is not of the kind that is due.
fn checksum(alloc: Global, p: u8, more: u32, times: u32) -> Result<Option<u32>, NoMemory>
    requires prime { IsSmallPrime p }
{
    let equations = system(alloc, p, more)?;
    if equations.len() > 4096 || !equations.iter().all(|equation| is_equation(p, equation)) {
        return Ok(None);
    }
    let mut sum = 0u32;
    for _ in 0..times {
        let answer = match eliminate(alloc, p, 40, &equations)? {
            Elim::Values(values) if more == 0 => values,
            Elim::Clash(multipliers) if more > 0 => multipliers,
            _ => return Ok(None),
        };
        for number in answer.as_slice() {
            sum = sum.wrapping_mul(31).wrapping_add(u32::from(*number));
        }
    }
    Ok(Some(sum))
}

fn is_equation(p: u8, equation: &Equation) -> bool
    ensures equation { IsTrue result → IsEquation p 40 equation.now }
{
    let coefs = equation.coefs();
    equation.right() < p && coefs.len() == 40 && coefs.iter().all(|a| *a < p)
}

fn system(alloc: Global, p: u8, more: u32) -> Result<Vec<Equation>, NoMemory>
    requires prime { IsSmallPrime p }
{
    let mut seed = 1u32;
    let hidden = drawn(p, &mut seed);
    let mut equations = Vec::new(alloc);
    for i in 0..4096u32 {
        let coefs = drawn(p, &mut seed);
        let mut right = if i == 4095 { more } else { 0 };
        for (a, value) in coefs.iter().zip(&hidden) {
            right = right.wrapping_add(u32::from(*a) * u32::from(*value));
        }
        equations.push(Equation::new(alloc, &coefs, (right % u32::from(p)) as u8)?)?;
    }
    Ok(equations)
}

/// The next 40 numbers below `p`.
fn drawn(p: u8, seed: &mut u32) -> [u8; 40]
    requires prime { IsSmallPrime p }
{
    let mut numbers = [0; 40];
    for place in numbers.iter_mut() {
        *seed = seed.wrapping_mul(1664525).wrapping_add(1013904223);
        *place = ((*seed >> 16) % u32::from(p)) as u8;
    }
    numbers
}
"""


def build(folder):
    """The program that is built in the folder."""
    dense = building.make(folder, "dense", ["pol_base", "pol_modp"], PROGRAM)
    command = ["rt", "run", "--", "2", "0", "1"]
    done = subprocess.run(command, cwd=dense, stdin=subprocess.DEVNULL, capture_output=True, check=False)
    if done.returncode != 0:
        sys.exit(f"{(done.stdout + done.stderr).decode()[-4000:]}\nbench: the program was not built")
    return os.path.join(dense, "out", "dense")


def milliseconds(program, modulus, more, times):
    """The least processor time of three runs, and the last status."""
    best = None
    for _ in range(3):
        before = resource.getrusage(resource.RUSAGE_CHILDREN)
        done = subprocess.run([program, str(modulus), str(more), str(times)], stdout=subprocess.DEVNULL, check=False)
        after = resource.getrusage(resource.RUSAGE_CHILDREN)
        spent = after.ru_utime + after.ru_stime - before.ru_utime - before.ru_stime
        best = spent if best is None else min(best, spent)
    return 1000 * best, done.returncode


def main():
    failed = False
    with tempfile.TemporaryDirectory() as folder:
        program = build(folder)
        for modulus in (2, 3, 5):
            for more, name in ((0, "solvable"), (1, "without a solution")):
                many, status = milliseconds(program, modulus, more, MANY)
                few, _ = milliseconds(program, modulus, more, FEW)
                spent = (many - few) / (MANY - FEW)
                good = spent <= MOST_MILLISECONDS and status == 0
                failed |= not good
                print(
                    f"modulo {modulus}, {name}: {spent:.1f} ms"
                    f"{'' if status == 0 else f', status {status}'}{'' if good else '  MISSED'}"
                )
    sys.exit(1 if failed else 0)


if __name__ == "__main__":
    main()
