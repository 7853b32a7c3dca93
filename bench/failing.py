#!/usr/bin/env python3
"""Refuses each allocation of some runs in turn, one a run, and sees that each ends as it may.

    bench/failing.py        makes a library that refuses allocations, by cc, and prints a line for each input

A run of which an allocation is refused has to end for want of memory, with status 6 and a beginning of its text, or as
it does where none is refused. Each other is printed with the number of the allocation, and then the script ends with 1.
The last input takes some minutes.
"""
import os
import subprocess
import sys
import tempfile

from read import PROGRAM, TOP

NO_MEMORY = 6
# The words of the command, and the file that is its input.
RUNS = [
    ("report", "empty_relation.pol"),
    ("report", "horn.pol"),
    ("report", "lamps.pol"),
    ("report", "two_colouring.pol"),
    ("report", "machines.pol"),
    ("report", "sums_modulo_3.pol"),
    ("report", "only_maltsev.pol"),
    ("report", "three_colouring.pol"),
    ("report", "missing_value.pol"),
    ("check", "judged.reported"),
    ("gen 3", None),
]
# Stands before the C library: the allocation of the number in REFUSED is refused, and a byte tells it.
LIBRARY = """
#define _GNU_SOURCE
#include <dlfcn.h>
#include <stdlib.h>
#include <unistd.h>

static int is_refused(void) {
    static long calls = 0;
    const char *refused = getenv("REFUSED");
    if (!refused || ++calls != atol(refused)) return 0;
    if (write(atoi(getenv("TOLD")), "r", 1) != 1) abort();
    return 1;
}

void *malloc(size_t size) {
    void *(*real)(size_t) = (void *(*)(size_t))dlsym(RTLD_NEXT, "malloc");
    return is_refused() ? NULL : real(size);
}

void *realloc(void *old, size_t size) {
    void *(*real)(void *, size_t) = (void *(*)(void *, size_t))dlsym(RTLD_NEXT, "realloc");
    return is_refused() ? NULL : real(old, size);
}
"""


def make_library(folder):
    source = os.path.join(folder, "refuse.c")
    library = os.path.join(folder, "refuse.so")
    with open(source, "w", encoding="ascii") as out:
        out.write(LIBRARY)
    subprocess.run(["cc", "-O2", "-shared", "-fPIC", "-o", library, source, "-ldl"], check=True)
    return library


def run(library, words, text, number):
    """The status and what was written, and whether the allocation of this number was refused."""
    told, tell = os.pipe()
    environment = {"LD_PRELOAD": library, "REFUSED": str(number), "TOLD": str(tell)}
    done = subprocess.run(
        [PROGRAM, *words.split()], input=text, stdout=subprocess.PIPE, env=environment, pass_fds=[tell], check=False
    )
    os.close(tell)
    refused = os.read(told, 1) == b"r"
    os.close(told)
    return done.returncode, done.stdout, refused


def refuse_each(library, words, text):
    """How many allocations were refused, how many runs ended for want of memory, and the numbers of the wrong ones."""
    status, whole, _ = run(library, words, text, 0)
    without_memory = 0
    wrong = []
    number = 1
    while True:
        ended, written, refused = run(library, words, text, number)
        if not refused:
            return number - 1, without_memory, wrong
        if ended == NO_MEMORY and whole.startswith(written):
            without_memory += 1
        elif (ended, written) != (status, whole):
            wrong.append(number)
        number += 1


def main():
    if not os.access(PROGRAM, os.X_OK):
        sys.exit("bench: build the program first, by ./polyanna")
    failed = False
    with tempfile.TemporaryDirectory() as folder:
        library = make_library(folder)
        for words, name in RUNS:
            text = b""
            if name:
                with open(os.path.join(TOP, "examples", name), "rb") as source:
                    text = source.read()
            refused, without_memory, wrong = refuse_each(library, words, text)
            failed |= refused == 0 or bool(wrong)
            print(
                f"{words} {name or ''}: {refused} allocations refused, {without_memory} runs without memory, "
                f"{len(wrong)} wrong{'  at ' + ', '.join(map(str, wrong)) if wrong else ''}"
            )
    sys.exit(1 if failed else 0)


if __name__ == "__main__":
    main()
