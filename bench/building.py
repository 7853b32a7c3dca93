"""Makes the crate of a small program that a bench runs, in a folder, with copies of the crates that it stands on."""
import os
import shutil

TOP = os.path.dirname(os.path.dirname(os.path.abspath(__file__)))


def needed(name, uses):
    """The crates of the repository that a crate stands on, each behind those it uses, and the crate itself."""
    found = []
    for used in uses[name]:
        found += [crate for crate in needed(used, uses) if crate not in found] if used in uses else []
    return found + [name]


def make(folder, name, used, program):
    """Makes the crate with the text of its src/main.rt and the names of the crates that it uses, which with those below
    them are as crates.txt has them. Gives the crate's folder."""
    with open(os.path.join(TOP, "crates.txt"), encoding="utf-8") as source:
        halves = [line.partition("#")[0].partition(":") for line in source]
    uses = {crate.split()[0]: below.split() for crate, colon, below in halves if colon}
    uses[name] = used
    names = needed(name, uses)
    with open(os.path.join(folder, "crates.txt"), "w", encoding="utf-8") as out:
        out.writelines(f"{crate}: {' '.join(uses[crate])}\n" for crate in names)
    crates = os.path.join(folder, "crates")
    for crate in names[:-1]:
        copy = os.path.join(crates, crate)
        shutil.copytree(os.path.join(TOP, "crates", crate), copy, ignore=shutil.ignore_patterns("out"))
    own = os.path.join(crates, name)
    os.makedirs(os.path.join(own, "src"))
    with open(os.path.join(own, "src", "main.rt"), "w", encoding="utf-8") as out:
        out.write(program)
    return own
