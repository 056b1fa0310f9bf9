"""Walks, which the prover spells out of functions: their sizes, and which are too large."""

import os

from bodies.repository import TOP, modules_kept, version

LARGE = os.path.join(TOP, "tests", "walks.large")
MOST = 3_000_000
# How many functions may be larger.
EXCEPTIONS = 20
# By what part a walk may be larger than it should: where this kit wrote the list, since the libraries below it may have
# been built in another way, and where another kit did.
DOUBT, OTHER_DOUBT = 1.01, 1.25


def walks_of(crate):
    """The sizes of the walks of a crate's functions, by the function. Tests aren't among them: a check leaves theirs
    only if it was of the tests, and no wrong body is of one."""
    front, end = f"Rattle-{crate}-proofs.", ".Lts"
    its = {it: path for it, path in modules_kept(crate).items() if it.startswith(front) and it.endswith(end)}
    its = {it: path for it, path in its.items() if not it.startswith(f"{front}tests.")}
    names = {it: f"{crate}.{it.removeprefix(front).removesuffix(end)}".replace(".", "::") for it in its}
    return {names[it]: os.path.getsize(path) for it, path in its.items()}


def listed():
    """The functions that may be larger, with the sizes that they may have, and the kit by which these were taken."""
    found, kit = {}, ""
    with open(LARGE, encoding="utf-8") as file:
        for line in file:
            words = line.partition("#")[0].split()
            if words[:1] == ["kit"]:
                kit = words[1]
            elif words:
                found[words[1]] = int(words[0]) * 1000
    return found, kit


def faults_of(sizes):
    """What is wrong with the walks of some crates, whose sizes these are."""
    may, kit = listed()
    doubt = DOUBT if kit == version() else OTHER_DOUBT
    faults = [f"{it}: nothing of its proof is kept here" for it in sizes if not sizes[it]]
    for name, size in ((name, size) for its in sizes.values() for name, size in its.items() if size > MOST):
        if name not in may and size > MOST * doubt:
            faults.append(f"{name}: its walk has {size / 1e6:.1f} MB")
        elif size > may.get(name, size) * doubt:
            faults.append(f"{name}: its walk has {size / 1e6:.1f} MB, and had {may[name] / 1e6:.1f}")
    for it in may:
        crate = it.partition("::")[0]
        if crate in sizes and sizes[crate].get(it, 0) * doubt < MOST and kit == version():
            faults.append(f"{it}: its walk is small now: take it off {os.path.basename(LARGE)}")
    if len(may) > EXCEPTIONS:
        faults.append(f"{os.path.basename(LARGE)} names {len(may)} functions, and not at most {EXCEPTIONS}")
    return faults
