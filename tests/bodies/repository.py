"""The repository whose wrong bodies are tried: its crates, and the words by which the prover checks one of them."""

import functools
import hashlib
import os
import re
import subprocess

TOP = os.path.dirname(os.path.dirname(os.path.dirname(os.path.abspath(__file__))))
# What a check reads of a crate.
PARTS = ("src", "specs", "proofs")
# The folders of a crate's wrong bodies.
FOLDERS = ("must-fail", "wrong")


def stand_at(top):
    """Takes another repository in place of the one that this script is of, before anything is asked of it."""
    global TOP
    TOP = os.path.abspath(top)


@functools.cache
def crates():
    """The crates, each with the libraries that crates.txt names."""
    named = {}
    with open(os.path.join(TOP, "crates.txt"), encoding="utf-8") as file:
        for line in file:
            name, found, libraries = line.partition("#")[0].partition(":")
            if found:
                named[name.split()[0]] = libraries.split()
    return named


@functools.cache
def below(crate):
    """The libraries of this repository that a crate stands on, itself aside."""
    return {it for dep in crates()[crate] if dep in crates() for it in (dep, *below(dep))}


def folder_of(crate):
    """Where a crate stands."""
    return os.path.join(TOP, "crates", crate)


def files_of(crate):
    """The files that a check reads of a crate."""
    folders = [os.path.join(folder_of(crate), part) for part in PARTS]
    return [os.path.join(at, it) for folder in folders for at, _, its in os.walk(folder) for it in its]


def with_below(crate):
    """The crates of this repository that a crate stands on, and the crate itself."""
    return [*sorted(below(crate)), crate]


def add_texts(found, crate):
    """Adds to a sum the files that a check reads of a crate and of those that it stands on."""
    for it in with_below(crate):
        for path in sorted(files_of(it)):
            with open(path, "rb") as file:
                content = hashlib.sha256(file.read()).hexdigest()
            found.update(repr((it, os.path.relpath(path, folder_of(it)), content)).encode())


@functools.cache
def text_of(crate):
    """A sum of the toolchain's logic and of all texts that a crate is made of."""
    found = hashlib.sha256(logic().encode())
    add_texts(found, crate)
    return found.hexdigest()


def edits_of(crate):
    """The edit files of a crate."""
    folders = [os.path.join(folder_of(crate), it) for it in FOLDERS]
    files = [os.path.join(at, it) for at in folders if os.path.isdir(at) for it in sorted(os.listdir(at))]
    return [it for it in files if it.endswith(".edit")]


def library_of(crate):
    """Where the toolchain's commands leave a crate as a library."""
    return os.path.join(folder_of(crate), "out", "rlib", f"{crate}.rlib")


def kept_of(crate):
    """Where the toolchain's commands, and this script's checks, keep what they proved of a crate."""
    return os.path.join(folder_of(crate), "out", "incremental")


def modules_kept(crate):
    """The files of the proof modules that were kept of a crate, by the name of the module; none unless they are of one
    build of the toolchain."""
    kept = kept_of(crate)
    # What a check that failed looked for stands in a folder of its own.
    builds = [it for it in (os.listdir(kept) if os.path.isdir(kept) else []) if not it.endswith("-offers")]
    folders = [it for it in (os.path.join(kept, build) for build in builds) if os.path.isdir(it)]
    if len(folders) != 1:
        return {}
    names = [it for it in os.listdir(folders[0]) if it.endswith(".oantt")]
    return {it.removesuffix(".oantt"): os.path.join(folders[0], it) for it in names}


@functools.cache
def kit():
    """The folder of the toolchain."""
    said = subprocess.run(["rt", "doc"], stdout=subprocess.PIPE, stdin=subprocess.DEVNULL, text=True, check=True)
    return os.path.dirname(said.stdout.strip())


@functools.cache
def version():
    """The toolchain's name of itself, as one word."""
    said = subprocess.run(["rt", "version"], stdout=subprocess.PIPE, stdin=subprocess.DEVNULL, text=True, check=True)
    return re.sub(r"\s+", "-", said.stdout.strip())


def logic(name=None):
    """Of the toolchain's name, this one's without another, what tells what can be proved: its versions of one logic have
    it in common."""
    return (name or version()).partition("-logic-")[2] or name or version()


def checker(crate, jobs=1):
    """The words by which a crate in the current folder is checked, over its libraries as they were built."""
    program = os.path.exists(os.path.join(folder_of(crate), "src", "main.rt"))
    words = [f"{kit()}/bin/rattle", "check", "--crate-name", crate, f"src/{'main' if program else 'lib'}.rt"]
    for name in dict.fromkeys(["std", *crates()[crate]]):
        built = library_of(name) if name in crates() else f"{kit()}/rlibs/{name}.rlib"
        words += ["--extern", f"{name}={built}"]
    for folder in (f"{kit()}/rlibs", *(os.path.dirname(library_of(it)) for it in sorted(below(crate)))):
        words += ["-L", f"dependency={folder}"]
    words += ["--antt-project", f"{kit()}/rattle/logic/antt-project.json", "--logic-built", f"{kit()}/logic_built"]
    return [*words, "--jobs", str(jobs)]
