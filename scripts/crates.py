"""The crates of this repository, what each is made of, and the programs that are built of them."""

import hashlib
import os

TOP = os.path.dirname(os.path.dirname(os.path.realpath(__file__)))
# What a crate is made of.
SOURCES = ("src", "specs", "proofs")


def crates():
    """The crates, each with the libraries that crates.txt names."""
    named = {}
    with open(os.path.join(TOP, "crates.txt"), encoding="utf-8") as file:
        for line in file:
            name, found, libraries = line.partition("#")[0].partition(":")
            if found:
                named[name.split()[0]] = libraries.split()
    return named


def below(named, crate):
    """A crate's libraries of this repository, lowest first, without itself."""
    found = []
    for dep in named[crate]:
        if dep in named:
            found += [it for it in [*below(named, dep), dep] if it not in found]
    return found


def files_of(crate):
    """The files that a crate is made of, as paths below the top."""
    found = []
    for part in SOURCES:
        for at, _, names in os.walk(os.path.join(TOP, "crates", crate, part)):
            found += [os.path.relpath(os.path.join(at, name), TOP) for name in names]
    return sorted(found)


def is_program(crate):
    """Whether a crate is a program."""
    return os.path.isfile(os.path.join(TOP, "crates", crate, "src", "main.rt"))


def octets_of(path):
    """What a file holds; nothing if there is none."""
    if not os.path.isfile(path):
        return b""
    with open(path, "rb") as file:
        return file.read()


def sum_of(octets):
    """The SHA-256 of octets, in hex."""
    return hashlib.sha256(octets).hexdigest()


class Sums(dict):
    """The sums of crates by their names: of each file that a crate is made of, and of its row in crates.txt. Each is
    looked at once."""

    def __init__(self):
        super().__init__()
        self.named = crates()

    def __missing__(self, crate):
        lines = [f"{sum_of(octets_of(os.path.join(TOP, it)))}  {it}\n" for it in files_of(crate)]
        self[crate] = sum_of("".join([f"{crate}: {' '.join(self.named[crate])}\n", *lines]).encode())
        return self[crate]


class Program:
    """A program by its crate: where it stands, and what it is made of."""

    def __init__(self, crate):
        self.crate = crate
        self.out = os.path.join("crates", crate, "out")
        self.path = os.path.join(self.out, crate)
        self.here = os.path.join(TOP, self.path)
        self.passed = self.here + ".passed"
        self.names = [*below(crates(), crate), crate]

    def sums(self, known=None):
        """What it is made of: a line for each crate, with its sum."""
        known = Sums() if known is None else known
        return [f"{known[it]}  {it}\n" for it in sorted(self.names)]

    def own_line(self):
        """The line for the program itself."""
        return f"{sum_of(octets_of(self.here))}  {self.path}\n"

    def is_fresh(self, lines):
        """Whether the program that is here was built here, of just these sources."""
        is_here = os.path.isfile(self.here) and os.path.isfile(self.passed)
        return is_here and octets_of(self.passed).decode() == "".join([*lines, self.own_line()])

    def put(self, lines, built):
        """Puts a built program where it belongs, and then what it was made of."""
        if os.path.realpath(built) != os.path.realpath(self.here):
            os.replace(built, self.here)
        with open(self.passed + ".new", "w", encoding="utf-8") as file:
            file.writelines([*lines, self.own_line()])
        os.replace(self.passed + ".new", self.passed)
