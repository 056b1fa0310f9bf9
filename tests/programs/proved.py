"""The programs that the tests run: those that a script's words name, or those of the crates, proved and built."""

import os
import shutil
import subprocess
import sys
from argparse import ArgumentTypeError

TOP = os.path.dirname(os.path.dirname(os.path.dirname(os.path.abspath(__file__))))
sys.path.insert(0, TOP)

from scripts.words import Parser  # pylint: disable=wrong-import-position


def runnable(path):
    """The whole path of a program that is there."""
    if not os.access(path, os.X_OK):
        raise ArgumentTypeError(f"there is no program {path}")
    return os.path.abspath(path)


def built(crate):
    """The program of a crate, proved and built where that is due. Where it can't be, this ends with a line why."""
    ran = subprocess.run([os.path.join(TOP, "build"), crate], stdin=subprocess.DEVNULL, stdout=sys.stderr, check=False)
    if ran.returncode:
        sys.exit(f"{crate} was not built")
    return os.path.join(TOP, "crates", crate, "out", crate)


def program_of(text, crate):
    """The program that the words of a script with this text at its head name; without them that of a crate."""
    parser = Parser(text)
    parser.add_argument("program", nargs="?", type=runnable)
    return parser.parse_args().program or built(crate)


def programs_of(text, crates):
    """The programs that the words of a script with this text at its head name, by their crates; without them all of
    these crates."""
    parser = Parser(text)
    parser.add_argument("programs", nargs="*", type=runnable)
    given = {os.path.basename(it): it for it in parser.parse_args().programs}
    if set(given) - set(crates):
        parser.error(f"a PROGRAM is one of {', '.join(crates)}")
    return given or {it: built(it) for it in crates}


# As ./build ends: what the program is made of.
WRITES = "import sys\nfrom scripts.crates import Program\nits = Program(sys.argv[1])\nits.put(its.sums(), its.here)"


def copied(top, programs, whence=TOP):
    """A copy of a repository in a folder that isn't there yet, with programs by their crates, as if ./build had made
    them there."""
    # A file that is about to take the place of another comes and goes beside it.
    shutil.copytree(whence, top, ignore=shutil.ignore_patterns(".git", "out", "__pycache__", "*.new"), symlinks=True)
    for crate, program in programs.items():
        out = os.path.join(top, "crates", crate, "out")
        os.makedirs(out)
        shutil.copy(program, os.path.join(out, crate))
        subprocess.run([sys.executable, "-B", "-c", WRITES, crate], cwd=top, check=True)
    return top
