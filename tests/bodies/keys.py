"""Keys of wrong bodies: a sum of all that a refusal rests on, and the file of a crate in which the keys stand of those
that were refused. A key is known only where the crate is proved. Beside it stands a sum of all texts that the crate is
made of: while these are the same the key is, too, and the crate needn't be proved. That sum is of the toolchain's logic
and not of its version: what a version refused, another one of the same logic needn't try while the texts are the same."""

import functools
import hashlib
import os
import re
import threading

from bodies import tested
from bodies.edits import is_own
from bodies.repository import edits_of, files_of, folder_of, logic, modules_kept, text_of, version

# What counts as refused, and what a key is made of: another number where either changes.
FORM = "2"
# A call, in the text of an edit.
CALL = re.compile(r"\b([a-z_][a-z0-9_]*)\s*(?:::<[^()]*>)?\(")


# The name of a constant, in the text of an edit.
CONSTANT = re.compile(r"\b[A-Z][A-Z0-9_]+\b")
# The modules of a function from which its others are found.
ROOTS = ("", ".Proof", ".Statement", ".Met")


class Head:
    """What the prover wrote at the head of a kept module: the sums of its text, of what it is with all that it rests
    on, and of what others see of it; and the names of the modules that it names or saw. The sums are the same in
    another folder, and whatever else changed."""

    def __init__(self, path):
        self.sums, self.names = [], set()
        with open(path, "rb") as file:
            for line in file:
                if not line.startswith(b"--@"):
                    break
                words = line.decode().split()
                if words[1] in ("source", "content", "exports"):
                    self.sums.append(words[1:])
                elif words[1] in ("import", "saw"):
                    self.names.add(words[2])


@functools.cache
def head_of(path):
    """The head of a kept module."""
    return Head(path)


def text_for(body):
    """A sum of a wrong body, of the toolchain's logic, and of all texts that its crate is made of, or its test."""
    if body.test:
        return tested.sum_of(body, logic())
    return hashlib.sha256(repr((FORM, text_of(body.crate), body.pairs, *errors_of(body))).encode()).hexdigest()[:40]


def errors_of(body):
    """The error by which a wrong body mustn't compile, or none."""
    return [body.error] if body.error else []


class Keys:
    """The keys of a crate's wrong bodies, as its proof is kept."""

    def __init__(self, crate, functions):
        self.crate, self.functions = crate, functions
        self.modules = modules_kept(crate)

    def key_of(self, body):
        """A sum of a wrong body and of what its refusal rests on, or none where what is kept doesn't tell: the
        toolchain, the edit, the proof modules of each function that it changes, and of what its new text names the
        contracts and the constants in its crate. Where it changes something outside functions, or mustn't compile,
        these are all modules of the crate."""
        names = self.modules_for(body)
        if not names:
            return None
        words = (FORM, version(), body.pairs, self.constants_of(body), *errors_of(body))
        found = hashlib.sha256(repr(words).encode())
        for name in sorted(names):
            found.update(repr((name, head_of(self.modules[name]).sums)).encode())
        return found.hexdigest()[:40]

    def modules_for(self, body):
        """The names of the modules that a wrong body's refusal rests on."""
        if not self.functions:
            return set()
        if body.error or body.is_outside or any(name is None for _, _, name in body.functions):
            return set(self.modules)
        own = [it for it in self.functions if is_own(self.crate, body, it.replace("+", ""))]
        own = [it.partition("::")[2].replace("::", ".") for it in own]
        of_own = self.modules_of(own)
        calls = {it for _, _, new in body.pairs for it in CALL.findall(new)}
        return of_own | {it for it in self.modules if self.is_contract(it, calls)} if of_own else set()

    def modules_of(self, functions):
        """The modules of these functions: their contracts, their code, their proofs, and what stands below them of
        their own. What an earlier text left is not among them."""
        fronts = (f"Rattle-{self.crate}-proofs.", f"Rattle-{self.crate}-specs.contracts.")
        due = [front + it + root for front in fronts for it in functions for root in ROOTS]
        own = tuple(front + it + "." for front in fronts for it in functions)
        found = set()
        while due:
            name = due.pop()
            if name in self.modules and name not in found:
                found.add(name)
                due += [it for it in head_of(self.modules[name]).names if it.startswith(own)]
        return found

    def is_contract(self, name, calls):
        """Whether a module is the contract of a function of one of these names."""
        front = f"Rattle-{self.crate}-specs.contracts."
        return name.startswith(front) and name.rpartition(".")[2] in calls

    def constants_of(self, body):
        """The lines of the crate that declare the constants which a wrong body's new text names."""
        names = {it for _, _, new in body.pairs for it in CONSTANT.findall(new)}
        declares = re.compile(rf"^\s*(?:pub(?:\([a-z]+\))? )?(?:const|static) (?:{'|'.join(sorted(names))})\b.*", re.M)
        found = []
        for path in sorted(files_of(self.crate)) if names else []:
            if path.endswith(".rt"):
                with open(path, encoding="utf-8") as file:
                    found += declares.findall(file.read())
        return found


class Refused:
    """The file wrong/passed of a crate: a line for each wrong body that was refused, with the toolchain, the key, and
    the sum of texts by which the key was found, if the walks of these weren't too large."""

    HEAD = "# What the prover refused: a sum of what that rests on, and one of texts. tests/wrong_bodies writes it.\n"

    def __init__(self, crate):
        self.crate = crate
        self.path = os.path.join(folder_of(crate), "wrong", "passed")
        self.lock = threading.Lock()
        self.lines = {}
        if os.path.exists(self.path):
            with open(self.path, encoding="utf-8") as file:
                for line in file:
                    if not line.startswith("#") and len(line.split()) in (3, 4):
                        kit, name, *sums = line.split()
                        self.lines[kit, name] = (*sums, "")[:2]

    def has(self, body, key):
        """Whether a wrong body was refused under this key."""
        return key is not None and self.lines.get((version(), body.short_name), ("", ""))[0] == key

    def refusers(self, body):
        """The versions of the toolchain, all of this one's logic, that refused a wrong body under just these texts."""
        if body.bad:
            return set()
        name, text = body.short_name, text_for(body)
        with self.lock:
            lines = [(kit, sums[1]) for (kit, its), sums in self.lines.items() if its == name]
        return {kit for kit, its in lines if its == text and logic(kit) == logic()}

    def keep(self, body, key, text=""):
        """Keeps that a wrong body was refused under this key and these texts, or without a key, that it wasn't."""
        with self.lock:
            if key is None:
                self.lines.pop((version(), body.short_name), None)
            else:
                self.lines[version(), body.short_name] = (key, text)

    def write(self):
        """Writes the file, without those wrong bodies that there are no more."""
        names = {os.path.basename(it).removesuffix(".edit") for it in edits_of(self.crate)}
        with self.lock:
            its = sorted((kit, name, *sums) for (kit, name), sums in self.lines.items() if name in names)
            os.makedirs(os.path.dirname(self.path), exist_ok=True)
            with open(f"{self.path}.new", "w", encoding="utf-8") as file:
                file.write(self.HEAD + "".join(f"{' '.join(words).rstrip()}\n" for words in its))
            os.replace(f"{self.path}.new", self.path)
