"""Wrong bodies that no contract can refuse, as of what is sent, woken or waited for: each names the test that has to
fail with it."""

import hashlib
import os
import re
import shutil
import subprocess

from bodies import repository
from bodies.repository import PARTS, add_texts, crates, files_of, folder_of, version, with_below
from bodies.trials import Outcome

# What counts as refused, and what a key is made of: another number where either changes.
FORM = "1"
# How long a test may take, in seconds, and how long with what is built for it. A wrong body may have it wait for ever.
RUN, WHOLE = 60, 1200


def has_test(crate, name):
    """Whether a crate has a test of this name."""
    if crate not in crates():
        return False
    wanted = re.compile(
        rf"#\[test\]\n(?: *#\[.*\]\n)*(?:pub(?:\([a-z]+\))? )?fn {re.escape(name.rpartition('::')[2])}\b"
    )
    for path in files_of(crate):
        if path.endswith(".rt"):
            with open(path, encoding="utf-8") as file:
                if wanted.search(file.read()):
                    return True
    return False


def sum_of(body, toolchain):
    """A sum of a wrong body, of what is said of the toolchain, and of all that its test is made of."""
    found = hashlib.sha256(repr((FORM, toolchain, body.pairs, body.test)).encode())
    add_texts(found, body.test[0])
    return found.hexdigest()[:40]


def key_of(body):
    """A sum of a wrong body, of the toolchain, and of all that its test is made of."""
    return sum_of(body, version())


def copy_for(crate, top):
    """Makes a repository of a crate and of those that it stands on."""
    os.makedirs(top)
    shutil.copy(os.path.join(repository.TOP, "HANDLES"), top)
    with open(os.path.join(top, "crates.txt"), "w", encoding="utf-8") as file:
        file.writelines(f"{it}: {' '.join(crates()[it])}\n" for it in with_below(crate))
    for it in with_below(crate):
        for part in PARTS:
            whence = os.path.join(folder_of(it), part)
            if os.path.isdir(whence):
                shutil.copytree(whence, os.path.join(top, "crates", it, part))


def said_with(folder, name):
    """What a test says, if it comes to its end. No other runs beside it."""
    words = ["timeout", str(WHOLE), "rt", "try", "--test", "--seconds", str(RUN), "--", name]
    how = {"stdin": subprocess.DEVNULL, "stdout": subprocess.PIPE, "stderr": subprocess.STDOUT, "errors": "replace"}
    return subprocess.run(words, cwd=folder, **how, check=False).stdout


class TestTrial:
    """One wrong body that a test has to refuse."""

    def __init__(self, proof, folder, body, tell):
        self.proof, self.folder, self.body, self.tell = proof, folder, body, tell

    def run(self):
        """Tries it, and tells what came of it."""
        if self.body.bad:
            self.tell(self.body, Outcome.BAD, self.body.bad)
        elif self.proof.is_late:
            self.tell(self.body, Outcome.LEFT, "it was not come to")
        else:
            self.tell(self.body, *self.judged())

    def judged(self):
        """What came of it, and why."""
        crate, name = self.body.test
        copy_for(crate, self.folder)
        own, texts = os.path.join(self.folder, "crates", self.body.crate), {}
        self.body.apply(texts, own)
        for path, text in texts.items():
            with open(os.path.join(own, path), "w", encoding="utf-8") as file:
                file.write(text)
        said = said_with(os.path.join(self.folder, "crates", crate), name)
        shutil.rmtree(self.folder)
        if not re.search(r"^tests: \d", said, re.MULTILINE):
            error = next((it for it in said.split("\n") if "error" in it), said.split("\n", 1)[0])
            return Outcome.BAD, f"its test was not run: {error[:200]}"
        if f"test {name} ... ok" in said.split("\n"):
            return Outcome.PROVED, f"{crate} {name} passes with it"
        return Outcome.TEST, f"{crate} {name}"
