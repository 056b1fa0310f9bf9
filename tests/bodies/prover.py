"""What the prover says of a crate as it is, and of copies of it in which something was changed."""

import contextlib
import os
import re
import shutil
import subprocess
import time

from bodies.repository import PARTS, below, checker, folder_of, kept_of, library_of

# A proof file that names what an edit took away says nothing of the contract.
ONLY_NAMES = re.compile(r"has no field|is not in scope|has no `|was not admitted")
# A function that waits for the proof of others, and the others.
WAITS = re.compile(r"it (?:calls|passes|passes the block) (`.*?), which (?:is|are) not proved")
# What the prover says of a text that it can't read, and not of a statement that is false.
UNREADABLE = re.compile(r"is not in scope|has no field|is no name|operand is missing|expected the end|cannot continue")


class Checked:
    """What the prover said of a crate."""

    def __init__(self, crate, status, said):
        self.lines = said.split("\n")
        # The last word of a check is that the crate is proved or isn't, or how many of some functions are.
        self.is_proved = status == 0 and any(it.startswith("logic=proved ") for it in self.lines)
        self.reached_prover = self.is_proved or any(re.match(r"logic=not-proved|only=\d", it) for it in self.lines)
        # The compiler's names of the errors that it found.
        self.errors = {found[1] for it in self.lines if (found := re.search(r": error\[([\w-]+)\]: ", it))}
        said = [it for it in (re.match(r"fn (\S+): (proved$)?", line) for line in self.lines) if it]
        self.functions = [it[1] for it in said]
        self.proved = {it[1] for it in said if it[2]}
        # By function: what the prover couldn't prove of it itself, and whether it is more than a name taken away.
        self.refused, self.waits = {}, {}
        # By function: why the checker tried no contract of it. By block: the methods that it waits for.
        self.untried, self.blocks = {}, {}
        for line in self.lines:
            self.read(crate, line)

    def read(self, crate, line):
        """Takes what a line says of a function, or of a file of its proof."""
        found = re.match(r"fn (\S+): (?:no proof|not proved)(.*)", line)
        if found:
            self.read_function(*found.groups())
            return
        found = re.match(r"impl (\S+): not proved; it waits for the proof of (.*)", line)
        if found:
            self.blocks[found[1]] = {f"{found[1]}::{it}" for it in re.findall(r"`([^`]+)`", found[2])}
            return
        found = re.match(r"(?:\./)?proofs/(\S+)/\w+\.antt:\d+:\d+: error: (.*)", line)
        if found:
            path = "::".join([crate, *found[1].replace("+", "").split("/")])
            is_contract = not ONLY_NAMES.search(found[2])
            if path not in self.refused or is_contract and not self.refused[path][1]:
                self.refused[path] = (found[2], is_contract)

    def read_function(self, path, said):
        """Takes what the prover says of a function that it didn't prove."""
        waits = {it for part in WAITS.findall(said) for it in re.findall(r"`([^`]+)`", part)}
        self.waits.setdefault(path, set()).update(waits)
        goals = re.search(r"did not prove ((?:`[^`]+`(?:, | and )?)+)", said)
        if goals:
            self.refused[path] = (f"did not prove {goals[1].rstrip(', ')}", True)
        elif not waits and said.strip(" :;"):
            self.untried[path] = said.strip(" :;")
        elif not waits:
            self.refused.setdefault(path, ("not proved", True))

    def unread(self, paths):
        """The first line by which the prover says that it can't read what was edited, if there is one."""
        for line in self.lines:
            found = re.match(r"(?:\./)?(\S+?):\d+:\d+: error: (?:(`[^`]*`): )?(.*)", line)
            if found and (found[1] in paths or found[1].startswith(("src/", "specs/"))):
                if not found[2] or UNREADABLE.search(re.sub(r"`[^`]*`", "", found[3])):
                    return line
        return None

    def first_error(self):
        """The first line that says what is wrong."""
        return next((it for it in self.lines if re.search(r"\berror(\[|: )", it)), self.lines[0])[:200]


class Proof:
    """A crate as it is: whether it is proved, and its functions as the prover names them. What its proof left is kept
    in the crate's own folder."""

    def __init__(self, crate, end, said=None):
        self.crate, self.end = crate, end
        # What the prover said of it, if it was asked already.
        self.said = said
        self.functions = []
        # Why its wrong bodies are not tried, where they aren't.
        self.lack = None

    @property
    def is_late(self):
        """Whether the time is up."""
        return time.monotonic() >= self.end

    def prove(self, jobs=1):
        """Proves the crate over the work that was kept of it."""
        if self.is_late:
            return
        lacking = [it for it in sorted(below(self.crate)) if not os.path.isdir(library_of(it))]
        if lacking:
            self.lack = f"its library {lacking[0]} is not built"
            return
        said = self.said or self.checked(jobs)
        if jobs > 1 and not said.is_proved:
            # It may have been killed for want of memory.
            said = self.checked(1)
        self.functions = said.functions
        if not said.is_proved:
            self.lack = f"the crate itself is not proved: {said.first_error()}"

    def checked(self, jobs):
        """What the prover says of the crate."""
        words = [*checker(self.crate, jobs), "--incremental", kept_of(self.crate)]
        os.makedirs(kept_of(self.crate), exist_ok=True)
        how = {"stdin": subprocess.DEVNULL, "stdout": subprocess.PIPE, "stderr": subprocess.STDOUT, "errors": "replace"}
        ran = subprocess.run(words, cwd=folder_of(self.crate), **how, check=False)
        return Checked(self.crate, ran.returncode, ran.stdout)


class Copy:
    """A copy of a crate in which wrong bodies are tried, by so many jobs."""

    def __init__(self, proof, folder, jobs):
        self.proof, self.folder, self.jobs = proof, folder, jobs
        self.work = os.path.join(self.folder, "incremental")
        os.makedirs(self.folder)
        for part in PARTS:
            whence = os.path.join(folder_of(proof.crate), part)
            if os.path.isdir(whence):
                shutil.copytree(whence, os.path.join(self.folder, part))

    @contextlib.contextmanager
    def edited(self, texts):
        """The copy with these texts in place of its own, and where it has none, beside them."""
        kept = {}
        for path, text in texts.items():
            file = os.path.join(self.folder, path)
            kept[file] = None
            if os.path.exists(file):
                with open(file, encoding="utf-8") as it:
                    kept[file] = it.read()
            os.makedirs(os.path.dirname(file), exist_ok=True)
            with open(file, "w", encoding="utf-8") as it:
                it.write(text)
        yield
        for file, text in kept.items():
            if text is None:
                self.remove(file)
                continue
            with open(file, "w", encoding="utf-8") as it:
                it.write(text)

    def remove(self, file):
        """Removes a file, and the folder that it leaves empty: the checker says so of each such folder."""
        os.remove(file)
        with contextlib.suppress(OSError):
            os.removedirs(os.path.dirname(file))

    def take_kept(self):
        """Takes what was kept of the crate. A check drops what it could not prove anew, so each begins with all of it.
        It replaces the files of modules and changes none, so links to them will do; of the few others it has its
        own."""
        shutil.rmtree(self.work, ignore_errors=True)
        kept = kept_of(self.proof.crate)
        if os.path.isdir(kept):
            subprocess.run(["cp", "-al", kept, self.work], check=True)
            for at, _, names in os.walk(self.work):
                for name in names:
                    if not name.endswith(".oantt"):
                        path = os.path.join(at, name)
                        shutil.copy2(path, path + ".own")
                        os.replace(path + ".own", path)

    def run(self, texts, words):
        """Runs the checker with these words on the copy with these texts in place of its own."""
        words = [*checker(self.proof.crate, self.jobs), "--incremental", self.work, *words]
        how = {"stdin": subprocess.DEVNULL, "stdout": subprocess.PIPE, "stderr": subprocess.STDOUT, "errors": "replace"}
        self.take_kept()
        with self.edited(texts):
            return subprocess.run(words, cwd=self.folder, **how, check=False)

    def check(self, texts, functions=()):
        """Checks the copy with these texts in place of its own, or only these functions of it."""
        ran = self.run(texts, [word for it in functions for word in ("--only", it)])
        return Checked(self.proof.crate, ran.returncode, ran.stdout)

    def proof_files(self, path):
        """The files of the proof of a function that the prover names so, by their names, with their texts."""
        folder = os.path.join(self.folder, "proofs", *path.split("::")[1:])
        found = {}
        for name in os.listdir(folder) if os.path.isdir(folder) else ():
            if name.endswith(".antt"):
                with open(os.path.join(folder, name), encoding="utf-8") as it:
                    found[name] = it.read()
        return found

    def has_cycle(self, path):
        """Whether the proof of a function that the prover names so is that of a cycle of calls."""
        *outer, name = path.split("::")[1:]
        return os.path.isdir(os.path.join(self.folder, "proofs", *outer, f"+{name}"))
