"""Wrong bodies as edits of a crate's source, the functions that they change, and the same bug in a copy of its function
under another name."""

import functools
import itertools
import os
import re

from bodies.repository import FOLDERS, edits_of, folder_of

FN = re.compile(r"^( *)(?:pub(?:\([a-z]+\))? )?(?:const |unsafe |final )*fn (\w+)")
IMPL = re.compile(r"^ *(?:impl|trait|pub trait|pub\(crate\) trait)\b")
# A line of a contract.
CLAUSE = re.compile(r"\b(?:ensures|requires)\b")


class WrongBody:
    """An edit of a crate's source, and the functions that it changes."""

    def __init__(self, crate, path, folder):
        self.crate, self.name = crate, f"{crate}/{os.path.basename(path).removesuffix('.edit')}"
        self.is_main = os.path.basename(os.path.dirname(path)) == FOLDERS[0]
        self.short_name = self.name.partition("/")[2]
        self.is_alone = False
        # What came of it, once it was tried, and its key.
        self.outcome, self.key, self.text = None, None, ""
        self.pairs, self.bad = [], None
        # The crate and the name of the test that has to fail with it, where no contract can refuse it.
        self.test = None
        # The compiler's name of the error that has to stop it, if it mustn't compile.
        self.error = None
        self.functions = set()
        file = old = None
        with open(path, encoding="utf-8") as lines:
            for line in lines.read().split("\n"):
                word, found, text = line.partition(":")
                text = text.removeprefix(" ")
                if found and word == "file":
                    file = text.strip()
                elif found and word == "test":
                    self.test = tuple(text.split())
                elif found and word == "compiles":
                    answer, _, name = text.partition(" ")
                    self.error = name.strip() if answer == "no" else ""
                elif found and word == "old":
                    old = text
                elif found and word == "new" and file and old:
                    self.pairs.append((file, old, text))
                    old = None
        if not self.pairs:
            self.bad = "it has no pair of 'old:' and 'new:' below a 'file:'"
        elif not all(it.startswith("src/") and ".." not in it for it, _, _ in self.pairs):
            self.bad = "a 'file:' is not in src/, and an edit of a definition or a proof shows nothing"
        else:
            self.apply({}, folder)

    @property
    def is_outside(self):
        """Whether it changes no function."""
        return not any(name for _, _, name in self.functions)

    def apply(self, texts, folder):
        """Puts the edit into these texts by path, reading what isn't there yet; says whether it could."""
        for path, old, new in self.pairs:
            if path not in texts:
                try:
                    with open(os.path.join(folder, path), encoding="utf-8") as file:
                        texts[path] = file.read()
                except OSError:
                    self.bad = f"there is no file {path}"
                    return False
            if texts[path].count(old) != 1:
                self.bad = self.bad or f"an old text stands {texts[path].count(old)} times in {path}"
                return False
            self.is_alone = self.is_alone or bool(CLAUSE.search(old) or CLAUSE.search(new))
            place = texts[path].index(old)
            self.functions.add(function_at(texts[path], place, path))
            texts[path] = texts[path].replace(old, new)
        return True


def module_of(path):
    """The module of a source file, as the prover writes it behind the crate's name."""
    parts = path.removesuffix(".rt").split("/")[1:]
    return "" if parts in (["lib"], ["main"]) else "::".join(parts)


def function_at(text, place, path):
    """The function round a place, as (module, type or none, name), with no name outside any."""
    before = text[:place].split("\n")
    line = len(before) - 1
    whole = text.split("\n")[line]
    for at in range(line, -1, -1):
        said = whole if at == line else before[at]
        found = FN.match(said)
        if not found:
            continue
        indent = found[1]
        if any(it == indent + "}" for it in before[at + 1 : line]):
            break
        return module_of(path), type_at(before[:at], indent), found[2]
    return module_of(path), None, None


def type_at(before, indent):
    """The block that a method stands in, as the prover names it."""
    if not indent:
        return None
    for said in reversed(before):
        if IMPL.match(said) and len(said) - len(said.lstrip()) < len(indent):
            return block_name(said)
    return None


def block_name(said):
    """How the prover names a block by its first line: the type, or the type, the trait and the trait's arguments, each
    without its path and its own arguments."""
    head = re.sub(r"^.*?\b(?:impl|trait)\b", "", said.strip()).rstrip("{ ").split(" where ")[0]
    parts, depth = [""], 0
    for sign in head.strip():
        depth += (sign == "<") - (sign == ">")
        if sign == " " and not depth:
            parts.append("")
        else:
            parts[-1] += sign
    # What stands first may be the block's own parameters.
    parts = [it.rstrip(":") for it in parts if it and not it.startswith("<")]
    whole, trait = (parts[2], parts[0]) if parts[1:2] == ["for"] else (parts[0], "")
    arguments = re.sub(r"<[^<>]*>", "", trait.partition("<")[2].removesuffix(">")).split(",")
    names = [whole.partition("<")[0], trait.partition("<")[0], *(it for it in arguments if "'" not in it)]
    return "".join(re.sub(r"\W", "", it.split("::")[-1]) for it in names)


@functools.cache
def modules_of(crate):
    """The modules of a crate's files, the innermost first."""
    folder = folder_of(crate)
    files = [os.path.join(at, it) for at, _, its in os.walk(os.path.join(folder, "src")) for it in its]
    return sorted({module_of(os.path.relpath(it, folder)) for it in files}, key=len, reverse=True)


@functools.cache
def types_of(crate, module):
    """The types with blocks in a module's file that another file declares."""
    here = ""
    for at, _, its in os.walk(os.path.join(folder_of(crate), "src")):
        for it in its:
            path = os.path.join(at, it)
            if module_of(os.path.relpath(path, folder_of(crate))) == module:
                with open(path, encoding="utf-8") as source:
                    here += source.read()
    blocks = {block_name(it) for it in re.findall(r"^impl.*$", here, re.MULTILINE)}
    return blocks - set(re.findall(r"\b(?:struct|enum|union) (\w+)", here))


def is_function(crate, function, path):
    """Whether a path that the prover names is this function, a closure of it, or the laws of its block. With no name it
    is any function of the module's file."""
    module, kind, name = function
    front = "::".join(it for it in (crate, module) if it)
    if kind and not path.startswith(front + "::") and kind in types_of(crate, module):
        # The prover names a method by the module of its type, in whichever file its block stands.
        return path.startswith(crate + "::") and path.split("::")[-2:] == [kind, name]
    if not path.startswith(front + "::"):
        return False
    if name is None:
        inner = path.removeprefix(crate + "::")
        return module == next((it for it in modules_of(crate) if inner.startswith(it + "::")), "")
    rest = path[len(front) + 2 :].split("::")
    if rest[0] == "fn" and len(rest) > 1:
        rest = rest[1:]
    if kind is None:
        return rest[0] == name
    return rest[0] == kind and (len(rest) == 1 or rest[1] == name)


def is_own(crate, body, path):
    """Whether a path that the prover names is of a function that a wrong body changes, or where it changes none, of one
    in its file."""
    changed = [it for it in body.functions if it[2]] or body.functions
    return any(is_function(crate, it, path) for it in changed)


def own_functions(crate, body, functions):
    """Those of these functions, as the prover names them, that a wrong body changes; none where it changes none."""
    return [] if body.is_outside else [it for it in functions if "+" not in it and is_own(crate, body, it)]


class CopiedFunction:
    """The function that a wrong body changes, with the wrong body or as it is, under a name of its own."""

    def __init__(self, path, end, name, text):
        # In which file it goes behind which line, counted from 0, and its last name and its text.
        self.path, self.end, self.name, self.text = path, end, name, text


def copied_function(body, ending, folder, is_right=False):
    """A wrong body's function with the wrong body, or as it is, as a copy to stand after the function itself, with
    this ending of its name. None where the wrong body changes more than the text of one function, or a method of a
    trait, which can't stand there twice."""
    paths = {path for path, _, _ in body.pairs}
    if body.is_alone or body.is_outside or len(body.functions) != 1 or len(paths) != 1:
        return None
    (path,), ((_, _, name),) = paths, body.functions
    with open(os.path.join(folder, path), encoding="utf-8") as file:
        lines = file.read().split("\n")
    place = next((at for at, line in enumerate(lines) if body.pairs[0][1] in line), None)
    if place is None:
        return None
    heads = [at for at in range(place, -1, -1) if (found := FN.match(lines[at])) and found[2] == name]
    if not heads or is_of_trait(lines, heads[0]):
        return None
    start, last = heads[0], FN.match(lines[heads[0]])[1] + "}"
    end = next(at for at in range(start, len(lines)) if lines[at] == last)
    while lines[start - 1].strip().startswith(("///", "#[")):
        start -= 1
    text = "\n".join(lines[start : end + 1])
    if "#[cycle(" in text or end < place:
        return None
    changed = text
    for _, old, new in body.pairs:
        if changed.count(old) != 1:
            return None
        changed = changed.replace(old, new)
    other = name + ending
    text = text if is_right else changed
    return CopiedFunction(path, end, other, re.sub(rf"\bfn {name}\b", f"fn {other}", text, count=1))


def is_of_trait(lines, at):
    """Whether a function whose head is this line stands in a trait, or in a block that implements one."""
    indent = FN.match(lines[at])[1]
    for head in range(at - 1, -1, -1) if indent else ():
        if IMPL.match(lines[head]) and len(lines[head]) - len(lines[head].lstrip()) < len(indent):
            whole = " ".join(itertools.takewhile(lambda line: "{" not in line, lines[head:at]))
            whole += " " + next((line for line in lines[head:at] if "{" in line), "")
            return "trait " in whole.partition("{")[0] or " for " in whole.partition(" where ")[0].partition("{")[0]
    return False


def with_copies(copies, folder):
    """The texts of the files that get these copies, by their path."""
    texts = {}
    for path in {it.path for it in copies}:
        with open(os.path.join(folder, path), encoding="utf-8") as file:
            lines = file.read().split("\n")
        # From below, so that each place is still what it was.
        for it in sorted((it for it in copies if it.path == path), key=lambda it: it.end, reverse=True):
            lines[it.end + 1 : it.end + 1] = ["", *it.text.split("\n")]
        texts[path] = "\n".join(lines)
    return texts


def bodies_of(crate):
    """The wrong bodies of a crate."""
    bodies = [WrongBody(crate, it, folder_of(crate)) for it in edits_of(crate)]
    names = [it.name for it in bodies]
    for it in bodies:
        if names.count(it.name) > 1:
            it.bad = "another one has its name"
    return bodies
