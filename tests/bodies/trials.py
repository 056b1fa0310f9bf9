"""Trials of wrong bodies: many in one check, as copies of their functions under other names, and the others one round
after the other."""

import os
import shutil
import sys
import threading
from enum import Enum

from bodies.edits import copied_function, is_own, own_functions, with_copies
from bodies.prover import Copy
from bodies.repository import folder_of

# How many copies go into one check, and about how many wrong bodies through one folder, one round after the other.
COPIES = 16
LANE = 16
# In how many rounds a wrong body that waits for others is put before it is tried alone.
MOST_ROUNDS = 4


def say(text):
    """Tells a person how far it is."""
    print(f"wrong_bodies: {text}", file=sys.stderr, flush=True)


class Outcome(Enum):
    """What came of a wrong body."""

    OWN = "refused at its own function"
    TEST = "refused by its test"
    COMPILER = "refused by the compiler"
    ELSEWHERE = "refused, but not at its own function"
    NAMES = "refused only because a proof names what it took away"
    PROVED = "not refused"
    BAD = "bad edit"
    UNTRIED = "not tried"
    LEFT = "left, since the time was up"


# How a wrong body has to be refused.
REFUSED = (Outcome.OWN, Outcome.TEST, Outcome.COMPILER)


class Told:
    """What was told of each wrong body; it is printed, too, where it is shown."""

    def __init__(self, count, known, is_shown=True):
        self.count, self.known, self.known_elsewhere, self.is_shown = count, known, 0, is_shown
        self.outcomes, self.lines, self.failed, self.left = [], {}, [], []
        self.lock = threading.Lock()

    def __call__(self, body, outcome, why):
        is_well = outcome in (*REFUSED, Outcome.LEFT)
        body.outcome = outcome
        with self.lock:
            self.failed += [] if is_well else [body.name]
            self.left += [body.name] if outcome is Outcome.LEFT else []
            self.outcomes.append(outcome)
            self.lines[body.name] = f"{outcome.value}: {why}"
            if self.is_shown and outcome is not Outcome.LEFT:
                print(f"{body.name}: {'' if is_well else 'FAILED: '}{self.lines[body.name]}", flush=True)
            if self.is_shown and outcome is not Outcome.LEFT and len(self.outcomes) % 10 == 0:
                say(f"{len(self.outcomes)} tried")

    def sum_up(self):
        """Prints how many there are of each kind, and which failed, and then the last line; gives the exit status."""
        print(f"{self.known:5} refused earlier, and all that this rests on is the same")
        print(f"{self.known_elsewhere:5} of these by another version of the toolchain alone, of the same logic")
        for outcome in Outcome:
            print(f"{self.outcomes.count(outcome):5} {outcome.value}")
        if self.left:
            print(f"LEFT: {' '.join(sorted(self.left))}")
        if self.failed:
            print(f"FAILED: {' '.join(self.failed)}")
        # One of which nothing was told would be a fault of this script.
        passed = self.known + sum(map(self.outcomes.count, REFUSED))
        failed = self.count - passed - len(self.left)
        print(f"{passed} passed, {failed} failed")
        return 1 if failed else 0


class Trial:
    """Some wrong bodies of one crate, and a copy of it in which they are tried."""

    def __init__(self, proof, folder, bodies, tell):
        self.proof, self.crate, self.bodies, self.tell = proof, proof.crate, bodies, tell
        # How many jobs a check has.
        self.folder, self.jobs = folder, 1
        # By the functions that a wrong body changes: those for whose proof they wait.
        self.waits = {}

    def run(self):
        """Tries them, tells what came of each that was seen at its own function, and gives a trial for each other."""
        if self.proof.lack:
            for body in self.bodies:
                self.tell(body, Outcome.UNTRIED, self.proof.lack)
            return []
        due = []
        for body in self.bodies:
            if body.bad:
                self.tell(body, Outcome.BAD, body.bad)
            else:
                due.append(body)
        if self.leaves(due):
            return []
        self.copy = Copy(self.proof, self.folder, self.jobs)
        alone = self.try_all(due)
        shutil.rmtree(self.copy.folder)
        return [Alone(self.proof, f"{self.folder}-{it.short_name}", [it], self.tell) for it in alone]

    def leaves(self, due):
        """Whether the time is up; tells so of those that are due then."""
        is_late = self.proof.is_late
        if is_late:
            for body in due:
                self.tell(body, Outcome.LEFT, "it was not come to")
        return is_late

    def own_functions(self, body):
        """The functions that a wrong body changes, as the prover names them; none where it changes none."""
        return own_functions(self.crate, body, self.proof.functions)

    def is_own(self, body, path):
        """Whether a path that the prover names is of a function that the wrong body changes, or where it changes none,
        of one in its file."""
        return is_own(self.crate, body, path)

    def own_refusal(self, body, said):
        """Where and why the prover refused a wrong body at its own function, by more than a name that was taken away;
        or none."""
        for path, (why, is_contract) in said.refused.items():
            if is_contract and self.is_own(body, path):
                return f"{path}: {why[:200]}"
        return None

    def try_alone(self, body):
        """Tries one wrong body alone, and tells what came of it."""
        texts = {}
        body.apply(texts, self.copy.folder)
        own = self.own_functions(body)
        said = self.copy.check(texts, own) if own else None
        if said and said.reached_prover and not said.unread(texts) and self.own_refusal(body, said):
            self.tell(body, Outcome.OWN, self.own_refusal(body, said))
        else:
            self.tell(body, *self.judged(body, texts, self.copy.check(texts)))

    def judged(self, body, texts, said):
        """What came of a wrong body that was tried alone, and where or why."""
        if not said.reached_prover:
            return Outcome.BAD, f"it did not reach the prover: {said.first_error()}"
        if said.unread(texts):
            return Outcome.BAD, f"the prover cannot read the edited text: {said.unread(texts)[:200]}"
        untried = [why for path, why in said.untried.items() if self.is_own(body, path)]
        if untried:
            return Outcome.BAD, f"the checker tried no contract of such code: {untried[0][:200]}"
        if said.is_proved:
            return Outcome.PROVED, "the crate is still proved with it"
        own = self.own_refusal(body, said)
        if own:
            return Outcome.OWN, own
        others = {path: why for path, (why, is_contract) in said.refused.items() if is_contract}
        names = {path: why for path, (why, is_contract) in said.refused.items() if not is_contract}
        outcome = Outcome.NAMES if names and not others else Outcome.ELSEWHERE
        for path, why in (others or names).items():
            return outcome, f"{path}: {why[:200]}"
        return outcome, f"the prover names no function: {said.first_error()}"


class Alone(Trial):
    """One wrong body that is tried alone."""

    def try_all(self, due):
        """Tries it, and leaves none."""
        for body in due:
            self.try_alone(body)
        return []


class Uncompiled(Trial):
    """Wrong bodies that mustn't compile, one after the other."""

    def try_all(self, due):
        """Tries each, and leaves none."""
        for body in due:
            texts = {}
            body.apply(texts, self.copy.folder)
            self.tell(body, *self.judged_by_compiler(body, self.copy.check(texts)))
        return []

    def judged_by_compiler(self, body, said):
        """What came of a wrong body that mustn't compile, and why: each error has to be the one that it names."""
        if said.reached_prover:
            return Outcome.PROVED, "it compiles"
        if said.errors != {body.error}:
            return Outcome.BAD, f"the compiler stops at another error than {body.error}: {said.first_error()}"
        return Outcome.COMPILER, said.first_error()


class Copies(Trial):
    """Wrong bodies in copies of their functions, which stand after the functions themselves: one check of them all. A
    copy of each function as it is stands beside them: only where that is proved does a refusal say something."""

    def try_all(self, due):
        """Tries them in one check: tells those whose copy is refused, and returns the others."""
        copies, controls, texts = {}, {}, {}
        for number, body in enumerate(due):
            own = self.own_functions(body)
            copied = self.copied(own, body, f"_wrong{number}", texts)
            if copied:
                copies[body] = (own[0], copied)
                if own[0] not in controls:
                    controls[own[0]] = self.copied(own, body, f"_right{number}", texts, is_right=True)
        if not copies:
            return due
        both = [*(it for _, it in copies.values()), *controls.values()]
        texts.update(with_copies(both, self.copy.folder))
        names = {body: beside(own, it) for body, (own, it) in copies.items()}
        rights = {own: beside(own, it) for own, it in controls.items()}
        said = self.copy.check(texts, [*names.values(), *rights.values()])
        if not said.reached_prover or said.unread(texts):
            # One that can't be read hides the others.
            middle = len(due) // 2
            return due if len(due) == 1 else [*self.try_all(due[:middle]), *self.try_all(due[middle:])]
        unseen = []
        for body in due:
            why, is_contract = said.refused.get(names.get(body), ("", False))
            if is_contract and rights[copies[body][0]] in said.proved:
                self.tell(body, Outcome.OWN, f"{copies[body][0]}: {why[:200]}")
            else:
                unseen.append(body)
        return unseen

    def copied(self, own, body, ending, texts, is_right=False):
        """A copy of a wrong body's function, if there can be one; the files of its proof go to the texts."""
        if len(own) != 1 or self.copy.has_cycle(own[0]):
            return None
        copied = copied_function(body, ending, self.copy.folder, is_right)
        if copied:
            texts.update(self.proof_files(own[0], copied.name))
        return copied

    def proof_files(self, path, name):
        """The files of the proof of a function, for its copy of that name."""
        *outer, last = path.split("::")[1:]
        front = ".".join(["proofs", *outer])
        folder = os.path.join("proofs", *outer, name)
        files = self.copy.proof_files(path)
        renamed = {it: text.replace(f"{front}.{last}.", f"{front}.{name}.") for it, text in files.items()}
        return {os.path.join(folder, it): text for it, text in renamed.items()}


def beside(path, copied):
    """How the prover names a copy of the function that it names so."""
    return f"{path.rpartition('::')[0]}::{copied.name}"


class Rounds(Trial):
    """Wrong bodies of different functions, which are tried together, one of each function in a round."""

    def try_all(self, due):
        """Tries them until each was seen at its own function, and returns those that are to be tried alone."""
        alone, tries = [], {}
        while due:
            if self.leaves([*due, *alone]):
                return []
            together, texts, due = self.split_off(due)
            for body in together:
                tries[body.name] = tries.get(body.name, 0) + 1
            # One that waited for another goes into a later round.
            unseen = self.try_together(together, texts)
            again = [it for it in unseen if self.waits.get(frozenset(it.functions)) and tries[it.name] < MOST_ROUNDS]
            due = again + due
            alone += [it for it in unseen if it not in again]
        return alone

    def learn(self, body, said):
        """Notes for which functions a wrong body waits that wasn't seen: those that its own call, whatever these wait
        for, and so on."""
        found, due = set(), [it for it in said.waits if self.is_own(body, it)]
        while due:
            it = due.pop()
            new = (said.waits.get(it, set()) | said.blocks.get(it, set())) - found
            found |= new
            due += new
        self.waits.setdefault(frozenset(body.functions), set()).update(found)

    def waits_for(self, one, other):
        """Whether one wrong body is known to wait for a function that the other changes."""
        return any(self.is_own(other, path) for path in self.waits.get(frozenset(one.functions), ()))

    def are_apart(self, one, other):
        """Whether two wrong bodies may be tried together."""
        shares = one.is_alone or other.is_alone or one.is_outside or other.is_outside
        shares = shares or one.functions & other.functions
        # What stands outside functions may mean something for each of its file.
        for this, that in ((one, other), (other, one)):
            wide = {module for module, _, name in this.functions if name is None}
            shares = shares or wide & {module for module, _, _ in that.functions}
        return not (shares or self.waits_for(one, other) or self.waits_for(other, one))

    def split_off(self, due):
        """Wrong bodies for a round, the texts with them, and the rest."""
        together, texts, rest = [], {}, []
        for body in due:
            tried = dict(texts)
            if all(self.are_apart(body, it) for it in together) and body.apply(tried, self.copy.folder):
                texts = tried
                together.append(body)
            else:
                body.bad = None
                rest.append(body)
        return together, texts, rest

    def try_together(self, together, texts):
        """One round: tells those that were refused at their own function, and returns the others."""
        if len(together) == 1:
            self.try_alone(together[0])
            return []
        own = [self.own_functions(it) for it in together]
        said = self.copy.check(texts, [it for its in own for it in its]) if all(own) else self.copy.check(texts)
        if not said.reached_prover or said.unread(texts):
            middle = len(together) // 2
            unseen = []
            for half in (together[:middle], together[middle:]):
                texts = {}
                for body in half:
                    body.apply(texts, self.copy.folder)
                unseen += self.try_together(half, texts)
            return unseen
        unseen = []
        for body in together:
            own = self.own_refusal(body, said)
            if own:
                self.tell(body, Outcome.OWN, own)
            else:
                self.learn(body, said)
                unseen.append(body)
        return unseen


def trials_of(proof, room, bodies, tell):
    """The wrong bodies of a crate in trials: those that mustn't compile, as copies of their functions those that can
    stand so, those of one function together, and the others, those of one function apart, since they would take a
    round each."""
    uncompiled = [it for it in bodies if it.error]
    in_turn = sorted((it for it in bodies if not it.error), key=lambda it: sorted(map(str, it.functions)))
    copied = [it for it in in_turn if not it.bad and copied_function(it, "_wrong", folder_of(it.crate))]
    others = [it for it in in_turn if it not in copied]
    found = [Uncompiled(proof, os.path.join(room, proof.crate, "uncompiled"), uncompiled, tell)] if uncompiled else []
    for at in range(0, len(copied), COPIES):
        folder = os.path.join(room, proof.crate, f"copies{at}")
        found.append(Copies(proof, folder, copied[at : at + COPIES], tell))
    count = -(-len(others) // LANE)
    for at in range(count):
        found.append(Rounds(proof, os.path.join(room, proof.crate, f"rounds{at}"), others[at::count], tell))
    return found
