"""Whether wrong bodies of each kind are told apart, and whether a key changes where it has to and only there: on two
small crates that are made for it."""

import os
import re
import shutil
import subprocess
import sys
import tempfile
from concurrent.futures import ThreadPoolExecutor

from bodies.repository import logic

FILES = {
    "HANDLES": "Handles allowed: Threads, Wait, Net.\n",
    "crates.txt": "base_sample:\nsample: base_sample\ntest_sample: sample\n",
    "crates/test_sample/src/lib.rt": """//! Tests of the sample.
#![tactic(auto)]

#[cfg(test)]
mod tests;
""",
    "crates/test_sample/src/tests.rt": """//! What the sample comes to.

use sample::twice;
use std::test::Fail;

#[test]
fn twice_three_is_six(rt: HostRuntime) -> Result<(), Fail> {
    assert_eq!(rt; twice(3), 6);
    Ok(())
}
""",
    "crates/base_sample/specs/Lib.antt": "pub mod Bound\n",
    "crates/base_sample/specs/Bound.antt": """use Rattle.std.specs.Prelude.{ℕ}

-- the bound
abbrev pub bound : ℕ
bound = 100
""",
    "crates/base_sample/src/lib.rt": """//! What the sample stands on.
#![tactic(auto)]

ghost use Rattle.std.specs.Prelude.{◌≡◌, ◌≤◌, ◌<◌};
ghost use Rattle.base_sample.specs.Bound.{bound};

/// The number, or 90 where it is greater.
pub fn cap(n: u8) -> u8
    ensures capped { result ≤ bound }
    ensures same { n < 90 → result ≡ n }
{
    if n < 90 { n } else { 90 }
}
""",
    "crates/sample/specs/Lib.antt": "pub mod Times\n",
    "crates/sample/specs/Times.antt": """use Rattle.std.specs.Prelude.{ℕ, ◌+◌, ◌*◌}

-- twice a number
abbrev pub twice_of : ℕ → ℕ
twice_of n = n + n

-- six times a number
unfoldable pub six_of : ℕ → ℕ
six_of n = 6 * n

-- three times a number
unfoldable pub thrice_of : ℕ → ℕ
thrice_of n = n + n + n
""",
    "crates/sample/proofs/Lib.antt": "mod TimesLemmas\n",
    "crates/sample/proofs/TimesLemmas.antt": """use Rattle.std.proofs.Common.{◌≡◌, ℕ, ◌+◌, ◌*◌, refl}
use Rattle.sample.specs.Times.{six_of, thrice_of}

-- three times a number is its sum
pub thrice-is : (m : ℕ) → m + m + m ≡ thrice_of m
unfolding thrice_of
thrice-is m = refl

-- what six times a number is
pub six_is : (m : ℕ) → six_of m ≡ 6 * m
unfolding six_of
six_is m = refl
""",
    "crates/sample/proofs/thrice/Answers.antt": """use Rattle.sample.proofs.TimesLemmas.{thrice-is}
use Rattle.sample.proofs.thrice.Goals as goal

pub returns : goal.returns
returns c = thrice-is c.args.n
""",
    "crates/sample/proofs/fives/Answers.antt": """use Rattle.std.proofs.Common.{arith}
use Rattle.sample.proofs.fives.Goals as goal

pub returns : goal.returns
returns c = omega (arith, c.args.n, c.requires.small)
""",
    "crates/sample/src/lib.rt": """//! A sample of functions.
#![tactic(auto)]

ghost use Rattle.std.specs.Prelude.{◌≡◌, ◌+◌, ◌*◌, ◌≤◌, ◌<◌};
ghost use Rattle.base_sample.specs.Bound.{bound};
ghost use Rattle.sample.specs.Times.{six_of, thrice_of, twice_of};

use base_sample::cap;

/// One more than what is capped.
pub fn above(n: u8) -> u8
    ensures { result ≤ bound + 1 }
{
    cap(n) + 1
}

/// Twice a number.
pub fn twice(n: u8) -> u16
    ensures { result ≡ twice_of n }
{
    let k = n as u16;
    k + k
}

/// Four times a small number.
pub fn four_times(n: u8) -> u16
    requires { n < 50 }
    ensures { result ≡ 4 * n }
{
    2 * twice(n)
}

/// Three times a number.
pub fn thrice(n: u8) -> u16
    ensures { result ≡ thrice_of n }
{
    let m = n as u16;
    m + m + m
}

/// Six times a number.
#[tactic(auto, using(crate::proofs::TimesLemmas::six_is))]
pub fn six_times(n: u8) -> u16
    ensures { result ≡ six_of n }
{
    6 * (n as u16)
}

/// Five times a small number.
pub fn fives(n: u8) -> u8
    requires small { n < 50 }
    requires some { 0 < n }
    ensures { result ≡ 5 * n }
{
    5 * n
}

/// What has a size.
pub trait Size {
    /// Its size.
    fn size(&self) -> u8
        ensures { result ≤ 8 };
}

/// Something small.
pub struct Small;

impl Size for Small {
    fn size(&self) -> u8
        ensures { result ≤ 8 }
    {
        8
    }
}
""",
}
# By name: the crate and the lines of an edit, and what has to be said of it.
KINDS = {
    "copied": (("sample", "file: src/lib.rt", "old:     5 * n", "new:     4 * n"), "sample/copied: refused at its own function: sample::fives: "),
    "of_a_trait": (("sample", "file: src/lib.rt", "old:         8", "new:         9"), "sample/of_a_trait: refused at its own function: sample::SmallSize::size: "),
    "with_a_proof_file": (("sample", "file: src/lib.rt", "old: m + m + m", "new: m + m + m + 1"), "sample/with_a_proof_file: refused at its own function: sample::thrice: "),
    "weaker_contract": (
        ("sample", "file: src/lib.rt", "old: ensures { result ≡ twice_of n }", "new: ensures { result ≤ 510 }"),
        "sample/weaker_contract: FAILED: refused, but not at its own function: sample::four_times: ",
    ),
    "another_name": (
        ("sample", "file: src/lib.rt", "old: requires small { n < 50 }", "new: requires little { n < 50 }"),
        "sample/another_name: FAILED: refused only because a proof names what it took away: ",
    ),
    "harmless_with_a_proof_file": (
        ("sample", "file: src/lib.rt", "old: m + m + m", "new: (m + m) + m"), "sample/harmless_with_a_proof_file: FAILED: not refused: ",
    ),
    "harmless": (("sample", "file: src/lib.rt", "old: cap(n) + 1", "new: 1 + cap(n)"), "sample/harmless: FAILED: not refused: "),
    "seen_by_a_test": (
        ("sample", "test: test_sample tests::twice_three_is_six", "file: src/lib.rt", "old: k + k", "new: k + k + 1"),
        "sample/seen_by_a_test: refused by its test: test_sample tests::twice_three_is_six",
    ),
    "unseen_by_a_test": (
        ("sample", "test: test_sample tests::twice_three_is_six", "file: src/lib.rt", "old:     5 * n", "new:     4 * n"),
        "sample/unseen_by_a_test: FAILED: not refused: test_sample tests::twice_three_is_six passes with it",
    ),
    "no_code_for_a_test": (
        ("sample", "test: test_sample tests::twice_three_is_six", "file: src/lib.rt", "old: k + k", "new: k + thrive"),
        "sample/no_code_for_a_test: FAILED: bad edit: its test was not run: ",
    ),
    "by_no_test": (
        ("sample", "test: test_sample tests::twice_four", "file: src/lib.rt", "old: k + k", "new: k"),
        "sample/by_no_test: FAILED: bad edit: its line 'test:' names no crate with a test of this name",
    ),
    "moved_twice": (
        ("sample", "compiles: no borrow-e0382", "file: src/lib.rt", "old: /// Something small.",
         "new: fn pair(small: Small) -> (Small, Small) { (small, small) } /// Something small."),
        "sample/moved_twice: refused by the compiler: src/lib.rt:",
    ),
    "moved_twice_and_no_code": (
        ("sample", "compiles: no borrow-e0382", "file: src/lib.rt", "old: /// Something small.",
         "new: fn pair(small: Small) -> (Small, Small) { thrive(small, small) } /// Something small."),
        "sample/moved_twice_and_no_code: FAILED: bad edit: the compiler stops at another error than borrow-e0382: ",
    ),
    "moved_once": (
        ("sample", "compiles: no borrow-e0382", "file: src/lib.rt", "old: /// Something small.",
         "new: fn same(small: Small) -> Small { small } /// Something small."),
        "sample/moved_once: FAILED: not refused: it compiles",
    ),
    "refused_though_it_compiles": (
        ("sample", "compiles: no borrow-e0382", "file: src/lib.rt", "old:     5 * n", "new:     4 * n"),
        "sample/refused_though_it_compiles: FAILED: not refused: it compiles",
    ),
    "by_no_error": (
        ("sample", "compiles: no", "file: src/lib.rt", "old:     5 * n", "new:     4 * n"),
        "sample/by_no_error: FAILED: bad edit: its line 'compiles:' isn't 'no' and the name of an error",
    ),
    "no_code": (("sample", "file: src/lib.rt", "old: 2 * twice(n)", "new: 2 * thrive(n)"), "sample/no_code: FAILED: bad edit: it did not reach the prover"),
    "nowhere": (("base_sample", "file: src/lib.rt", "old: nothing.of.this()", "new: 0"), "base_sample/nowhere: FAILED: bad edit: an old text stands 0 times"),
    "definition": (
        ("base_sample", "file: specs/Lib.antt", "old: pub mod Bound", "new: pub mod Bound"),
        "base_sample/definition: FAILED: bad edit: a 'file:' is not in src/",
    ),
}  # fmt: skip
# Wrong bodies whose keys are looked at, each of another function, and one that mustn't compile.
KEPT = {
    "too_high": ("sample", "file: src/lib.rt", "old: cap(n) + 1", "new: cap(n) + 12"),
    "one_more": ("sample", "file: src/lib.rt", "old: k + k", "new: k + k + 1"),
    "three_times": ("sample", "file: src/lib.rt", "old: 2 * twice(n)", "new: 3 * twice(n)"),
    "seven_times": ("sample", "file: src/lib.rt", "old: 6 * (n", "new: 7 * (n"),
    "only_twice": ("sample", "file: src/lib.rt", "old: m + m + m", "new: m + m"),
    "moved_twice": KINDS["moved_twice"][0],
}
# What is changed: a file, a text in it and another in its place, and the wrong bodies whose keys it has to change.
CHANGES = {
    "nothing": ("crates.txt", "sample", "sample", set()),
    "a comment": ("crates/sample/src/lib.rt", "/// Twice a number.", "// A comment.\n/// Twice a number, as it is.", set()),
    "another function": (
        "crates/sample/src/lib.rt", "/// Something small.", "/// Five.\npub fn five() -> u8 {\n    5\n}\n\n/// Something small.", {"moved_twice"},
    ),
    "a lemma": ("crates/sample/proofs/TimesLemmas.antt", "six_of m ≡ 6 * m", "6 * m ≡ six_of m", {"moved_twice", "seven_times"}),
    "a contract of what is called": (
        "crates/sample/src/lib.rt", "ensures { result ≡ twice_of n }", "ensures { result ≡ 2 * n }", {"moved_twice", "one_more", "three_times"},
    ),
    "a definition": ("crates/sample/specs/Times.antt", "twice_of n = n + n\n", "twice_of n = 2 * n\n", {"moved_twice", "one_more", "three_times"}),
    "a definition of a library": ("crates/base_sample/specs/Bound.antt", "bound = 100", "bound = 101", {"moved_twice", "too_high"}),
}  # fmt: skip


def write(top, files):
    """Writes these files below a folder."""
    for path, text in files.items():
        whole = os.path.join(top, path)
        os.makedirs(os.path.dirname(whole), exist_ok=True)
        with open(whole, "w", encoding="utf-8") as file:
            file.write(text)


def put_edits(top, edits):
    """Gives the sample's crates these wrong bodies and no others."""
    for crate in os.listdir(os.path.join(top, "crates")):
        shutil.rmtree(os.path.join(top, "crates", crate, "wrong"), ignore_errors=True)
    for name, (crate, *lines) in edits.items():
        write(top, {f"crates/{crate}/wrong/{name}.edit": "\n".join([*lines, ""])})


def said_of(script, top, *words):
    """What the script says of a repository, line by line."""
    how = {"stdin": subprocess.DEVNULL, "stdout": subprocess.PIPE, "stderr": subprocess.STDOUT, "text": True}
    return subprocess.run([sys.executable, script, "--top", top, *words], **how, check=False).stdout.split("\n")


def refused_by(top, version, its_logic):
    """Has all that was refused in the sample be refused by one other version of the toolchain."""
    path = os.path.join(top, "crates", "sample", "wrong", "passed")
    with open(path, encoding="utf-8") as file:
        head, *lines = file.readlines()
    words = {it.split(" ", 2)[1]: it.partition(" ")[2] for it in lines}
    with open(path, "w", encoding="utf-8") as file:
        file.writelines([head, *(f"{version}{its_logic} {its}" for its in words.values())])


def tried(lines):
    """Those of which a line says that they were tried and refused."""
    said = re.compile(r"\w+/(\w+): refused (?:at its own function|by the compiler): ")
    return {found[1] for it in lines if (found := said.match(it))}


def after_change(script, room, name):
    """Which wrong bodies are tried again after a change, in a copy in another folder, and how the run ended."""
    path, old, new, _ = CHANGES[name]
    top = os.path.join(room, name.replace(" ", "_"))
    shutil.copytree(os.path.join(room, "sample"), top)
    with open(os.path.join(top, path), encoding="utf-8") as file:
        text = file.read()
    write(top, {path: text.replace(old, new, 1)})
    lines = said_of(script, top, "--jobs", "1")
    return tried(lines), lines


def self_test(script, jobs):
    """Runs it, and gives the exit status."""
    failed = passed = 0

    def expect(what, is_so, lines):
        nonlocal failed, passed
        passed, failed = passed + is_so, failed + (not is_so)
        if not is_so:
            print("\n".join([f"self-test: {what}: it said", *lines]))

    with tempfile.TemporaryDirectory(prefix="wrong-bodies-") as room:
        top = os.path.join(room, "sample")
        write(top, FILES)
        put_edits(top, {it: edit for it, (edit, _) in KINDS.items()})
        lines = said_of(script, top, "--jobs", str(jobs))
        for name, (_, start) in KINDS.items():
            expect(f"of {name} it should say '{start}'", any(it.startswith(start) for it in lines), lines)
        lines = said_of(script, top, "--edits")
        for name in ("nowhere", "definition", "by_no_test", "by_no_error"):
            expect(
                f"of {name} it should say so at once, too", any(it.startswith(KINDS[name][1]) for it in lines), lines
            )
        expect("all others can be applied", f"{len(KINDS) - 4} passed, 4 failed" in lines, lines)
        put_edits(top, KEPT)
        lines = said_of(script, top, "--edits")
        expect("each can be applied", f"{len(KEPT)} passed, 0 failed" in lines, lines)
        lines = said_of(script, top, "--jobs", str(jobs))
        expect("each is tried where none was yet", tried(lines) == set(KEPT), lines)
        lines = said_of(script, top, "--again", "2", "--seed", "1")
        expect("two are tried again where that is wanted", len(tried(lines)) == 2, lines)
        refused_by(top, "another-kit-logic-", logic())
        lines = said_of(script, top)
        expect("what another version of the same logic refused isn't tried", not tried(lines), lines)
        by_others = f"{len(KEPT):5} of these by another version of the toolchain alone, of the same logic"
        expect("how many these are is said", by_others in lines and f"{len(KEPT)} passed, 0 failed" in lines, lines)
        lines = said_of(script, top, "--again", "2", "--seed", "1")
        expect("two of these are tried where that is wanted", len(tried(lines)) == 2, lines)
        refused_by(top, "another-kit-logic-", "0123456789abcdef")
        lines = said_of(script, top, "--jobs", str(jobs))
        expect("what a version of another logic refused is tried", tried(lines) == set(KEPT), lines)
        with ThreadPoolExecutor(jobs) as pool:
            runs = {it: pool.submit(after_change, script, room, it) for it in CHANGES}
            for name, run in runs.items():
                again, lines = run.result()
                expect(
                    f"{name} changed: {sorted(CHANGES[name][3])} should be tried again",
                    again == CHANGES[name][3],
                    lines,
                )
                expect(f"{name} changed: it should end well", f"{len(KEPT)} passed, 0 failed" in lines, lines)
                is_proved = any(it.startswith("wrong_bodies: proves ") for it in lines)
                expect(f"{name} changed: it is proved only if a text changed", is_proved == (name != "nothing"), lines)
    print(f"{passed} passed, {failed} failed")
    return 1 if failed else 0
