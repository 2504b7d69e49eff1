#!/usr/bin/env python3
"""keeping.py: what is kept of refused wrong bodies lets no wrong body pass, over a repository of two crates and a prover that is played.

Tried are: an entry under the hash of another wrong body; a text, and a library, that is another while the prover works; a prover that is killed, or could not tell; a folder into which
others can write; and other scripts that judge. Prints each failure, and last `N passed, M failed`.
"""
import contextlib
import io
import pathlib
import shutil
import sys
import tempfile

import together
import wrong_bodies

TESTS = pathlib.Path(__file__).resolve().parent
TEXT = "pub fn f() -> u32 {\n    1\n}\n"
REFUSED, PROVED, KILLED = ("fn high::f: NOT proved: did not prove `goal`", 1), ("fn high::f: proved", 0), ("", -9)
UNTOLD = ("fn high::f: could not tell: antt ran out of the steps that the check of one declaration may take", 3)


def wrong_body(value):
    return f"file: src/lib.rt\nold:     1\nnew:     {value}\n"


class Played:
    """A repository, and the prover that is played over it."""

    def __init__(self, room):
        self.kept, self.root, self.passed, self.failed = room / "kept", room / "repository", 0, 0
        for crate in ("low", "high"):
            self.write(f"crates/{crate}/src/lib.rt", TEXT)
        self.write("crates/high/edits/two.edit", wrong_body(2))
        self.write("crates.txt", "low:\nhigh: low\n")
        self.write("tests/wrong-bodies.txt", "high/two\n")
        for it in ("edits.py", "together.py", "wrong_bodies.py"):
            self.write(f"tests/{it}", (TESTS / it).read_text())
        self.build("one")
        wrong_bodies.ROOT, wrong_bodies.LIST, wrong_bodies.KEPT = self.root, self.root / "tests/wrong-bodies.txt", self.kept
        together.run = self.prover

    def write(self, path, text):
        (self.root / path).parent.mkdir(parents=True, exist_ok=True)
        (self.root / path).write_text(text)

    def build(self, content):
        """Builds the lower library anew."""
        rlib = self.root / "crates/low/out/rlib/low.rlib"
        shutil.rmtree(rlib, ignore_errors=True)
        for it in ("format", "toolchain/checked.a"):
            self.write(f"{rlib}/{it}", content)

    def prover(self, *_):
        self.checks += 1
        self.meanwhile()
        return together.Checked(*self.answer, 1.0)

    def check(self, what, wanted, answer=PROVED, meanwhile=lambda: None):
        """Tries the wrong body with this answer of the prover. Wanted are whether it passes, and whether it is tried at all."""
        self.checks, self.answer, self.meanwhile = 0, answer, meanwhile
        with contextlib.redirect_stdout(io.StringIO()):
            status = wrong_bodies.try_all(self.root, [], True)
        got = status == 0, self.checks > 0
        self.passed, self.failed = self.passed + (got == wanted), self.failed + (got != wanted)
        if got != wanted:
            print(f"{what}: failed\n  passes and is tried: {got}\n  wanted: {wanted}")


def play(it):
    tried, taken, fails = (True, True), (True, False), (False, True)
    it.check("a refused wrong body passes", tried, REFUSED)
    it.check("it is taken as refused", taken)
    it.write("crates/high/edits/two.edit", wrong_body(3))
    it.check("another one is tried", fails)
    entry = next(it.kept.iterdir())
    it.check("it is refused", tried, REFUSED)
    other = next(found for found in it.kept.iterdir() if found != entry)
    shutil.copy(entry, other)
    it.check("an entry under the hash of another", fails)
    other.unlink()
    for answer in (UNTOLD, KILLED):
        it.check(f"a prover that ends so: {answer}", fails, answer)
    it.write("crates/high/src/lib.rt", f"{TEXT}// another text\n")
    it.check("a text that is put back while the prover works", tried, REFUSED, lambda: it.write("crates/high/src/lib.rt", TEXT))
    it.check("the text of now wasn't tried", fails)
    it.check("a library that is another while the prover works", tried, REFUSED, lambda: it.build("other"))
    it.build("one")
    it.check("the library of now wasn't tried over", fails)
    it.check("it is refused once more", tried, REFUSED)
    it.kept.chmod(0o777)
    it.check("others can write into the folder", fails)
    it.kept.chmod(0o700)
    it.check("no other can", taken)
    it.write("tests/edits.py", "# another judge\n")
    wrong_bodies.judge.cache_clear()
    it.check("another judge refused it", fails)


def main():
    with tempfile.TemporaryDirectory() as room:
        it = Played(pathlib.Path(room))
        play(it)
    print(f"{it.passed} passed, {it.failed} failed")
    return 1 if it.failed else 0


if __name__ == "__main__":
    sys.exit(main())
