#!/usr/bin/env python3
"""suite.py PART ..: runs these parts of the tests, one behind the other, and adds up what passed.
suite.py quick [CRATE ..]: those alone that a change reaches.

    tests     builds the programs before any proof (tools/unproved.py) and runs all stored tests over them; whether wrong bodies can be put into the text of now,
              and what the pages name is there
    proofs    the merge gate `rt ci`, in place; then the stored tests over the programs that it leaves, as each of its two compilers builds them; beside it wrong bodies
              that contracts refuse (tests/wrong_bodies.py), and others that stored sessions refuse (tests/giving_up.py)
    quick     `rt check`, which keeps its work in each crate's out/, of the crates that differ from the last commit, or of these, and of those above them, lowest
              first; and `tests`. It is not the gate. The first check of a crate on a machine proves all of it, and what is below

As many commands run side by side as RT_JOBS says, by default one a processor. What a command prints is shown once it ends. The lines that name a failure are shown once more
at the end, as a long log may be kept from its end alone. The last line is `N passed, M failed`, and the exit status is 1 where one failed.
"""
import concurrent.futures
import os
import pathlib
import re
import shutil
import subprocess
import sys
import tempfile
import threading
import time
from typing import NamedTuple

import reach

ROOT = pathlib.Path(__file__).resolve().parent.parent
LANES = int(os.environ.get("RT_JOBS") or len(os.sched_getaffinity(0)))
COUNT = re.compile(r"^(\d+) passed, (\d+) failed$", re.MULTILINE)
FAILURE = re.compile(r"FAILED|NOT PROVED|BAD EDIT|: failed\b")
PROGRAMS = ("adalib", "adabuild", "adals")
# Of how many growths of memory one is refused in the tests before any proof; over the programs that are proved each is.
SOME = 8
# How `rt ci` has what each of its compilers builds end.
COMPILERS = ("", ".by-rattle")


class Command(NamedTuple):
    """A command of a part. It runs after those that it names; a program that it is to test must be there then. Its last line counts what passed, or else it counts as one.
    With no lane it runs beside all others, at the lowest priority. A live one is shown as it goes on."""

    name: str
    words: list
    after: tuple = ()
    program: pathlib.Path | None = None
    folder: pathlib.Path = ROOT
    counts: bool = True
    lanes: int = 1
    is_live: bool = False


def python(script, *words):
    return [sys.executable, f"{ROOT}/{script}", *map(str, words)]


def stored_tests(program, path, after, every=1):
    """The stored tests of one of the programs, the longest first; of growths of memory one of so many is refused."""
    named = {
        "adalib": {
            "refused memory": ["memory.py", "--every", every],
            "stored sessions": ["sessions.py"],
            "listings of code": ["listings.py"],
            "Ada programs": ["programs.py"],
            "failing devices": ["devices.py"],
        },
        "adabuild": {"folders": ["folders.py"], "diagnostics": ["diagnostics.py"], "traces": ["traces.py"], "images": ["machine.py"]},
        "adals": {"an editor": ["editor.py", "--adalib", str(path).replace("adals", "adalib")]},
    }
    return [Command(f"{name} of {path.relative_to(ROOT)}", python(f"tests/{words[0]}", *words[1:], path), after, path) for name, words in named[program].items()]


def tests():
    builds = [Command(f"build of {it}", python("tools/unproved.py", it, ROOT / "out" / it), counts=False) for it in PROGRAMS]
    texts = [
        Command("texts of wrong bodies", python("tests/wrong_bodies.py", "apply")),
        Command("what is kept of wrong bodies", python("tests/keeping.py")),
        Command("what the pages name", python("tests/pages.py")),
        Command("alternatives of the grammar", python("tests/alternatives.py"), counts=False),
    ]
    # what an editor is told is held against what adalib says
    after = {it: (build.name, builds[0].name) if it == "adals" else (build.name,) for it, build in zip(PROGRAMS, builds)}
    stored = [test for it in PROGRAMS for test in stored_tests(it, ROOT / "out" / it, after[it], SOME)]
    library = ROOT / "out" / PROGRAMS[0]
    installing = Command("programs where they stay", python("tests/installing.py"), tuple(it.name for it in builds), library)
    return [*builds, *texts, *stored, installing, Command("bodies that are only slow", python("tests/costs.py", library), (builds[0].name,), library)]


def proofs(room):
    for earlier in ROOT.glob("crates/*/out/rlib"):
        # at its end rt ci would put it back in the place of its own, over which wrong bodies are tried
        shutil.rmtree(earlier)
    gate = Command("rt ci", ["rt", "ci"], lanes=LANES, is_live=True)
    beside = [
        Command("wrong bodies", python("tests/wrong_bodies.py", "beside", log_of(room, gate)), lanes=0),
        Command("bodies that give up", python("tests/giving_up.py"), lanes=0),
    ]
    built = [(it, ROOT / "crates" / it / "out" / f"{it}{ending}") for ending in COMPILERS for it in PROGRAMS]
    return [*beside, gate, *(test for it, path in built for test in stored_tests(it, path, (gate.name,)))]


def quick(names):
    named = reach.named_libraries()
    reached = reach.reached_by(set(names) or reach.changed_crates(), named)
    name_of = "check of {}".format
    checks = [Command(name_of(it), ["rt", "check"], [name_of(low) for low in named[it] if low in reached], folder=ROOT / "crates" / it, counts=False) for it in reached]
    return [*checks, *tests()]


def touched():
    """What tells whether a file that the tests read was changed, also where it was changed back."""
    folders = [*(it / part for it in ROOT.glob("crates/*") for part in ("src", "specs", "proofs", "must-fail", "edits")), ROOT / "tests"]
    files = [ROOT / "crates.txt", *(it for folder in folders for it in folder.rglob("*") if it.is_file() and "__pycache__" not in it.parts)]
    return {(str(it.relative_to(ROOT)), found.st_ino, found.st_size, found.st_mtime_ns, found.st_ctime_ns) for it in files for found in [it.stat()]}


def log_of(room, command):
    """Where a command's output goes; once it has ended there is a file of that name with `.ended` behind it."""
    return room / f"{re.sub('[ /]', '-', command.name)}.log"


class Suite:
    def __init__(self, room):
        self.room, self.passed, self.failed, self.why = room, 0, 0, []
        self.printing = threading.Lock()

    def run(self, commands):
        left, running, ended = [*commands], {}, set()
        with concurrent.futures.ThreadPoolExecutor(len(commands)) as pool:
            while left or running:
                for it in [it for it in left if ended.issuperset(it.after)]:
                    if it.lanes <= LANES - sum(other.lanes for other in running.values()):
                        left.remove(it)
                        running[pool.submit(self.one, it)] = it
                for it in concurrent.futures.wait(running, return_when=concurrent.futures.FIRST_COMPLETED).done:
                    ended.add(running.pop(it).name)
                    it.result()

    def one(self, command):
        """Runs a command, shows what it printed, and counts what passed."""
        began = time.monotonic()
        if command.program is None or os.access(command.program, os.X_OK):
            status, said = self.said_by(command)
            passed, failed = counted(command, status, said)
        else:
            said, passed, failed = f"FAILED: {command.program} is not there\n", 0, 1
        with self.printing:
            print("" if command.is_live else f"== {command.name}\n{said}", end="")
            print(f"== {command.name}: {passed} passed, {failed} failed, {time.monotonic() - began:.0f} seconds", flush=True)
            self.passed, self.failed = self.passed + passed, self.failed + failed
            told = [it.strip()[:400] for it in said.splitlines() if FAILURE.search(it)]
            self.why += [f"{command.name}: {it}" for it in told or [f"{failed} failed"] * bool(failed)]

    def said_by(self, command):
        log = log_of(self.room, command)
        words = [*(["nice", "-n", "19"] if command.lanes == 0 else []), *command.words]
        with open(log, "wb") as file, subprocess.Popen(words, cwd=command.folder, stdin=subprocess.DEVNULL, stdout=subprocess.PIPE, stderr=subprocess.STDOUT) as child:
            for line in child.stdout:
                file.write(line)
                file.flush()
                if command.is_live:
                    with self.printing:
                        print(line.decode(errors="replace"), end="", flush=True)
        log.with_name(f"{log.name}.ended").touch()
        return child.returncode, log.read_text(errors="replace")


def counted(command, status, said):
    """How many passed, and how many failed."""
    found = COUNT.findall(said) if command.counts else [("0", "0") if status else ("1", "0")]
    passed, failed = map(int, found[-1]) if found else (0, 0)
    return passed, failed or int(not found or status != 0)


def main(words):
    if words[:1] != ["quick"] and (not words or not set(words) <= {"tests", "proofs"}):
        print(__doc__, end="", file=sys.stderr)
        return 2
    os.environ["RT_JOBS"] = str(LANES)
    with tempfile.TemporaryDirectory() as room:
        suite = Suite(pathlib.Path(room))
        if words[0] == "quick":
            suite.run(quick(words[1:]))
        else:
            before = touched() if "proofs" in words else set()
            for part in words:
                suite.run(tests() if part == "tests" else proofs(suite.room))
            changed = sorted({it[0] for it in before ^ touched()}) if before else []
            suite.failed += len(changed)
            suite.why += [f"{it}: FAILED: it was changed while the tests ran, so they tell nothing of it" for it in changed]
    print(*suite.why, sep="\n")
    print(f"{suite.passed} passed, {suite.failed} failed")
    return 1 if suite.failed else 0


if __name__ == "__main__":
    sys.exit(main(sys.argv[1:]))
