"""Wrong bodies of one crate tried together: those that stand in different functions in one check of these functions.

Each must fail in its own function, at a goal or in its answers. That a function calls another that isn't proved says nothing of it, nor that
its answers only name what an edit took away: such a wrong body is tried again, in a check of its own, where any failure is its doing. One that changes
a definition is tried alone, in a check of the whole crate.
"""
import os
import pathlib
import re
import shutil
import subprocess
import tempfile
import threading
import time

from edits import BadEdit

KIT = pathlib.Path(shutil.which("rt") or "rt").resolve().parent.parent
# What a prover says that gives up: no verdict, so it refuses nothing.
GIVES_UP = re.compile(r"could not tell|ran out of|outgrew the memory limit|stopped at the step limit")
# What a file of answers says where it only names what an edit took away.
NAMES_ALONE = re.compile(r"has no field|is not in scope|has no `|was not admitted")
# The folders of a crate that the prover reads.
PARTS = ("src", "specs", "proofs")
# The memory that a check may take, in KiB.
ROOM = 4_000_000
STARTING = threading.Lock()


class Libraries:
    """The crates of crates.txt with what they stand on, and the built libraries that `rt ci` left in a folder."""

    def __init__(self, lines, folder):
        self.lines, self.folder = lines, folder

    def below(self, name, seen=None):
        """The repository's crates that this one stands on, in any number of steps."""
        seen = {} if seen is None else seen
        for it in self.lines[name][1:]:
            if it in self.lines and it not in seen:
                self.below(it, seen)
                seen[it] = None
        return list(seen)

    def built(self, name):
        return self.folder / "crates" / name / "out" / "rlib" / f"{name}.rlib"

    def words(self, name, root):
        """What `rattle check` is told of a crate whose sources are below the current folder."""
        words = ["--crate-name", name, f"src/{root}"]
        for it in ["std", *[it for it in self.lines[name][1:] if it not in self.lines]]:
            words += ["--extern", f"{it}={KIT}/rlibs/{it}.rlib"]
        words += ["-L", f"dependency={KIT}/rlibs"]
        for it in self.lines[name][1:]:
            words += ["--extern", f"{it}={self.built(it)}"] if it in self.lines else []
        for it in self.below(name):
            words += ["-L", f"dependency={self.built(it).parent}"]
        words += ["--antt-project", f"{KIT}/rattle/logic/antt-project.json", "--logic-built", f"{KIT}/logic_built"]
        return [*words, "--jobs", "1", "--links", f"{name}="]


class Group:
    """Wrong bodies of one crate in different functions, and the crate's files with all of them made."""

    def __init__(self):
        self.edits, self.texts, self.functions = {}, {}, set()

    def takes(self, edit):
        """Adds the edit, unless one of its functions is changed already."""
        _, functions = edit.put_into({})
        if functions & self.functions or None in functions | self.functions and self.edits:
            return False
        try:
            self.texts, _ = edit.put_into(self.texts)
        except BadEdit:
            # its text was changed in another function of the file, or stands there now too
            return False
        self.edits[edit] = functions
        self.functions |= functions
        return True


def grouped(edits):
    """The edits in as few groups as their order gives, and why others can't be made."""
    groups, bad = [], {}
    for edit in edits:
        try:
            if not any(group.takes(edit) for group in groups):
                groups.append(Group())
                groups[-1].takes(edit)
        except BadEdit as why:
            bad[edit] = str(why)
    return [it for it in groups if it.edits], bad


class Checked:
    """What a check printed of its functions, and the processor time that it took."""

    def __init__(self, text, status, seconds):
        self.text, self.status, self.seconds = text, status, seconds
        self.verdicts = dict(re.findall(r"^fn \w+?::(\S+): (.*)$", text, re.MULTILINE))
        self.errors = re.findall(r"^(?:note: )?(?:\./)?proofs/(\S+?)/\w+\.antt:\d+:\d+: error: (.*)$", text, re.MULTILINE)

    def parts(self, function):
        """The function, and the closures that stand in it."""
        module, _, name = function.rpartition("::")
        inside = f"{module}::fn::{name}::".removeprefix("::")
        return [it for it in self.verdicts if it == function or it.startswith(inside)]

    def why(self, function):
        """At what the function itself isn't proved; '' where nothing of its own is told, and None where it is proved."""
        parts = self.parts(function)
        if parts and all(self.verdicts[it] == "proved" for it in parts):
            return None
        for it in parts:
            goal = re.search(r"did not prove (`[^`]*`)", self.verdicts[it])
            if goal:
                return f"{it}: {goal[0]}"
            own = [said for place, said in self.errors if place == it.replace("::", "/") and not NAMES_ALONE.search(said) and not GIVES_UP.search(said)]
            if own:
                return f"{it}: {own[0]}"
        return ""


def copied(crate, to):
    """Copies what the prover reads of a crate."""
    for part in PARTS:
        if (crate / part).is_dir():
            shutil.copytree(crate / part, pathlib.Path(to) / part)


def check(libraries, name, crate, texts, words):
    """`rattle check` of a copy of the crate in this folder with these texts."""
    with tempfile.TemporaryDirectory() as room:
        copied(crate, room)
        for file, text in texts.items():
            (pathlib.Path(room) / file).write_text(text)
        root = "main.rt" if (crate / "src" / "main.rt").is_file() else "lib.rt"
        command = ["rattle", "check", *libraries.words(name, root), *words]
        for _ in range(2):
            done = run(command, room)
            if done.status != -9:
                break
    return done


def run(command, room):
    wait_for_memory()
    with tempfile.TemporaryFile("w+", errors="replace") as said:
        how = {"cwd": room, "stdin": subprocess.DEVNULL, "stdout": said, "stderr": subprocess.STDOUT}
        child = subprocess.Popen(command, **how)
        _, status, usage = os.wait4(child.pid, 0)
        child.returncode = os.waitstatus_to_exitcode(status)
        said.seek(0)
        return Checked(said.read(), child.returncode, usage.ru_utime + usage.ru_stime)


def wait_for_memory():
    """Waits, an hour at most, until there is room for one check more; one that begins now is given some seconds to take its own."""
    with STARTING:
        for _ in range(720):
            if available() > ROOM:
                break
            time.sleep(5)
        time.sleep(1)


def available():
    found = re.search(r"MemAvailable:\s+(\d+)", pathlib.Path("/proc/meminfo").read_text())
    return int(found[1])


def tried(libraries, name, crate, edits):
    """Tries these wrong bodies of the crate in this folder: of each whether it is refused, and at what; and the checks with their seconds."""
    groups, bad = grouped(edits)
    told, seconds, alone = {it: (False, f"BAD EDIT: {why}") for it, why in bad.items()}, [], []
    for group in groups:
        if None in group.functions:
            alone += group.edits
            continue
        done = check(libraries, name, crate, group.texts, only(group.functions))
        seconds.append(done.seconds)
        if not done.verdicts:
            # one doesn't compile, say: each tells for itself
            alone += group.edits
            continue
        for edit, functions in group.edits.items():
            verdict = judged(done, functions)
            if verdict:
                told[edit] = verdict
            else:
                alone.append(edit)
    for edit in alone:
        texts, functions = edit.put_into({})
        done = check(libraries, name, crate, texts, only(functions))
        seconds.append(done.seconds)
        told[edit] = (None not in functions and judged(done, functions)) or judged_alone(done)
    return told, seconds


def only(functions):
    """The words that have these functions checked alone; where a definition was changed, which stands in none, all are."""
    return [] if None in functions else [word for it in sorted(functions) for word in ("--only", it)]


def judged(done, functions):
    """Whether a wrong body in these functions is refused, and at what; None where the check doesn't tell."""
    whys = [done.why(it) for it in sorted(functions)]
    if any(whys):
        return True, next(filter(None, whys))
    if all(it is None for it in whys) and done.status in (0, 1):
        return False, "NOT REFUSED: its function is still proved"
    return None


def judged_alone(done):
    """What a check tells of the one wrong body in it: where anything fails, that is its doing."""
    failed = {it: why for it, why in done.verdicts.items() if why != "proved" and not GIVES_UP.search(why)}
    if done.status in (1, 3) and failed:
        where, why = next(iter(failed.items()))
        return True, f"{where}: {why} (no goal of its own is told)"
    fault = re.search(r"^.*\berror\[.*$", done.text, re.MULTILINE)
    if fault:
        return False, f"BAD EDIT: it doesn't compile: {fault[0]}"
    return False, f"NOT TRIED: the check ended with status {done.status}: {done.text[-300:].strip()}"
