#!/usr/bin/env python3
"""giving_up.py [NAME ..]: bodies that no contract excludes: parsers and sessions that answer want of memory, and
a writer that doesn't pass on what is held back.

A contract can't say that memory is there, so a parser that gives up at `delay` is proved; nor what a device does at a flush. Stored
sessions refuse these. Each file of tests/giving-up is such a body, as the edits of must-fail/ are written, with the file's path from the
top; its line `session: NAME` names the stored session that must differ, which has nothing at which another of these bodies gives up. So all of them but
those with a line `alone:` are made in one copy of the repository. `rt try` builds the program there, before any proof, and runs the sessions. A body that
gives up must have the reply `refused 10 no-memory` in the place of a right one. Prints last `N passed, M failed`.
"""
import concurrent.futures
import pathlib
import re
import shutil
import subprocess
import sys
import tempfile

TESTS = pathlib.Path(__file__).resolve().parent
ROOT = TESTS.parent
SESSIONS = TESTS / "sessions"
GIVES_UP = "refused 10 no-memory"


class Body:
    """A wrong body: the session that refuses it, whether it stands alone, and its file with the texts to replace there."""

    def __init__(self, path):
        lines = [line.partition(": ") for line in path.read_text().splitlines()]
        said = {word: rest for word, _, rest in lines}
        self.name, self.session, self.file, self.is_alone = path.stem, said["session"], said["file"], "alone" in said
        self.changes = list(zip([rest for word, _, rest in lines if word == "old"], [rest for word, _, rest in lines if word == "new"]))

    def put_into(self, copy):
        """Makes the changes in the copy; each old text stands once."""
        file = copy / self.file
        text = file.read_text()
        for old, new in self.changes:
            if text.count(old) != 1:
                raise SystemExit(f"{self.name}: its old text stands {text.count(old)} times in {file.name}")
            text = text.replace(old, new)
        file.write_text(text)


def commands(session):
    """The bytes of a session's commands."""
    made = SESSIONS / f"{session}.gen"
    if made.is_file():
        return subprocess.run([sys.executable, made], stdout=subprocess.PIPE, check=True).stdout
    return (SESSIONS / f"{session}.in").read_bytes()


def copied(folder):
    copy = pathlib.Path(folder) / "copy"
    shutil.copytree(ROOT, copy, ignore=shutil.ignore_patterns("out", ".git", "__pycache__"))
    (copy / ".git").mkdir()
    return copy


def replies(copy, sessions):
    """What `rt try` says of each session: whether its replies are the stored ones, and what was written from where they first differ."""
    with tempfile.TemporaryDirectory() as folder:
        for name in sessions:
            (pathlib.Path(folder) / name).write_bytes(commands(name))
            shutil.copy(SESSIONS / f"{name}.out", pathlib.Path(folder) / f"{name}.stdout")
        how = {"stdin": subprocess.DEVNULL, "stdout": subprocess.PIPE, "stderr": subprocess.STDOUT, "text": True, "errors": "replace"}
        done = subprocess.run(["rt", "try", "--cases", folder], cwd=copy / "crates" / "adalib", **how)
    wrote = dict(re.findall(r'^the output differs from `(\S+)\.stdout`: .*, found "(.*)"$', done.stdout, re.MULTILINE))
    ended = re.findall(r"^case=(\S+) run=ended .*output=(\w+)", done.stdout, re.MULTILINE)
    found = {name: (output == "differs", wrote.get(name, "")) for name, output in ended}
    if set(found) != set(sessions):
        raise SystemExit(f"the sessions didn't all run:\n{done.stdout[-2000:]}")
    return found


def tried(bodies):
    """Builds one program with all of these bodies, and gives those that their sessions don't refuse."""
    with tempfile.TemporaryDirectory() as folder:
        copy = copied(folder)
        for body in bodies:
            body.put_into(copy)
        found = replies(copy, {body.session for body in bodies})
    passed = []
    for body in bodies:
        differs, wrote = found[body.session]
        if differs and (body.is_alone or wrote.startswith(GIVES_UP)):
            print(f"{body.name}: refused by {body.session}", flush=True)
        else:
            print(f"{body.name}: FAILED: {body.session} doesn't refuse it", flush=True)
            passed.append(body)
    return passed


def main(names):
    bodies = [Body(it) for it in sorted((TESTS / "giving-up").glob("*.edit")) if not names or it.stem in names]
    together = [it for it in bodies if not it.is_alone]
    groups = [[it] for it in bodies if it.is_alone] + [together] * bool(together)
    with concurrent.futures.ThreadPoolExecutor(len(groups) or 1) as pool:
        failed = sum(map(len, pool.map(tried, groups)))
    print(f"{len(bodies) - failed} passed, {failed} failed")
    return 1 if failed else 0


if __name__ == "__main__":
    sys.exit(main(sys.argv[1:]))
