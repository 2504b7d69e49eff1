#!/usr/bin/env python3
"""wrong_bodies.py COMMAND ..: wrong bodies (*.edit), which the prover must refuse; which it has refused already on this machine.

    apply                  whether each can be put into its crate's text, and those of tests/wrong-bodies.txt are there; which crates have none there (seconds)
    beside LOG             tries those that tests/wrong-bodies.txt lists, while `rt ci` goes on here and writes what it says into LOG: two crates at a time, each once the
                           libraries below it are proved; and all that are left once there is a file LOG.ended
    listed [NAME ..]       tries those that are listed, of these crates or of all, over the libraries that `rt ci` left here
    all [NAME ..]          the same for all of edits/, listed or not: some hours, and each crate's count and seconds

With `--over FOLDER` in front the libraries are those of another folder with the same text of them.

`rt ci` tries those of must-fail/: there are those of crates that prove in some twenty seconds, as it proves a crate once more before it tries the first of them.
All others are tried here, those of a crate that stand in different functions in one check of these functions (`rattle check --only`). Each must
fail in its own function, at a goal or in its answers: that it calls another that isn't proved is no refusal, and has it tried again, in a
check of its own. A prover that could not tell has refused nothing.

What was refused is kept, and not tried again, under a hash of all that says so: the wrong body, the copy of its crate that was checked, the crate's line of crates.txt, each library
below it as it was built, and who judged, the kit and these scripts. The folder, of this user alone, is that which SOLBREOG_REFUSED names, by default
~/.cache/solbreog/refused. RT_JOBS says how many checks run at once.
"""
import concurrent.futures
import functools
import hashlib
import json
import os
import pathlib
import re
import stat
import sys
import tempfile
import time

import together
from edits import BadEdit, Edit, edits

ROOT = pathlib.Path(__file__).resolve().parent.parent
LIST = ROOT / "tests" / "wrong-bodies.txt"
KEPT = pathlib.Path(os.environ.get("SOLBREOG_REFUSED") or pathlib.Path.home() / ".cache" / "solbreog" / "refused")
# What `rt ci` says of a crate whose library is there.
PROVED = re.compile(r"^rt: (\w+) (?:proved$|is kept: )", re.MULTILINE)
# Of how many crates wrong bodies are tried beside `rt ci`, and once it has ended.
FOLLOWING, LANES = 2, int(os.environ.get("RT_JOBS") or len(os.sched_getaffinity(0)))


def lines_of(root):
    """The line of each crate in crates.txt, as the list of the crate and the libraries that it names."""
    lines = {}
    for line in (root / "crates.txt").read_text().splitlines():
        name, colon, rest = line.partition("#")[0].partition(":")
        if colon:
            lines[name.split()[0]] = [name.strip(), *rest.split()]
    return lines


def digest(path):
    return hashlib.sha256(path.read_bytes()).hexdigest()


def digest_of(crate):
    """A hash of what the prover reads of a crate."""
    files = [it for part in together.PARTS for it in sorted((crate / part).rglob("*")) if it.is_file()]
    return hashlib.sha256(repr([(str(it.relative_to(crate)), digest(it)) for it in files]).encode()).hexdigest()


@functools.lru_cache(maxsize=None)
def judge():
    """What tells who judges: the kit's line, its programs, its logic and its libraries (the format of each has the sums of its files), and these scripts."""
    kit = [together.KIT / "KIT-ID", *sorted(it for of in ("bin/*", "logic_built/**/*", "rlibs/*/format") for it in together.KIT.glob(of) if it.is_file())]
    scripts = [ROOT / "tests" / it for it in ("edits.py", "together.py", "wrong_bodies.py")]
    return hashlib.sha256(repr([(str(it), digest(it)) for it in [*kit, *scripts]]).encode()).hexdigest()


class Refused:
    """The wrong bodies of a crate that were refused on this machine, over its text and its libraries as they are now."""

    def __init__(self, libraries, crate, folder):
        self.libraries, self.crate = libraries, crate
        self.marks = self.marked()
        below = [[it, digest(libraries.built(it) / "format")] for it in libraries.below(crate)]
        self.stands_on = [judge(), libraries.lines[crate], digest_of(folder), below]

    def marked(self):
        """What tells whether a library below was replaced or written into: its format has the sum of each of its files."""
        files = [self.libraries.built(it) / name for it in self.libraries.below(self.crate) for name in ("format", "toolchain/checked.a")]
        return [(it.stat().st_ino, it.stat().st_size, it.stat().st_mtime_ns) for it in files]

    def place(self, edit):
        whole = json.dumps([self.stands_on, edit.path.name, edit.text])
        return KEPT / hashlib.sha256(whole.encode()).hexdigest()

    def has(self, edit):
        place = self.place(edit)
        try:
            return is_own(KEPT) and json.loads(place.read_text())["key"] == place.name
        except (OSError, ValueError, KeyError, TypeError):
            return False

    def keep(self, edit, why):
        """Keeps that the wrong body was refused, unless a library is no more as it was."""
        if self.marked() != self.marks:
            return print(f"wrong body {self.crate}/{edit.name}: not kept, as a library below changed while it was tried")
        place = self.place(edit)
        try:
            KEPT.mkdir(0o700, parents=True, exist_ok=True)
            place.write_text(json.dumps({"key": place.name, "wrong body": f"{self.crate}/{edit.name}", "why": why}))
        except OSError as fault:
            print(f"wrong body {self.crate}/{edit.name}: not kept, so that a later run tries it again: {fault}")


def is_own(folder):
    """Whether nobody but this user can write into the folder."""
    found = folder.lstat()
    return stat.S_ISDIR(found.st_mode) and found.st_uid == os.geteuid() and not found.st_mode & 0o022


def apply():
    """Whether each wrong body can be put into its crate's text, and those of the list are there; which crates have none on it."""
    found, failed = edits(ROOT), 0
    there = {f"{it.crate.name}/{it.name}" for it in edits(ROOT, ["edits"])}
    listed = set(LIST.read_text().split("\n")) - {""}
    for name in sorted(listed - there):
        print(f"{name}: FAILED: {LIST.name} has it, and edits/ doesn't")
        failed += 1
    for crate in sorted({it.partition("/")[0] for it in there} - {it.partition("/")[0] for it in listed}):
        print(f"{crate}: {LIST.name} has no wrong body of it yet")
    for it in found:
        try:
            it.put_into({})
        except BadEdit as why:
            print(f"{it.crate.name}/{it.name}: FAILED: {why}")
            failed += 1
    print(f"{len(found) - failed} passed, {failed} failed")
    return 1 if failed else 0


def wanted(names, is_listed):
    """The files of the wrong bodies of edits/ by crate, of these crates or of all: all, or those that the list has."""
    listed, found = set(LIST.read_text().split("\n")), {}
    for it in sorted(ROOT.glob("crates/*/edits/*.edit")):
        crate = it.parent.parent.name
        if (not names or crate in names) and (not is_listed or f"{crate}/{it.stem}" in listed):
            found.setdefault(crate, []).append(it)
    return found


def one_crate(libraries, crate, files):
    """Tries those wrong bodies of a crate that weren't refused earlier, over a copy of its text, and keeps those that are refused; gives how many were refused now, earlier and not."""
    lacking = [it for it in libraries.below(crate) if not libraries.built(it).is_dir()]
    if lacking:
        print(f"wrong bodies of {crate}: FAILED: there is no library {lacking[0]}", flush=True)
        return 0, 0, len(files)
    with tempfile.TemporaryDirectory() as room:
        copy = pathlib.Path(room)
        together.copied(ROOT / "crates" / crate, copy)
        kept, own = Refused(libraries, crate, copy), [Edit(it, copy) for it in files]
        left = [it for it in own if not kept.has(it)]
        told, seconds = together.tried(libraries, crate, copy, left)
    refused = {it: why for it, (is_refused, why) in told.items() if is_refused}
    for edit, (is_refused, why) in told.items():
        print(f"wrong body {crate}/{edit.name}: {'refused' if is_refused else 'FAILED'}: {why[:300]}", flush=True)
    for edit, why in refused.items():
        kept.keep(edit, why)
    earlier = len(own) - len(left)
    print(f"wrong bodies of {crate}: {len(refused)} of {len(left)} refused, {len(seconds)} checks, {sum(seconds):.0f} seconds; {earlier} refused earlier", flush=True)
    return len(refused), earlier, len(left) - len(refused)


def told_of(counts):
    refused, earlier, failed = map(sum, zip(*counts)) if counts else (0, 0, 0)
    print(f"wrong bodies: {refused} refused now, {earlier} earlier on this machine, over the same text and libraries")
    print(f"{refused + earlier} passed, {failed} failed")
    return 1 if failed else 0


def try_all(folder, names, is_listed):
    """Tries wrong bodies over the libraries of a folder."""
    lines, found = lines_of(ROOT), wanted(names, is_listed)
    libraries = together.Libraries(lines, folder)
    for it in sorted({below for crate in found for below in libraries.below(crate)}):
        if lines_of(folder).get(it) != lines[it] or digest_of(folder / "crates" / it) != digest_of(ROOT / "crates" / it):
            raise SystemExit(f"{folder} has another text of {it}")
    with concurrent.futures.ThreadPoolExecutor(LANES) as pool:
        return told_of([*pool.map(lambda it: one_crate(libraries, *it), found.items())])


def beside(log):
    """Tries those that are listed beside `rt ci`, each crate's once the libraries below it are proved, and the rest once it has ended."""
    left, begun = wanted([], True), []
    libraries, ended = together.Libraries(lines_of(ROOT), ROOT), log.with_name(f"{log.name}.ended")
    with concurrent.futures.ThreadPoolExecutor(LANES) as pool:
        while left:
            is_over = ended.exists()
            proved = set(PROVED.findall(log.read_text(errors="replace"))) if log.exists() else set()
            ready = next((it for it in left if is_over or proved.issuperset(libraries.below(it))), None)
            if ready and sum(not it.done() for it in begun) < (LANES if is_over else FOLLOWING):
                begun.append(pool.submit(one_crate, libraries, ready, left.pop(ready)))
            else:
                time.sleep(2)
    return told_of([it.result() for it in begun])


def main(words):
    folder = ROOT
    if words[:1] == ["--over"] and len(words) > 2:
        folder, words = pathlib.Path(words[1]).resolve(), words[2:]
    if words == ["apply"]:
        return apply()
    if len(words) == 2 and words[0] == "beside":
        return beside(pathlib.Path(words[1]))
    if words[:1] in (["listed"], ["all"]):
        return try_all(folder, words[1:], words[0] == "listed")
    print(__doc__, end="", file=sys.stderr)
    return 2


if __name__ == "__main__":
    sys.exit(main(sys.argv[1:]))
