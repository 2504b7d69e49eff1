#!/usr/bin/env python3
"""gate.py sample FOLDER FILE: beside a run of `rt ci` in FOLDER, what each crate takes of the processors.

    gate.py list LOG FILE EARLIER [LOG ..]
                           makes the list of docs/GATE.md anew, by FILE and by what `tests/run proofs` printed (each LOG), and prints the sums

`sample` looks every four seconds at the provers and compilers that work in FOLDER, and writes FILE until it is ended: seconds of processor time by crate, of its
proof with its tests, of clang, and of its wrong bodies that `rt ci` tries. What a process takes after the last look at it is lost, some two seconds each.
The pace is that of the run of 2026-11-27, given by crates of the tree of that day (THEN): EARLIER is
what `sample` wrote beside a run of `rt ci` over that tree on the machine of now. Beside it stands how many times as long all crates took as in the list before.
"""
import collections
import json
import os
import pathlib
import re
import sys
import time

ROOT = pathlib.Path(__file__).resolve().parent.parent
TICKS = os.sysconf("SC_CLK_TCK")
TRIED = re.compile(r"must-fail (\w+)/\S+\.edit: refused")
TOGETHER = re.compile(r"^wrong bodies of (\w+): (\d+) of \d+ refused, (\d+) checks, (\d+) seconds", re.MULTILINE)
# The tree of the run of 2026-11-27, and the seconds of processor time that this run took for two of its crates.
TREE = "7079d479"
THEN = {"al_lex": 71, "al_machine": 133}
# The line of docs/GATE.md with the seconds of each crate.
LIST = re.compile(r"^`\w+` \d+[,;] .*$", re.MULTILINE)
PROOF, WRONG, CLANG = range(3)


def workers(folder):
    """The provers and compilers that work in this folder: number, crate, on what (PROOF ..), and the seconds so far."""
    for process in pathlib.Path("/proc").glob("[0-9]*"):
        try:
            words = (process / "cmdline").read_bytes().split(b"\0")
            is_clang = os.path.basename(words[0]).startswith(b"clang")
            if b"--crate-name" not in words and not is_clang:
                continue
            fields = (process / "stat").read_text().rpartition(")")[2].split()
            where, above = os.readlink(process / "cwd"), os.readlink(f"/proc/{fields[1]}/cwd")
        except (OSError, IndexError):
            continue
        spent = (int(fields[11]) + int(fields[12])) / TICKS
        if is_clang and where.startswith(f"{folder}/crates/"):
            yield process.name, where[len(f"{folder}/crates/") :].partition("/")[0], CLANG, spent
        elif not is_clang and f"{where}/".startswith(f"{folder}/"):
            yield process.name, words[words.index(b"--crate-name") + 1].decode(), PROOF, spent
        elif not is_clang and f"{above}/".startswith(f"{folder}/"):
            yield process.name, words[words.index(b"--crate-name") + 1].decode(), WRONG, spent


def sample(folder, file):
    seconds = {}
    while True:
        for number, crate, work, spent in workers(folder):
            seconds[number, crate, work] = spent
        sums = collections.defaultdict(lambda: [0, 0, 0])
        for (_, crate, work), spent in seconds.items():
            sums[crate][work] += spent
        file.with_suffix(".new").write_text(json.dumps(sums))
        file.with_suffix(".new").replace(file)
        time.sleep(4)


def tried(log):
    """Of each crate how many wrong bodies were refused, and the seconds of those that `rt ci` doesn't try."""
    found = collections.defaultdict(lambda: [0, 0])
    for name in TRIED.findall(log):
        found[name][0] += 1
    for name, refused, _, seconds in TOGETHER.findall(log):
        found[name][0] += int(refused)
        found[name][1] += int(seconds)
    return found


def before(page):
    """The seconds of each crate's proofs and tests in the list before."""
    return {name: int(seconds) for name, seconds in re.findall(r"`(\w+)` (\d+)", LIST.search(page)[0])}


def list_of(log, sums):
    bodies, listed = tried(log), []
    for name, (proof, wrong, clang) in sorted(sums.items(), key=lambda it: -it[1][PROOF]):
        refused, seconds = bodies[name]
        listed.append(f"`{name}` {proof:.0f}{f', clang {clang:.0f}' if clang else ''}{f', {refused} wrong bodies {wrong + seconds:.0f}' if refused else ''}")
    return "; ".join(listed) + "."


def make_table(log, sums, then):
    path = ROOT / "docs" / "GATE.md"
    page = path.read_text()
    earlier, bodies = before(page), tried(log)
    path.write_text(LIST.sub(lambda _: list_of(log, sums), page, count=1))
    proofs, wrong, clang = (sum(it[at] for it in sums.values()) for at in (PROOF, WRONG, CLANG))
    wrong += sum(seconds for _, seconds in bodies.values())
    print(f"{len(sums)} crates: proofs and tests {proofs:,.0f} s, clang {clang:,.0f} s, {sum(count for count, _ in bodies.values())} wrong bodies {wrong:,.0f} s")
    took = ", ".join(f"{name} {then[name][0]:.0f} s for {seconds}" for name, seconds in THEN.items())
    both = [it for it in sums if earlier.get(it)]
    paces = {
        f"by the tree of {TREE} ({took})": sum(then[it][0] for it in THEN) / sum(THEN.values()),
        "by all crates of the list": sum(sums[it][PROOF] for it in both) / sum(earlier[it] for it in both),
    }
    for what, pace in paces.items():
        print(f"{what} {pace:.2f} times as long: at that pace {proofs / pace:,.0f} s and {wrong / pace:,.0f} s")
    print(*re.findall(r"^\d+ passed, \d+ failed$", log, re.MULTILINE)[-1:])


def main(words):
    if len(words) == 3 and words[0] == "sample":
        sample(pathlib.Path(words[1]).resolve(), pathlib.Path(words[2]))
    elif len(words) >= 4 and words[0] == "list":
        logs = [pathlib.Path(it).read_text(errors="replace") for it in [words[1], *words[4:]]]
        make_table("\n".join(logs), *(json.loads(pathlib.Path(it).read_text()) for it in words[2:4]))
    else:
        print(__doc__, end="", file=sys.stderr)
        return 2
    return 0


if __name__ == "__main__":
    sys.exit(main(sys.argv[1:]))
