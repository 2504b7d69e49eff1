#!/usr/bin/env python3
"""whole.py PROGRAM [packages [COUNT ..] | chain [COUNT ..] | statements]: times builds, beside GNAT where it is there.

packages: 200, 1,000 and 4,000 packages (or so many) that depend on each other as a tree, every fiftieth with a body, and a main unit: the first
build, and builds behind no edit, the edit of a body, of a declaration that nobody reads, and of one that all read; gnatmake does the same by
turns, over files, with as many compilers at once as there are processors. Behind them how many times the figure of the number before
each is, and what is aimed at. A library has at most 4,096 files, so that not each of 4,000 packages can have a body. chain: the same for packages
that each read the three before it; a compiler of GNAT reads all that its unit depends on, so that gnatmake grows as the square there, and
takes its turn up to 1,000. statements: a unit of so many assignments. Each figure is in milliseconds of the clock, with those of the processor in
parentheses, the least of some runs. That each build gives an image is seen to first. Programs that are built and run are timed by
bench/machine/run. It is no test.
"""
import os
import pathlib
import shutil
import subprocess
import sys
import tempfile

from timings import doubled, procedure, put, spent_by

COUNTS = (200, 1000, 4000)
# Of how many packages in a chain gnatmake takes its turn.
LONGEST_CHAIN = 1000
TURNS = 3
# What is aimed at, in milliseconds of the processor: what, at which numbers of packages, under how many.
AIMS = {"no edit": ((200, 1000, 4000), 0.2), "one body": ((4000,), 10)}


def least(run, runs=3):
    """The least time and the least processor time of some runs."""
    return least_of([run() for _ in range(runs)])


def least_of(times):
    return min(it[0] for it in times), min(it[1] for it in times)


def tell(what, *figures):
    print(f"{what:<48} " + "   ".join(f"{name} {max(0, clock):.2f} ({max(0, cpu):.2f})" for name, (clock, cpu) in figures), flush=True)


def less(one, other):
    return one[0] - other[0], one[1] - other[1]


def base(step=1, more=""):
    """The package whose declaration all bodies read."""
    return f"package Base is\n   Step : constant Integer := {step};{more}\nend Base;\n"


def times(figure, before):
    """How many times the processor's figure is the one before, to a microsecond."""
    return max(figure[1], 0.001) / max(before[1], 0.001)


def chain(number, _count):
    """The packages that a package reads, where each reads the three before it."""
    return range(max(0, number - 3), number)


def tree(number, count):
    """The same where they are a tree, with three below each, and the first above all: eight deep for 4,000."""
    return range(min(3 * number + 1, count), min(3 * number + 4, count))


def package(number, named):
    """The declaration of a package that reads those, and a body where its number is a multiple of fifty."""
    withs = "".join(f"with P{it}; " for it in named)
    values = "".join(f" + P{it}.Value" for it in named)
    has_body = number % 50 == 0
    twice = "   function Twice return Integer;\n" if has_body else ""
    files = {f"p{number}.ads": f"with Base; {withs}\npackage P{number} is\n   Value : Integer := ({number} + Base.Step{values}) mod 1_000;\n{twice}end P{number};\n"}
    if has_body:
        files[f"p{number}.adb"] = (
            f"package body P{number} is\n   function Twice return Integer is\n   begin\n      return (Value + Base.Step) mod 1_000;\n   end Twice;\nend P{number};\n"
        )
    return files


def library(count, shape=chain):
    """The files, and those edits that the builds stand behind: each a file with its new text."""
    files = {"base.ads": base()}
    for number in range(count):
        files |= package(number, shape(number, count))
    top, middle = count - 1 if shape is chain else 0, count // 100 * 50
    files["main.adb"] = (
        f"with Ada.Text_IO; with P{top}; with P{middle};\nprocedure Main is\nbegin\n   Ada.Text_IO.Put_Line (Integer'Image (P{top}.Value + P{middle}.Twice));\nend Main;\n"
    )
    body = f"p{middle}.adb"
    edits = {
        "no edit": {},
        "one body": {body: files[body].replace("1_000", "1_001")},
        "a declaration that nobody reads": {"base.ads": base(more="\n   Limit : constant Integer := 7;")},
        "a declaration that all read": {"base.ads": base(step=2)},
    }
    return files, edits


def puts(files):
    return b"".join(put(name.encode(), text.encode()) for name, text in files.items())


def by_gnatmake(files, edits):
    """What gnatmake takes for the first build, then behind each edit, with which the one before it is taken back; each file's time is ahead of all that was made before."""
    with tempfile.TemporaryDirectory() as folder:
        when = 0

        def made(changed):
            nonlocal when
            when += 100
            for name, text in changed.items():
                path = pathlib.Path(folder) / name
                path.write_text(text)
                os.utime(path, (path.stat().st_mtime + when,) * 2)
            return spent_by(["gnatmake", "-q", f"-j{os.cpu_count()}", "main.adb"], b"", folder)

        times = [made(files)]
        if not (pathlib.Path(folder) / "main").exists():
            sys.exit("gnatmake makes no program of this library")
        back = {}
        for changed in edits.values():
            times.append(made({**back, **changed}))
            back = {name: files[name] for name in changed}
        return times


def see_images(program, files, edits):
    """That each build gives an image."""
    stream = puts(files) + b"build main\n"
    for changed in edits.values():
        stream += puts(changed) + b"build main\n" + puts({name: files[name] for name in changed}) + b"build main\n"
    replies = subprocess.run([program], input=stream, stdout=subprocess.PIPE, check=False).stdout
    wrong = [it for it in replies.split(b"\n") if it and it != b"ok" and not it.startswith(b"built ")]
    if wrong or replies.count(b"built ") != 1 + 2 * len(edits):
        sys.exit(f"not every build of {len(files)} files gives an image: {wrong[:3]}")


def by_program(program, files, edits):
    """What the program takes for the first build, then behind each edit: these are made and taken back by turns in one session, so often that they take longer than the first build."""
    see_images(program, files, edits)
    with tempfile.TemporaryDirectory() as folder:

        def of(stream):
            return least(lambda: spent_by([program], stream, folder), 2)

        given = puts(files)
        base_time = of(given)
        built = of(given + b"build main\n")

        def behind(changed):
            turn = puts(changed) + b"build main\n" + puts({name: files[name] for name in changed}) + b"build main\n"
            pairs = 2
            while True:
                spent = less(of(given + b"build main\n" + turn * pairs), built)
                if spent[1] > built[1] or pairs > 20_000:
                    return spent[0] / (2 * pairs), spent[1] / (2 * pairs)
                pairs *= 10

        return [less(built, base_time)] + [behind(changed) for changed in edits.values()]


def packages(program, counts, shape):
    before, last = {}, None
    for count in counts:
        files, edits = library(count, shape)
        tools = {"solbreog": lambda files, edits: by_program(program, files, edits)}
        if shutil.which("gnatmake") and (shape is tree or count <= LONGEST_CHAIN):
            tools["gnatmake"] = by_gnatmake
        turns = [{name: run(files, edits) for name, run in tools.items()} for _ in range(TURNS if count < 1000 else 1)]
        figures = {name: [least_of(rows) for rows in zip(*(turn[name] for turn in turns))] for name in tools}
        for row, what in enumerate(("first build", *edits)):
            tell(f"{count} packages: {what}", *((name, figures[name][row]) for name in tools))
            grown = ", ".join(f"{name} {times(figures[name][row], before[name][row]):.1f}" for name in tools if name in before)
            if grown:
                print(f"{'':<48} times the processor's figure of {last}: {grown}", flush=True)
            aimed_at, most = AIMS.get(what, ((), 0))
            if count in aimed_at:
                reached = "reached" if figures["solbreog"][row][1] < most else "not reached"
                print(f"{'':<48} aim: under {most} ms: {reached}", flush=True)
        before, last = figures, count


def statements(program):
    with tempfile.TemporaryDirectory() as folder:
        for count in doubled(1_250, 20_000):
            text = procedure(b"P", b"").replace(b" is begin", b" is X : Integer := 0; begin").replace(b"begin", b"begin " + b"X := X + 1;\n" * count)
            stream = put(b"p.adb", text)
            plain = least(lambda: spent_by([program], stream, folder))
            tell(f"a unit of {count} statements", ("build", less(least(lambda: spent_by([program], stream + b"build p\n", folder)), plain)))


def main():
    program = str(pathlib.Path(sys.argv[1]).resolve())
    part, counts = sys.argv[2:3], [int(it) for it in sys.argv[3:]] or COUNTS
    if part in ([], ["packages"]):
        packages(program, counts, tree)
    if part == ["chain"]:
        packages(program, counts, chain)
    if part in ([], ["statements"]):
        statements(program)


if __name__ == "__main__":
    main()
