#!/usr/bin/env python3
"""costs.py PROGRAM: the program `adalib` is fast where its contracts can't say so: what would be slow is held against what takes as long anyway.

By processor time, each the least of three sessions:

- over 1,000 packages with bodies, twenty builds with an edit of one body before each take less than a tenth of the first build;
- two hundred builds with no edit take less than these twenty;
- in a loop `X := X + 1;`, eight instructions that run in groups, takes less than twice what `Put ("");` takes, one of an output, which is in no group.

Prints each with its milliseconds, and last `N passed, M failed`.
"""
import pathlib
import re
import subprocess
import sys
import time

ROUNDS = 3
MOST_EDITED, MOST_AGAIN, MOST_LOOPS = 0.1, 1, 2
PACKAGES = 1_000
EDITED = 20
AGAIN = 200
TURNS = 200_000


def put(name, text):
    return f"put {name} {len(text)}\n{text}\n"


def body(number, value):
    return put(f"p{number}.adb", f"package body P{number} is\n   function F return Integer is\n   begin\n      return {value};\n   end F;\nend P{number};\n")


def library():
    """Packages with bodies, each over the one of half its number, and a main unit that names all."""
    texts = []
    for number in range(PACKAGES):
        over = f"with P{number // 2};\n" if number else ""
        texts += [put(f"p{number}.ads", f"{over}package P{number} is\n   function F return Integer;\nend P{number};\n"), body(number, 1)]
    named = "".join(f"with P{number};\n" for number in range(PACKAGES))
    return "".join(texts) + put("main.adb", f"{named}procedure Main is\n   X : Integer := P0.F;\nbegin\n   X := X + 1;\nend Main;\n")


class Session:
    """A session of the program, one stretch of commands after another."""

    def __init__(self, program):
        self.process = subprocess.Popen([program], stdin=subprocess.PIPE, stdout=subprocess.PIPE)
        # the clock of another process's processor time, as clock_getcpuclockid gives it
        self.clock = ~self.process.pid << 3 | 2

    def milliseconds(self, commands, lines):
        """The processor time that the commands take, whose replies are so many lines."""
        before = time.clock_gettime(self.clock)
        self.process.stdin.write(commands.encode())
        self.process.stdin.flush()
        replies = [self.process.stdout.readline() for _ in range(lines)]
        wrong = [it for it in replies if not re.match(rb"ok$|built |output 0$|$|end finished$", it)]
        if wrong:
            raise SystemExit(f"FAILED: the reply {wrong[0]!r}")
        return 1000 * (time.clock_gettime(self.clock) - before)

    def end(self):
        self.process.stdin.close()
        self.process.stdout.close()
        self.process.wait()


def builds(program):
    """What the first build takes, twenty with an edit of one body before each, and two hundred with no edit."""
    session = Session(program)
    session.milliseconds(library(), 2 * PACKAGES + 1)
    first = session.milliseconds("build main\n", 1)
    edited = session.milliseconds("".join(body(7 + 37 * number, 2) + "build main\n" for number in range(EDITED)), 2 * EDITED)
    again = session.milliseconds("build main\n" * AGAIN, AGAIN)
    session.end()
    return first, edited, again


def loops(program):
    """What a loop of assignments takes, and one of as many calls of Put."""
    times = []
    for statement in ("X := X + 1;", 'Ada.Text_IO.Put ("");'):
        loop = f"   for I in 1 .. {TURNS} loop\n{statement * 10}\n   end loop;\n"
        session = Session(program)
        session.milliseconds(put("main.adb", f"with Ada.Text_IO;\nprocedure Main is\n   X : Integer := 0;\nbegin\n{loop}end Main;\n") + "build main\n", 2)
        times.append(session.milliseconds("run 1000000000\n", 3))
        session.end()
    return times


def main(program):
    program = str(pathlib.Path(program).resolve())
    first, edited, again = (min(it) for it in zip(*(builds(program) for _ in range(ROUNDS))))
    assignments, outputs = (min(it) for it in zip(*(loops(program) for _ in range(ROUNDS))))
    rows = [
        ("twenty builds after edits against the first", edited, MOST_EDITED, first),
        ("two hundred builds with no edit against twenty after edits", again, MOST_AGAIN, edited),
        ("a loop of assignments against one of outputs", assignments, MOST_LOOPS, outputs),
    ]
    failed = 0
    for name, took, most, other in rows:
        is_fast = took < most * other
        failed += not is_fast
        print(f"{name}: {took:.1f} and {other:.1f} ms{'' if is_fast else f': failed, as the first is {most} times the second or more'}")
    print(f"{len(rows) - failed} passed, {failed} failed")
    return 1 if failed else 0


if __name__ == "__main__":
    sys.exit(main(*sys.argv[1:]))
