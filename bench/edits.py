#!/usr/bin/env python3
"""edits.py PROGRAM COUNT [--time] [WORD ..]: what a build costs after each kind of edit, over the tree of whole.py with COUNT packages.

Each edit is made and undone, each time with a build; `broken, mended` and `by turns` are such pairs too. Prints for both builds how many units were checked, the
millions of instructions by callgrind, and those without the checks of the units. With --time it prints milliseconds of processor time instead, the
median of five turns; of the checks nothing is known then. With words, the edits alone that have one in their names. It is no test.
"""
import os
import pathlib
import re
import statistics
import subprocess
import sys
import tempfile
import threading
import time

from timings import put
from whole import package, tree

TURNS = 5
# The function that checks a unit, and marks what reads it.
CHECK = re.compile(r"al_engine_refresh::unit::check_anew")


def base(step=1, more="", private_more=""):
    return (f"package Base is\n   Step : constant Integer := {step};{more}\n   type Rec is private;\n   function Twist (X : Integer) return Integer;\n"
            f"private\n   type Rec is record\n      A : Integer;{private_more}\n   end record;\nend Base;\n")


def base_body(more=""):
    return f"package body Base is\n   function Twist (X : Integer) return Integer is\n   begin\n      return (X + Step) mod 1_000;\n   end Twist;\n{more}end Base;\n"


def body(n, least="1_000", more="", front=""):
    return (f"{front}package body P{n} is\n   function Twice return Integer is\n      Local : Integer := 0;\n   begin\n      Local := (Value + Base.Step) mod 997;\n{more}"
            f"      return (Local + Value + Base.Step) mod {least};\n   end Twice;\nend P{n};\n")


def library(count):
    files = {"base.ads": base(), "base.adb": base_body()}
    for n in range(count):
        files |= package(n, tree(n, count))
        if n % 50 == 0:
            files[f"p{n}.adb"] = body(n)
    middle = count // 100 * 50
    for main, used in (("main", f"P0.Value + P{middle}.Twice"), ("main2", "P0.Value")):
        withs = "with P0;" + (f" with P{middle};" if "Twice" in used else "")
        files[f"{main}.adb"] = f"with Ada.Text_IO; {withs}\nprocedure {main.title()} is\nbegin\n   Ada.Text_IO.Put_Line (Integer'Image ({used}));\nend {main.title()};\n"
    return files


def edits(count, files):
    """The edits by name: the files that are written, None for one that is deleted, and back; or the main units that are built by turns."""
    m, leaf = count // 100 * 50, count - 2
    mid, last = f"p{m}.adb", f"p{leaf}.ads"
    bodies = list(range(0, count, 50))
    longer = "      Local := Local + 1;\n"
    made = {
        "body, same length": {mid: body(m, "1_001")},
        "body, longer": {mid: body(m, more=longer)},
        "body, an empty line at the top": {mid: body(m, front="\n")},
        "declaration, an empty line at the top": {last: "\n" + files[last]},
        "Base, an empty line at the top": {"base.ads": "\n" + base()},
        "main unit, an empty line at the top": {"main.adb": "\n" + files["main.adb"]},
        "a body broken, mended": {mid: body(m, more="      Local := Nothing;\n")},
        "a body broken in syntax, mended": {mid: body(m, more="      Local := ;\n")},
        "a declaration broken, mended": {last: files[last].replace("mod 1_000", "mod Nothing")},
        "Base broken, mended": {"base.ads": base(more=" X : Nothing;")},
        "a with clause of nothing, mended": {mid: body(m, front="with Nothing;\n")},
        "2 bodies, same length": {f"p{n}.adb": body(n, "1_001") for n in bodies[-2:]},
        "10 bodies, longer": {f"p{n}.adb": body(n, more=longer) for n in bodies[-10:]},
        "declaration: constant added": {last: files[last].replace("end P", "   Lim : constant Integer := 7;\nend P")},
        "Base: comment": {"base.ads": base(more=" -- c")},
        "Base: constant added": {"base.ads": base(more="\n   Limit : constant Integer := 7;")},
        "Base: private component added": {"base.ads": base(private_more="\n      B : Integer;")},
        "Base: constant's value": {"base.ads": base(step=2)},
        "with clause added to a body": {mid: body(m, front=f"with P{m + 1};\n")},
        "unit added, that nobody names": {"fresh.ads": "package Fresh is\n   X : Integer := 1;\nend Fresh;\n"},
        "a body deleted": {mid: None},
        "100 declarations": {f"p{n}.ads": files[f"p{n}.ads"].replace("end P", "   Lim : constant Integer := 7;\nend P") for n in list(range(0, count, max(1, count // 100)))[:100]},
    }
    pairs = {name: (text, {file: files.get(file) for file in text}) for name, text in made.items()}
    return pairs | {"two mains by turns": ("main2", "main")}


class Session:
    """A session behind a pipe, by callgrind where an output file is given."""

    def __init__(self, program, out=None):
        words = [program]
        if out:
            words = ["valgrind", "--tool=callgrind", f"--callgrind-out-file={out}", "--compress-strings=no", "--compress-pos=no", "--combine-dumps=no", "--instr-atstart=no", program]
        self.p, self.left = subprocess.Popen(words, stdin=subprocess.PIPE, stdout=subprocess.PIPE, stderr=subprocess.DEVNULL), b""

    def line(self):
        while b"\n" not in self.left:
            self.left += os.read(self.p.stdout.fileno(), 1 << 16)
        line, self.left = self.left.split(b"\n", 1)
        return line

    def send(self, data, replies=1):
        writer = threading.Thread(target=lambda: (self.p.stdin.write(data), self.p.stdin.flush()))
        writer.start()
        lines = [self.line() for _ in range(replies)]
        writer.join()
        return lines

    def write(self, files):
        commands = [f"delete {name}\n".encode() if text is None else put(name.encode(), text.encode()) for name, text in files.items()]
        if commands:
            self.send(b"".join(commands), len(commands))

    def build(self, main):
        reply = self.send(f"build {main}\n".encode())[0]
        words = reply.split()
        if words[0] == b"failed" and (words[1].isdigit() or words[1] == b"B4"):
            for _ in range(int(words[1] if words[1].isdigit() else words[3])):
                self.line()
        return reply.decode()

    def cpu(self):
        """Milliseconds of processor time so far."""
        return int(pathlib.Path(f"/proc/{self.p.pid}/schedstat").read_text().split()[0]) / 1e6

    def control(self, *words):
        subprocess.run(["callgrind_control", *words, str(self.p.pid)], capture_output=True, timeout=120, check=False)

    def step(self, step):
        """Makes an edit, and builds."""
        if isinstance(step, str):
            return self.build(step)
        self.write(step)
        return self.build("main")


def counted(path):
    """Of a dump of callgrind: all instructions, those of the checks, and how many checks there were."""
    total = checks = calls = 0
    inside = called = None
    pending = 0
    for line in open(path, errors="replace"):
        if line.startswith("fn="):
            inside = line[3:]
        elif line.startswith("cfn="):
            called = line[4:]
        elif line.startswith("calls="):
            pending = int(line[6:].split()[0])
        elif line[:1] in "0123456789+-*":
            parts = line.split()
            if len(parts) < 2:
                continue
            if pending:
                if CHECK.search(called) and not CHECK.search(inside):
                    checks, calls = checks + int(parts[1]), calls + pending
                pending = 0
            else:
                total += int(parts[1])
    return total / 1e6, checks / 1e6, calls


def by_instructions(session, out, steps, number):
    told = []
    for step in steps:
        number[0] += 1
        session.control("-z")
        reply = session.step(step)
        session.control("-d")
        path = pathlib.Path(f"{out}.{number[0]}")
        while not path.exists():
            time.sleep(0.1)
        time.sleep(0.2)
        total, checks, calls = counted(path)
        path.unlink()
        told.append(f"{calls:5} {total:9.2f} {total - checks:9.2f}  {reply[:18]:<18}")
    return told


def by_time(session, steps):
    spent, replies = [[] for _ in steps], [""] * len(steps)
    for _ in range(TURNS):
        for k, step in enumerate(steps):
            begun = session.cpu()
            replies[k] = session.step(step)
            spent[k].append(session.cpu() - begun)
    return [f"{statistics.median(times):9.2f} ms  {reply[:18]:<18}" for times, reply in zip(spent, replies)]


def main():
    program, count = sys.argv[1], int(sys.argv[2])
    words = sys.argv[3:]
    timed = "--time" in words
    words = [word for word in words if word != "--time"]
    files = library(count)
    with tempfile.TemporaryDirectory() as folder:
        out = f"{folder}/out"
        session = Session(program, None if timed else out)
        session.write(files)
        begun = session.cpu()
        print(f"{count} first build: {session.build('main')}, {session.cpu() - begun:.1f} ms", flush=True)
        session.build("main")
        number = [0]
        if not timed:
            session.control("-i", "on")
            time.sleep(0.5)
        for name, steps in edits(count, files).items():
            if not words or any(word in name for word in words):
                told = by_time(session, steps) if timed else by_instructions(session, out, steps, number)
                print(f"{count} {name:<40} " + " | ".join(told), flush=True)
        session.p.stdin.close()
        session.p.wait()


if __name__ == "__main__":
    main()
