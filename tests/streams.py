#!/usr/bin/env python3
"""streams.py PROGRAM [SEED [STREAMS]]: random edits through one session of adalib, beside fresh sessions of the same texts.

A stream has some packages with bodies, a subunit, children and two main units, and edits their files as people do: an empty line or a comment at
the top, a body broken and mended, in its syntax too, a with clause added, a file deleted, brought back or renamed, several files at once, the other main
unit built. After each build its reply, and what is reported of diagnostics, order, image and units, have to be those of a session that gets the texts alone.
Prints each difference with its seed, and last `N passed, M failed`.
"""
import random
import subprocess
import sys


def library(count):
    """The sound texts, by file; each package names some of those before it."""
    files = {"base.ads": "package Base is\n   Step : constant Integer := 3;\n   type Rec is private;\n   function Twist (X : Integer) return Integer;\nprivate\n   type Rec is record\n      A : Integer;\n   end record;\nend Base;\n"}
    files["base.adb"] = "package body Base is\n   function Twist (X : Integer) return Integer is separate;\nend Base;\n"
    files["base-twist.adb"] = "separate (Base)\nfunction Twist (X : Integer) return Integer is\nbegin\n   return X + Step;\nend Twist;\n"
    files["base-child.ads"] = "package Base.Child is\n   Low : constant Integer := Step + 1;\nend Base.Child;\n"
    for n in range(count):
        named = ["Base"] + [f"P{k}" for k in range(n) if (n * 7 + k) % 3 == 0]
        withs = "".join(f"with {name};\n" for name in named)
        total = " + ".join(["Base.Step"] + [f"P{k}.Value" for k in range(n) if (n * 7 + k) % 3 == 0])
        files[f"p{n}.ads"] = f"{withs}package P{n} is\n   Value : Integer := {total};\n   function Get return Integer;\nend P{n};\n"
        files[f"p{n}.adb"] = f"package body P{n} is\n   function Get return Integer is\n   begin\n      return Base.Twist (Value);\n   end Get;\nend P{n};\n"
    for main, used in (("m", range(count)), ("o", range(0, count, 2))):
        withs = "".join(f"with P{n};\n" for n in used)
        total = " + ".join(f"P{n}.Get" for n in used)
        files[f"{main}.adb"] = f"with Ada.Text_IO;\n{withs}procedure {main.upper()} is\nbegin\n   Ada.Text_IO.Put_Line (Integer'Image ({total}));\nend {main.upper()};\n"
    return files


def edited(rng, text, count):
    """A text after one edit of a line or two."""
    lines = text.split("\n")
    at = rng.randrange(len(lines))
    way = rng.randrange(13)
    if way < 3:
        return "\n" * rng.randrange(1, 3) + text
    if way == 3:
        return text.removeprefix("\n")
    if way == 4:
        return text + "-- a comment\n"
    if way == 5:
        return text.replace("return ", "return Nothing + ", 1)
    if way == 6:
        return text.replace("return ", "return ; ", 1)
    if way == 7:
        return text.replace("Integer :=", "Integer := 1 +", 1).replace("return X", "return 1 + X", 1)
    if way == 8:
        return f"with P{rng.randrange(count)};\n" + text
    if way == 9:
        return "with Nothing;\n" + text
    if way == 10:
        return text.replace("   Value", "   Other : Integer := 2;\n   Value", 1)
    if way == 11:
        return "\n".join(lines[:at] + ["", *lines[at:]])
    return text.replace("package body", "package  body", 1).replace("Step :", "Step  :", 1)


class Session:
    def __init__(self, program):
        self.p = subprocess.Popen([program], stdin=subprocess.PIPE, stdout=subprocess.PIPE)

    def send(self, command):
        """One command's whole reply."""
        self.p.stdin.write(command)
        self.p.stdin.flush()
        line = self.p.stdout.readline()
        words = line.split()
        more = b""
        if words and words[0] == b"failed":
            k = int(words[1]) if words[1].isdigit() else int(words[3]) if words[1] == b"B4" else 0
            more = b"".join(self.p.stdout.readline() for _ in range(k))
        elif words and words[0] in (b"diagnostics", b"units", b"obsolete", b"order"):
            more = b"".join(self.p.stdout.readline() for _ in range(int(words[1])))
        elif words and words[0] == b"image":
            more = b"".join(self.p.stdout.readline() for _ in range((int(words[1]) + 31) // 32))
        elif words and words[0] == b"output":
            more = self.p.stdout.read(int(words[1]) + 1) + self.p.stdout.readline()
        return line + more

    def put(self, name, text):
        data = text.encode()
        return self.send(b"put %s %d\n%s\n" % (name.encode(), len(data), data))

    def end(self):
        self.p.stdin.close()
        self.p.wait()


def told(session, main):
    """What a build of a main unit replies, and what is reported then."""
    commands = [f"build {main}", "report diagnostics", "report order", "report image", "report units", "report obsolete", "run 100000"]
    return [session.send(command.encode() + b"\n") for command in commands]


def fresh(program, files, main):
    session = Session(program)
    for name, text in files.items():
        session.put(name, text)
    answer = told(session, main)
    session.end()
    return answer


def stream(program, seed, builds):
    rng = random.Random(seed)
    count = rng.randrange(2, 7)
    sound = library(count)
    files = dict(sound)
    session = Session(program)
    for name, text in files.items():
        session.put(name, text)
    failed = 0
    for turn in range(builds):
        if rng.randrange(4) == 0:
            # all is mended at once
            for name in sorted(sound):
                if files.get(name) != sound[name]:
                    files[name] = sound[name]
                    session.put(name, sound[name])
        for _ in range(rng.choice((0, 1, 1, 1, 1, 2, 3, 6))):
            name = rng.choice(sorted(sound))
            way = rng.randrange(12)
            if way < 4:
                files[name] = sound[name]
                session.put(name, sound[name])
            elif way == 4 and name in files:
                del files[name]
                session.send(f"delete {name}\n".encode())
            elif way == 5 and name in files and "other.adb" not in files:
                files["other.adb"] = files.pop(name)
                session.send(f"rename {name} other.adb\n".encode())
            elif way == 6 and "other.adb" in files:
                del files["other.adb"]
                session.send(b"delete other.adb\n")
            elif name in files:
                files[name] = edited(rng, files[name], count)
                session.put(name, files[name])
        main = rng.choice(("m", "m", "m", "o", "p0"))
        got, wanted = told(session, main), fresh(program, files, main)
        if got != wanted:
            failed = 1
            print(f"seed {seed}, build {turn} of {main}: {got!r}\n  wanted: {wanted!r}")
            break
    session.end()
    return failed


def main():
    program = sys.argv[1]
    seed = int(sys.argv[2]) if len(sys.argv) > 2 else 1
    streams = int(sys.argv[3]) if len(sys.argv) > 3 else 40
    failed = sum(stream(program, seed + n, 40) for n in range(streams))
    print(f"{streams - failed} passed, {failed} failed")
    return 1 if failed else 0


if __name__ == "__main__":
    sys.exit(main())
