#!/usr/bin/env python3
"""folders.py ADABUILD: folders of Ada sources through the built program `adabuild`.

tests/folders/NAME.txt, and docs/recording.txt, are recordings of a terminal, each in a folder of its own:

    = FOLDER          the files of a folder of this repository are there
    + FILE            the file FILE has the text of the lines that follow, each behind a bar, `|`; with `/` in FILE folders are made
    + FILE N          .. so many times
    - FILE            FILE is gone
    @ FILE TARGET     FILE is a link to TARGET
    ! FILE N          the byte at place N of FILE is turned round; the file is cut there where N ends with `-`
    $ WORDS           the words of a command line; those after `<`, if any, are lines of its standard input
    > LINE            one more line of the standard input of a command with --watch
    # ..              nothing
    ? N               the exit status of the command, where it isn't 0

and every other line is what the program writes next, on the standard output or the standard error; milliseconds count as 0. A command ends before
the next `$` and at the end, where its standard input ends. The examples of README.md and docs/adabuild.md are played too.

Then each program of tests/programs is built and run with its output on the standard output, and its end on the standard error; a folder of 401 units is
built, edited and built; a program without end is interrupted; devices fail; damaged images are refused; each growth of memory is refused in turn.
Prints each failure, and last `N passed, M failed`.
"""
import concurrent.futures
import os
import pathlib
import re
import select
import shutil
import signal
import socket
import subprocess
import sys
import tempfile
import time

from images import without_tasks
from memory import Refuser

TESTS = pathlib.Path(__file__).resolve().parent
TOP = TESTS.parent
PATIENCE = 300


class Count:
    def __init__(self):
        self.passed = 0
        self.failed = 0

    def check(self, name, got, wanted):
        if got == wanted:
            self.passed += 1
            return
        self.failed += 1
        print(f"{name}: failed\n  got    {shown(got)}\n  wanted {shown(wanted)}")


def shown(value):
    text = repr(value)
    return text if len(text) < 1500 else text[:700] + " .. " + text[-700:]


def settled(text):
    """The text with 0 for milliseconds."""
    return re.sub(rb"\b\d+ ms\b", b"0 ms", text)


def heed_interrupts():
    """A program that is started in the background would be deaf to them."""
    signal.signal(signal.SIGINT, signal.SIG_DFL)


class Talk:
    """A program whose output is read as it comes."""

    def __init__(self, words, folder):
        self.process = subprocess.Popen(words, stdin=subprocess.PIPE, stdout=subprocess.PIPE, stderr=subprocess.STDOUT, cwd=folder, bufsize=0, preexec_fn=heed_interrupts)
        self.waiting = b""

    def say(self, line):
        try:
            self.process.stdin.write(line.encode() + b"\n")
        except BrokenPipeError:
            pass

    def next_line(self):
        """The next line, or less where no more comes."""
        ends = time.monotonic() + PATIENCE
        while b"\n" not in self.waiting:
            left = ends - time.monotonic()
            if left <= 0 or not select.select([self.process.stdout], [], [], left)[0]:
                break
            some = os.read(self.process.stdout.fileno(), 65536)
            if not some:
                break
            self.waiting += some
        line, end, self.waiting = self.waiting.partition(b"\n")
        return settled(line + end)

    def finish(self):
        """All that is left, and the exit status."""
        try:
            self.process.stdin.close()
        except BrokenPipeError:
            pass
        rest = self.waiting
        while select.select([self.process.stdout], [], [], PATIENCE)[0]:
            some = os.read(self.process.stdout.fileno(), 65536)
            if not some:
                break
            rest += some
        try:
            status = self.process.wait(PATIENCE)
        except subprocess.TimeoutExpired:
            self.process.kill()
            status = self.process.wait()
        self.process.stdout.close()
        return settled(rest), status


def put(path, text):
    path.parent.mkdir(parents=True, exist_ok=True)
    path.write_bytes(text)


def turn_round(path, words):
    text = bytearray(path.read_bytes())
    if words.endswith("-"):
        path.write_bytes(text[: int(words[:-1])])
    else:
        text[int(words)] ^= 0xFF
        path.write_bytes(text)


class Recording:
    """A recording that is played in a folder."""

    def __init__(self, program, lines, room):
        self.program = program
        self.lines = lines
        self.room = room
        self.talk = None
        self.status = 0
        self.wrong = []

    def played(self):
        """What is wrong with it."""
        while self.lines:
            self.play(self.lines.pop(0))
        self.end()
        return self.wrong

    def play(self, line):
        sign, words = line[:2], line[2:]
        if sign == "= ":
            for file in sorted((TOP / words).iterdir()):
                put(self.room / file.name, file.read_bytes())
        elif sign == "+ ":
            self.write(words)
        elif sign == "- ":
            (self.room / words).unlink()
        elif sign == "@ ":
            file, target = words.split(" ")
            (self.room / file).symlink_to(target)
        elif sign == "! ":
            file, place = words.split(" ")
            turn_round(self.room / file, place)
        elif sign == "$ ":
            self.end()
            words, _, given = words.partition(" < ")
            self.talk = Talk([self.program, *words.split()[1:]], self.room)
            for it in given.split():
                self.talk.say(it)
        elif line == ">" or sign == "> ":
            self.talk.say(words)
        elif sign == "? ":
            self.status = int(words)
        elif sign != "# ":
            got = self.talk.next_line()
            if got != line.encode() + b"\n":
                self.wrong.append((got, line))

    def write(self, words):
        name, _, times = words.partition(" ")
        text = []
        while self.lines and self.lines[0][:1] == "|":
            text.append(self.lines.pop(0)[1:] + "\n")
        put(self.room / name, ("".join(text) * int(times or 1)).encode())

    def end(self):
        """Ends a command: nothing more is written, and its status is as wanted."""
        if self.talk is not None:
            rest, status = self.talk.finish()
            if rest or status != self.status:
                self.wrong.append((rest, status, self.status))
        self.talk, self.status = None, 0


def run_recordings(program, count):
    for path in [*sorted((TESTS / "folders").glob("*.txt")), TOP / "docs/recording.txt"]:
        with tempfile.TemporaryDirectory() as room:
            count.check(path.name, Recording(program, path.read_text().split("\n")[:-1], pathlib.Path(room)).played(), [])


def recording_of(page):
    """The examples of a page as a recording: blocks with commands, and Ada sources, which are put into files of their units' names. Lines that report an error
    belong to a command with exit status 1."""
    lines = []
    for language, block in re.findall(r"^```(\w*)\n(.*?)^```", page.read_text(), re.MULTILINE | re.DOTALL):
        if language == "ada":
            is_body, unit = re.search(r"^(?:package (body )?|procedure )([A-Za-z_]+)", block, re.MULTILINE).groups()
            is_package = f"package {unit}" in block
            lines += [f"+ {unit.lower()}.{'ads' if is_package and not is_body else 'adb'}", *(f"|{it}" for it in block.splitlines())]
        elif re.search(r"^[$>] ", block, re.MULTILINE):
            lines += [settled(it.encode()).decode() for it in block.splitlines()]
            lines += ["? 1"] * (": error: " in block)
    return lines


def run_pages(program, count):
    """The examples of the pages for users, word for word, in a copy of the folder that they speak of."""
    for page in (TOP / "README.md", TOP / "docs/adabuild.md"):
        with tempfile.TemporaryDirectory() as room:
            room = pathlib.Path(room)
            for file in (TOP / "crates/adabuild/data").iterdir():
                put(room / file.name, file.read_bytes())
                put(room / "crates/adabuild/data" / file.name, file.read_bytes())
            lines = recording_of(page)
            count.check(f"{page.name} has examples", len([it for it in lines if it.startswith("$ ")]) > 1, True)
            count.check(f"the examples of {page.name}", Recording(program, lines, room).played(), [])


def run(program, words, **more):
    """The exit status, the output and the error output."""
    try:
        done = subprocess.run([program, *words], stdin=subprocess.DEVNULL, capture_output="stdout" not in more, timeout=PATIENCE, **more)
    except subprocess.TimeoutExpired:
        return (-1, b"", b"no end in time")
    return (done.returncode, done.stdout or b"", done.stderr)


def wanted_end(folder):
    """The exit status and the error output of a program's run."""
    ends = folder / "outcome"
    words = ends.read_text().split() if ends.exists() else ["finished"]
    if words[0] == "raised":
        file = words[2].replace(".", "-") + (".ads" if words[3] == "decl" else ".adb")
        return 3, f"raised {words[1]}, {folder}/{file}:{words[4]}\n".encode()
    return 0, {"finished": b"", "idle": b"idle: each task waits, and nothing can wake one\n"}[words[0]]


def run_programs(program, count):
    for folder in sorted(it for it in (TESTS / "programs").iterdir() if it.is_dir()):
        status, told = wanted_end(folder)
        wanted = (status, (folder / "stdout").read_bytes(), told)
        status, output, told = run(program, ["--run", "--steps", "1000000000", folder.name, str(folder)])
        count.check(f"the program {folder.name}", (status, output, without_tasks(told)), wanted)


def many_units(room, packages):
    """So many packages with bodies, of which each but the first names the one of half its number, and a main procedure over the last."""
    for n in range(packages):
        half = f"Unit_{n // 2}"
        before, value = (f"with {half};\n", f"{half}.Value") if n else ("", "0")
        put(room / f"unit_{n}.ads", f"package Unit_{n} is\n   function Value return Integer;\nend Unit_{n};\n".encode())
        body = f"{before}package body Unit_{n} is\n   function Value return Integer is\n   begin\n      return {value} + 1;\n   end Value;\nend Unit_{n};\n"
        put(room / f"unit_{n}.adb", body.encode())
    named = "".join(f"with Unit_{n};\n" for n in range(packages))
    main = f"with Ada.Text_IO;\n{named}procedure Main is\nbegin\n   Ada.Text_IO.Put_Line (Integer'Image (Unit_{packages - 1}.Value));\nend Main;\n"
    put(room / "main.adb", main.encode())


def edit(path, old, new):
    text = path.read_bytes()
    assert text.count(old) == 1
    path.write_bytes(text.replace(old, new))


# edits, each of a file, an old text and a new one; a line of input; what is told
MANY = (
    ([], "", [b"checked 0 of 401 units, image as before, 0 ms\n"]),
    ([("unit_24.adb", b"+ 1;", b"+ 2;")], "run", [b"checked 1 of 401 units, image patched, 0 ms\n", b" 10\n"]),
    ([("unit_24.ads", b"function", b"Limit : constant Integer := 7;\n   function")], "run", [b"checked 1 of 401 units, image made, 0 ms\n", b" 10\n"]),
    # the declaration, its body and the two bodies that ask for the function: 48 and 49
    ([("unit_24.ads", b"return Integer", b"return Natural"), ("unit_24.adb", b"return Integer", b"return Natural")], "run", [b"checked 4 of 401 units, image patched, 0 ms\n", b" 10\n"]),
    ([], "quit", []),
)


def run_many(program, count):
    """A folder of 401 units: each edit is built by checking what it reaches."""
    with tempfile.TemporaryDirectory() as folder:
        room = pathlib.Path(folder)
        many_units(room, 200)
        count.check("401 units, built once", run(program, ["--run", "main", folder]), (0, b" 9\n", b""))
        talk = Talk([program, "--watch", "main"], folder)
        count.check("401 units, the first build", talk.next_line(), b"checked 401 of 401 units, image made, 0 ms\n")
        for edits, line, wanted in MANY:
            for file, old, new in edits:
                edit(room / file, old, new)
            talk.say(line)
            count.check(f"401 units, {edits or line!r}", [talk.next_line() for _ in wanted], wanted)
        count.check("401 units, the end", talk.finish(), (b"", 0))


def run_endless(program, count):
    """A program without end writes as it goes on, until it is interrupted, or its steps are spent."""
    with tempfile.TemporaryDirectory() as folder:
        put(pathlib.Path(folder) / "main.adb", b"with Ada.Text_IO;\nprocedure Main is\n   N : Integer := 0;\nbegin\n   loop\n      N := (N + 1) mod 100000;\n      if N = 1 then\n         Ada.Text_IO.Put_Line (\"turn\");\n      end if;\n   end loop;\nend Main;\n")
        talk = Talk([program, "--run", "main"], folder)
        count.check("output as it comes", [talk.next_line() for _ in range(3)], [b"turn\n"] * 3)
        talk.process.send_signal(signal.SIGINT)
        count.check("interrupted", talk.finish()[1], -signal.SIGINT)
        status, output, told = run(program, ["--run", "--steps", "1000", "main", folder])
        count.check("steps are spent", (status, output, told), (0, b"turn\n", b"stopped: the steps are spent\n"))


def run_damaged(program, count):
    """Each front of an image is refused; an image with one byte turned round is refused or runs to some end."""
    with tempfile.TemporaryDirectory() as folder:
        image = pathlib.Path(folder) / "main.image"
        made = run(program, ["--image", str(image), "main", str(TOP / "crates/adabuild/data")])
        count.check("an image is written", made, (0, b"", b""))
        whole = image.read_bytes()
        count.check("an image runs", run(program, ["--load", str(image)]), (0, b"total 55\n", b""))
        refusal = (1, b"", f"error: {image} isn't an image, or is a damaged one\n".encode())
        for size in range(0, len(whole), 37):
            image.write_bytes(whole[:size])
            count.check(f"an image cut to {size} bytes", run(program, ["--load", str(image)]), refusal)
        refused = 0
        for place in range(0, len(whole), 11):
            text = bytearray(whole)
            text[place] ^= 0xFF
            image.write_bytes(text)
            status = run(program, ["--load", str(image), "--steps", "100000"])[0]
            refused += status == 1
            count.check(f"an image with byte {place} turned round", status in (0, 1, 3), True)
        count.check("some of these are refused", refused > 0, True)


def run_devices(program, count):
    counter = str(TOP / "crates/adabuild/data")
    with open("/dev/full", "wb") as full:
        got = run(program, ["--run", "main", counter], stdout=full, stderr=subprocess.PIPE)
        count.check("output to a full device", got, (1, b"", b"error: the standard output can't be written\n"))
    got = run(program, ["--image", "/dev/full", "main", counter])
    count.check("an image to a device", got, (1, b"", b"error: /dev/full isn't a file; --force writes an image there\n"))
    got = run(program, ["--image", "/dev/full", "--force", "--run", "main", counter])
    count.check("an image to a full device, and the run", got, (1, b"total 55\n", b"error: /dev/full can't be written: No space left on device (os error 28)\n"))


HELLO = b'with Ada.Text_IO;\nprocedure Hello is\nbegin\n   Ada.Text_IO.Put_Line ("hi");\nend Hello;\n'
# needs the package P
NEEDS = b"with P;\nprocedure Main is\nbegin\n   null;\nend Main;\n"
MISSING = b"main.adb:1:6: error: E202 missing unit\nwith P;\n     ^\nnote: there is no p.ads in the folders\n1 error\n"


def run_odd(program, count):
    """Folders in which things stand that are no files, names that no source can have, and controls."""
    with tempfile.TemporaryDirectory() as folder:
        room = pathlib.Path(folder)
        put(room / "hello.adb", HELLO)
        put(room / "main.adb", NEEDS)
        os.mkfifo(room / "queue")
        held = socket.socket(socket.AF_UNIX)
        held.bind(str(room / "held"))
        for target in ("queue", "held", "/dev/zero", "/dev/stdin", "."):
            (room / "p.ads").symlink_to(target)
            count.check(f"not needed, a link to {target}", run(program, ["--run", "hello"], cwd=folder), (0, b"hi\n", b""))
            told = b"warning: p.ads is left out: it isn't a file\n"
            count.check(f"a link to {target}", run(program, ["main"], cwd=folder), (1, b"", told + MISSING))
            (room / "p.ads").unlink()
        os.mkfifo(room / "p.ads")
        count.check("a pipe", run(program, ["main"], cwd=folder), (1, b"", told + MISSING))
        (room / "p.ads").unlink()
        (room / "p.ads").mkdir()
        count.check("a folder", run(program, ["main"], cwd=folder), (1, b"", told + MISSING))
        (room / "p.ads").rmdir()
        (room / "p.ads").symlink_to("p.ads")
        count.check("a link to itself", run(program, ["main"], cwd=folder), (1, b"", b"error: p.ads can't be read: Too many levels of symbolic links (os error 40)\n"))
        talk = Talk([program, "--watch", "hello"], folder)
        count.check("a watch among these", talk.next_line(), b"checked 1 of 1 units, image made, 0 ms\n")
        (room / "Odd.ads").write_bytes(b"")
        for wanted in (b"warning: Odd.ads is left out: a source's name is one or more of a-z 0-9 _ ~ - and then .ads or .adb\n", b""):
            talk.say("")
            lines = [talk.next_line() for _ in range(2 if wanted else 1)]
            count.check("a name that appears in a watch", lines, [it for it in (wanted, b"checked 0 of 1 units, image as before, 0 ms\n") if it])
        count.check("a watch's end", talk.finish(), (b"", 0))


def run_names(program, count):
    """Names that no source can have are told, with their controls shown, and not by the thousand; what editors leave is quiet."""
    why = b" is left out: a source's name is one or more of a-z 0-9 _ ~ - and then .ads or .adb\n"
    with tempfile.TemporaryDirectory() as folder:
        room = pathlib.Path(folder)
        put(room / "hello.adb", HELLO)
        for quiet in (".#hello.adb", "hello.adb~", "#hello.adb#", ".hidden.ads", "notes.txt"):
            (room / quiet).symlink_to("nowhere")
        count.check("what editors leave", run(program, ["--run", "hello"], cwd=folder), (0, b"hi\n", b""))
        put(room / "a\nb.ads", b"")
        put(room / "\x1b[31mq.ads", b"")
        told = b"warning: ^[[31mq.ads" + why + b"warning: a^Jb.ads" + why
        count.check("controls in names", run(program, ["--run", "hello"], cwd=folder), (0, b"hi\n", told))
        (room / "a\nb.ads").unlink()
        (room / "\x1b[31mq.ads").unlink()
        pathlib.Path(os.fsdecode(os.fsencode(room) + b"/caf\xe9.ads")).write_bytes(b"")
        told = b"warning: . has names that aren't UTF-8, which are left out: 1\n"
        count.check("a name that isn't UTF-8", run(program, ["--run", "hello"], cwd=folder), (0, b"hi\n", told))
    with tempfile.TemporaryDirectory() as folder:
        room = pathlib.Path(folder)
        put(room / "hello.adb", HELLO)
        for n in range(1000):
            put(room / f"P{n:04}.ads", b"")
        told = b"".join(b"warning: P%04d.ads" % n + why for n in range(10)) + b"warning: 990 more names are left out\n"
        count.check("a thousand names", run(program, ["--run", "hello"], cwd=folder), (0, b"hi\n", told))


# texts whose lines end in several ways, with the diagnostic of an unknown name in each
LINES = (
    (b"procedure M is\n   X : Integer;\n\f\nbegin\n   Foo;\n   null;\nend M;\n", b"m.adb:6:4: error: E401 not visible\n   Foo;\n   ^\nnote: Foo is declared in none of the units that can be seen here\n1 error\n"),
    (b"procedure M is\r\nbegin\r\n   Foo;\r\nend M;\r\n", b"m.adb:3:4: error: E401 not visible\n   Foo;\n   ^\nnote: Foo is declared in none of the units that can be seen here\n1 error\n"),
    (b"procedure M is\rbegin\r   Foo;\rend M;\r", b"m.adb:3:4: error: E401 not visible\n   Foo;\n   ^\nnote: Foo is declared in none of the units that can be seen here\n1 error\n"),
    (b"procedure M is\n\vbegin\n   Foo;\nend M;\n", b"m.adb:4:4: error: E401 not visible\n   Foo;\n   ^\nnote: Foo is declared in none of the units that can be seen here\n1 error\n"),
    (b"\xef\xbb\xbfprocedure M is begin Foo; end M;", b"m.adb:1:22: error: E401 not visible\nprocedure M is begin Foo; end M;\n                     ^\nnote: Foo is declared in none of the units that can be seen here\n1 error\n"),
    ("procedure M is begin -- é".encode() + b"\n   Foo; end M;", b"m.adb:2:4: error: E401 not visible\n   Foo; end M;\n   ^\nnote: Foo is declared in none of the units that can be seen here\n1 error\n"),
    (b"procedure M is begin \x1b[31m null; end M;\n", b"m.adb:1:22: error: E001 illegal character\nprocedure M is begin ^[[31m null; end M;\n                     ^\nnote: no lexeme of Ada begins with this character (ARM 2.1)\n1 error\n"),
    (b"procedure M is begin null; \x00 end M;\n", b"m.adb:1:28: error: E001 illegal character\nprocedure M is begin null; ^@ end M;\n                           ^\nnote: no lexeme of Ada begins with this character (ARM 2.1)\n1 error\n"),
    (b"procedure M is begin null; end M;\n\x1a", b"m.adb:2:1: error: E001 illegal character\n^Z\n^\nnote: here is a Ctrl-Z: a source ends with its last line\n1 error\n"),
)


def run_lines(program, count):
    """A caret stands under its place, however the lines of the text end, and controls are shown."""
    for text, told in LINES:
        with tempfile.TemporaryDirectory() as folder:
            put(pathlib.Path(folder) / "m.adb", text)
            count.check(f"lines of {text!r}", run(program, ["m"], cwd=folder), (1, b"", told))


def run_images(program, count):
    """Nothing but an image is written over, unless that is asked for."""
    with tempfile.TemporaryDirectory() as folder:
        room = pathlib.Path(folder)
        put(room / "hello.adb", HELLO)
        put(room / "notes", b"kept")
        put(room / "empty", b"")
        count.check("a source", run(program, ["--image", "hello.adb", "hello"], cwd=folder), (1, b"", b"error: hello.adb has the name of a source; --force writes an image there\n"))
        count.check("a source that isn't there", run(program, ["--image", "new.adb", "hello"], cwd=folder)[0], 1)
        count.check("another file, and the run", run(program, ["--run", "--image", "notes", "hello"], cwd=folder), (1, b"hi\n", b"error: notes isn't an image; --force writes over it\n"))
        count.check("a folder", run(program, ["--image", ".", "hello"], cwd=folder), (1, b"", b"error: . isn't a file; --force writes an image there\n"))
        count.check("they are as they were", ((room / "hello.adb").read_bytes(), (room / "notes").read_bytes(), (room / "new.adb").exists()), (HELLO, b"kept", False))
        for words in (["--image", "empty"], ["--image", "empty"], ["--image", "notes", "--force"]):
            count.check(f"{words}", run(program, [*words, "hello"], cwd=folder), (0, b"", b""))
            count.check(f"{words}, run", run(program, ["--load", words[1]], cwd=folder), (0, b"hi\n", b""))


def run_closure(program, count):
    """Of 4,000 files those are opened that ten units have; a line of a watch with nothing changed is answered in 20 ms."""
    with tempfile.TemporaryDirectory() as folder:
        room = pathlib.Path(folder)
        many_units(room, 2000)
        put(room / "small.adb", b"with Unit_31;\nprocedure Small is\nbegin\n   null;\nend Small;\n")
        wanted = ["small.adb", *(f"unit_{n}.ad{kind}" for n in (31, 15, 7, 3, 1, 0) for kind in "sb")]
        for file in room.iterdir():
            if file.name not in wanted:
                file.chmod(0)
                file.write_bytes(b"garbage") if os.geteuid() else None
        traced = subprocess.run(["strace", "-f", "-e", "trace=open,openat", program, "small"], cwd=folder, capture_output=True) if shutil.which("strace") else None
        if traced is not None:
            opened = sorted(set(re.findall(rb'open(?:at)?\([^"]*"(?:[^"]*/)?([a-z0-9_]+\.ad[sb])"', traced.stderr)))
            count.check("what is opened of 4,000 files", opened, sorted(it.encode() for it in wanted))
        count.check("ten units of 4,000 files", run(program, ["small"], cwd=folder), (0, b"", b""))
    with tempfile.TemporaryDirectory() as folder:
        many_units(pathlib.Path(folder), 2000)
        for file in pathlib.Path(folder).iterdir():
            os.utime(file, (1, 1))
        talk = Talk([program, "--watch", "main"], folder)
        count.check("4,001 units", talk.next_line(), b"checked 4001 of 4001 units, image made, 0 ms\n")
        first = processor_seconds(talk)
        spent = []
        for _ in range(10):
            before = processor_seconds(talk)
            talk.say("")
            count.check("4,001 units, nothing changed", talk.next_line(), b"checked 0 of 4001 units, image as before, 0 ms\n")
            spent.append(processor_seconds(talk) - before)
        count.check(f"a line takes less than a 25th of the first build's {first}: {spent}", 25 * min(spent) < first, True)
        count.check("4,001 units, the end", talk.finish(), (b"", 0))


def processor_seconds(talk):
    """The processor time that a program has used."""
    return int(pathlib.Path(f"/proc/{talk.process.pid}/schedstat").read_text().split()[0]) / 1e9


def run_ended_lines(program, count):
    """A message stands on a line of its own."""
    with tempfile.TemporaryDirectory() as folder:
        put(pathlib.Path(folder) / "m.adb", b'with Ada.Text_IO;\nprocedure M is\n   Zero : Integer := 0;\nbegin\n   Ada.Text_IO.Put ("unended");\n   Zero := 1 / Zero;\nend M;\n')
        got = subprocess.run([program, "--run", "m"], cwd=folder, stdin=subprocess.DEVNULL, stdout=subprocess.PIPE, stderr=subprocess.STDOUT)
        count.check("a message behind an unended line", (got.returncode, got.stdout), (3, b"unended\nraised constraint_error, m.adb:6\n"))
        count.check("the output alone", run(program, ["--run", "m"], cwd=folder), (3, b"unended", b"\nraised constraint_error, m.adb:6\n"))
        sub = subprocess.run([program, "--run", "m", folder], cwd="/", stdin=subprocess.DEVNULL, capture_output=True)
        count.check("the folder of an exception", sub.stderr, b"\nraised constraint_error, " + folder.encode() + b"/m.adb:6\n")
    for text, line in ((b"procedure M is\n   X : Integer := 0;\n\f\nbegin\n   X := 1 / X;\nend M;\n", 6), (b"procedure M is\r   X : Integer := 0;\rbegin\r   X := 1 / X;\rend M;\r", 4)):
        with tempfile.TemporaryDirectory() as folder:
            put(pathlib.Path(folder) / "m.adb", text)
            told = f"raised constraint_error, m.adb:{line}\n".encode()
            count.check(f"the line of an exception in {text!r}", run(program, ["--run", "m"], cwd=folder), (3, b"", told))


def run_watched_lines(program, count):
    """What a watch prints on which output, and lines that no person writes."""
    with tempfile.TemporaryDirectory() as folder:
        put(pathlib.Path(folder) / "hello.adb", HELLO)
        built, again = b"checked 1 of 1 units, image made, 0 ms\n", b"checked 0 of 1 units, image as before, 0 ms\n"
        words = b"the words are run, order, checked, why UNIT, obsolete and quit, and an empty line builds\n"
        for given, output, told in (
            (b"obsolete\norder\n", b"body of hello\n", b"no unit is obsolete\n" + again),
            (b"\xff\xfe\n\0\nrun\n", b"hi\n", words * 2 + again),
            (b"x" * 2_000_000 + b"\n", b"", words),
            (b"run", b"hi\n", again),
        ):
            got = subprocess.run([program, "--watch", "hello"], cwd=folder, input=given, capture_output=True)
            count.check(f"a watch of {given[:20]!r}", (got.returncode, got.stdout, settled(got.stderr)), (0, output, built + told))


def run_obsolete(program, count):
    """Units that have become obsolete are listed on the standard error."""
    with tempfile.TemporaryDirectory() as folder:
        put(pathlib.Path(folder) / "hello.adb", HELLO)
        with subprocess.Popen([program, "--watch", "hello"], cwd=folder, stdin=subprocess.PIPE, stdout=subprocess.PIPE, stderr=subprocess.PIPE) as watch:
            first = settled(watch.stderr.readline())
            put(pathlib.Path(folder) / "hello.adb", HELLO.replace(b"hi", b"hello"))
            got = watch.communicate(b"obsolete\nquit\n", PATIENCE)
            count.check("obsolete units", (first, *got, watch.returncode), (b"checked 1 of 1 units, image made, 0 ms\n", b"", b"body of hello\n", 0))


def run_written(program, count):
    """What a program put out is let go once it is written; an output that nobody reads any more is reported."""
    with tempfile.TemporaryDirectory() as folder:
        line = "0123456789" * 10
        put(pathlib.Path(folder) / "main.adb", f'with Ada.Text_IO;\nprocedure Main is\nbegin\n   loop\n      Ada.Text_IO.Put_Line ("{line}");\n   end loop;\nend Main;\n'.encode())
        with subprocess.Popen([program, "--run", "main"], cwd=folder, stdout=subprocess.PIPE, stderr=subprocess.PIPE) as writer:
            size = 0
            while size < 100_000_000 and (some := os.read(writer.stdout.fileno(), 1 << 20)):
                size += len(some)
            most = re.search(r"VmHWM:\s+(\d+) kB", pathlib.Path(f"/proc/{writer.pid}/status").read_text())
            count.check(f"100 MB put out, with at most {most[1]} kB held", int(most[1]) < 50_000, True)
            writer.stdout.close()
            count.check("a pipe that nobody reads", (writer.stderr.read(), writer.wait(PATIENCE)), (b"error: the standard output can't be written\n", 1))


def run_numerous(program, count):
    """10,000 files of which one is needed, and all of them."""
    with tempfile.TemporaryDirectory() as folder:
        room = pathlib.Path(folder)
        put(room / "hello.adb", HELLO)
        for n in range(10_000):
            put(room / f"p{n}.ads", b"")
        count.check("one of 10,000 files", run(program, ["--run", "hello"], cwd=folder), (0, b"hi\n", b""))
        status, output, told = run(program, ["--run", "--all", "hello"], cwd=folder)
        count.check("all of 10,000 files", (status, output, re.sub(rb"p\d+", b"p", told)), (1, b"", b"error: p.ads can't be taken: there are more than 4096 sources\n"))


def are_among(lines, others):
    """Whether these lines are some of those, in their order."""
    rest = iter(others)
    return all(line in rest for line in lines)


def may_come(plain, got, goes_on):
    """Whether that may come of a run where one growth is refused: all as ever; or one error is told, want of memory or that a file can't be read or
    written for it, beside a part of what is written else, with exit status 1; where a watch goes on after the second, with 0."""
    if got == plain:
        return True
    lines = got[2].splitlines(True)
    errors = [it for it in lines if it.startswith(b"error: ")]
    told = re.fullmatch(rb"error: (.* can't be (read|written): )?out of memory\n", b"".join(errors))
    if told is None or got[0] != (0 if goes_on and told[1] else 1):
        return False
    lines.remove(errors[0])
    return are_among(lines, plain[2].splitlines(True)) and are_among(got[1].splitlines(True), plain[1].splitlines(True))


def run_refused(program, count):
    """Each growth of memory is refused in turn, in a build and its run, a run of the image, and a watch."""
    counter = str(TOP / "crates/adabuild/data")
    with tempfile.TemporaryDirectory() as folder, concurrent.futures.ThreadPoolExecutor(os.cpu_count()) as pool:
        refuser = Refuser(program, folder)
        image = f"{folder}/image"
        count.check("the image", run(program, ["--image", image, "main", counter]), (0, b"", b""))
        runs = (
            (b"", ["--run", "--order", "--image", "/dev/null", "--force", "main", counter]),
            (b"", ["--load", image]),
            (b"order\nrun\nobsolete\nquit\n", ["--watch", "main", counter]),
        )
        for given, words in runs:
            growths = sweep(lambda growth: refused_once(refuser, given, words, growth), pool)
            plain = growths[-1]
            count.check(f"{words[0]}, no growth refused", plain[0], 0)
            for at, got in enumerate(growths):
                count.check(f"{words[0]}, growth {at + 1}", got if not may_come(plain, got, words[0] == "--watch") else True, True)


def refused_once(refuser, given, words, growth):
    """What comes of it where this growth is refused, and whether one was."""
    (status, output, told), refused = refuser.run(given, growth, words)
    return (status, output, settled(told)), refused


def sweep(once, pool):
    """What comes of each growth in turn, and last of a run in which none is refused."""
    outcomes = []
    while True:
        at = len(outcomes) + 1
        for got, refused in pool.map(once, range(at, at + 64)):
            outcomes.append(got)
            if not refused:
                return outcomes


def main():
    program = str(pathlib.Path(sys.argv[1]).resolve())
    count = Count()
    run_recordings(program, count)
    run_pages(program, count)
    run_programs(program, count)
    run_many(program, count)
    run_endless(program, count)
    run_damaged(program, count)
    run_devices(program, count)
    run_odd(program, count)
    run_names(program, count)
    run_lines(program, count)
    run_images(program, count)
    run_closure(program, count)
    run_ended_lines(program, count)
    run_watched_lines(program, count)
    run_obsolete(program, count)
    run_written(program, count)
    run_numerous(program, count)
    run_refused(program, count)
    print(f"{count.passed} passed, {count.failed} failed")
    return count.failed != 0


if __name__ == "__main__":
    sys.exit(main())
