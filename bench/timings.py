#!/usr/bin/env python3
"""timings.py PROGRAM [ada | units | names | edits | tasks]: times sessions of growing size (with a word that part alone). Each line is the least of three runs, in milliseconds; that of a text of Ada of twelve.

Where an effort is linear, each doubling doubles the time beyond that of the empty session.
"""
import os
import pathlib
import resource
import shutil
import subprocess
import sys
import tempfile
import time

HELLO = b'with Ada.Text_IO; procedure Hello is begin Ada.Text_IO.Put_Line ("hi"); end Hello;'


def put(name, text):
    return b"put %s %d\n%s\n" % (name, len(text), text)


def procedure(name, statements):
    return b"with Ada.Text_IO; procedure %s is begin %s end %s;" % (name, statements, name)


def least(program, stream, runs=3):
    best = None
    for _ in range(runs):
        start = time.perf_counter()
        done = subprocess.run([program], input=stream, stdout=subprocess.PIPE, stderr=subprocess.PIPE)
        spent = (time.perf_counter() - start) * 1000
        best = spent if best is None else min(best, spent)
    return best, done


def row(program, what, size, stream):
    spent, done = least(program, stream)
    last = done.stdout.rstrip(b"\n").rsplit(b"\n", 1)[-1].decode("latin-1")
    print(f"{what:<44} {size:>9} {spent:>10.1f} ms   exit {done.returncode}, last reply line: {last[:60]}")


def files(count):
    """So many sound units, of which `u0` is a main procedure."""
    return b"".join(put(b"u%d.adb" % i, procedure(b"U%d" % i, b"null;")) for i in range(count))


def doubled(first, last):
    size = first
    while size <= last:
        yield size
        size *= 2


STEP = b"""   procedure Step_%d (Count : in Integer; Total : in out Integer) is
      Limit : constant Integer := 10 * Count + 3;
      Sum   : Integer range 0 .. 9_999 := 0;
   begin
      for I in 1 .. Limit loop
         if I mod 3 = 0 and then Sum < Limit * 2 then
            Sum := Sum + I * (Count - 1); -- one more
         elsif (I rem 5 = 1 or Sum /= 7) and not (Sum in 1 .. 100) then
            Sum := abs (Sum - Integer'Succ (I) ** 2);
         else
            exit when Sum >= 16#3E8#;
         end if;
      end loop;
      case Sum is
         when 0 | 2 .. 5 => Total := Sum;
         when others => Other.Note (Sum, Total);
      end case;
      Ada.Text_IO.Put_Line ("total " & Integer'Image (Total));
   end Step_%d;
"""


def ada_text(size, last=b"end P;\n"):
    """A package body of so many bytes, of declarations, statements and expressions of many kinds, with blanks before its end."""
    pieces = [b"with Ada.Text_IO; with Other;\npackage body P is\n"]
    room = size - len(pieces[0]) - len(last)
    while True:
        number = len(pieces)
        piece = STEP % (number, number)
        if room < len(piece):
            return b"".join(pieces) + b" " * room + last
        pieces.append(piece)
        room -= len(piece)


def spent_by(command, stream, folder):
    """The time and the processor time of a command, in milliseconds."""
    before = resource.getrusage(resource.RUSAGE_CHILDREN)
    start = time.perf_counter()
    subprocess.run(command, input=stream, cwd=folder, stdout=subprocess.PIPE, stderr=subprocess.PIPE)
    spent = time.perf_counter() - start
    after = resource.getrusage(resource.RUSAGE_CHILDREN)
    return spent * 1000, (after.ru_utime - before.ru_utime + after.ru_stime - before.ru_stime) * 1000


def by_turns(commands, folder, rounds=12):
    """Runs each command in turn, so many times: the least time and the least processor time of each."""
    best = [(float("inf"), float("inf"))] * len(commands)
    for _ in range(rounds):
        for i, (command, stream) in enumerate(commands):
            best[i] = tuple(map(min, best[i], spent_by(command, stream, folder)))
    return best


def texts_of_ada(program):
    """Beside `gcc -c -gnats` of the same text, which reads the syntax alone, where there is such a compiler."""
    has_compiler = shutil.which("gcc") and shutil.which("gnatmake")
    for what, last in (("Ada text", b"end P;\n"), ("Ada text with a fault in its last line", b"end P end;\n")):
        for size in doubled(1 << 16, 1 << 20):
            text = ada_text(size, last)
            commands = [([program], put(b"p.adb", text) + b"build p\n")]
            if has_compiler:
                commands.append((["gcc", "-c", "-gnats", "p.adb"], b""))
            with tempfile.TemporaryDirectory() as folder:
                (pathlib.Path(folder) / "p.adb").write_bytes(text)
                best = by_turns(commands, folder)
            for (spent, processor), name in zip(best, (f"put and build: {what}", "  gcc -c -gnats of the same text")):
                print(f"{name:<56} {size:>9} {spent:>10.1f} ms, of a processor {processor:.1f} ms")


def chain(number):
    """Each unit names the next one but the last, in the order of numbers."""
    return [number + 1]


def star(number):
    """All units name the first one."""
    return [0]


def layered(number):
    """Layers of 20 units, each of which names all units of the layer before it; the first one names none."""
    below = number - number % 20 - 20
    return range(below, below + 20)


def packages(shape, count):
    """So many packages u0, u1, .. of a shape."""
    stream = []
    for number in range(count):
        named = [it for it in shape(number) if 0 <= it < count and it != number]
        withs = b"".join(b"with U%d; " % it for it in named)
        stream.append(put(b"u%d.ads" % number, withs + b"package U%d is end U%d;" % (number, number)))
    return b"".join(stream)


def graphs_of_units(program):
    for shape in (chain, star, layered):
        for count in doubled(256, 4096):
            stream = packages(shape, count)
            # the unit that all others reach, or many of them
            base = count - 1 if shape is chain else 0
            touched = put(b"u%d.ads" % base, b"package U%d is private end U%d;" % (base, base))
            what = shape.__name__
            row(program, f"{what}: put of so many units", count, stream)
            row(program, f"{what}: and the units by file", count, stream + b"report units\n")
            row(program, f"{what}: put and build", count, stream + b"build u0\n")
            row(program, f"{what}: and an edit and obsolete units", count, stream + b"build u0\n" + touched + b"report obsolete\n")


def declared(shape, count):
    """So many packages of a shape, each of which declares a variable with the sum of those of the packages that it names, and a main procedure that names the first."""
    stream = []
    for number in range(count):
        named = [it for it in shape(number) if 0 <= it < count and it != number]
        stream.append(put(b"u%d.ads" % number, unit(number, named)))
    return b"".join(stream) + put(b"m.adb", MAIN % b"1")


MAIN = b"with Ada.Text_IO; with U0; procedure M is begin U0.X := U0.X + %s; Ada.Text_IO.Put_Line (Integer'Image (U0.X)); end M;"


def unit(number, named, more=b""):
    withs = b"".join(b"with U%d; " % it for it in named)
    value = b" + ".join([b"1"] + [b"U%d.X" % it for it in named])
    return withs + b"package U%d is X : Integer := %s;%s end U%d;" % (number, value, more, number)


def processor(program, stream):
    """The least processor time of three runs, in milliseconds."""
    with tempfile.TemporaryDirectory() as folder:
        return min(spent_by([program], stream, folder)[1] for _ in range(3))


def edits_of_units(program, repeats=8):
    """What a build takes of a processor after edits, each made and taken back in turn, and what the first build takes."""
    for shape in (chain, star, layered):
        for count in doubled(64, 1024):
            base = count - 1 if shape is chain else 0
            stream = declared(shape, count)
            first = processor(program, stream)
            built = processor(program, stream + b"build m\n")
            print(f"{shape.__name__ + ': first build':<52} {count:>6} {built - first:>10.1f} ms")
            for what, name, texts in (
                ("no edit", None, (b"", b"")),
                ("the main procedure", b"m.adb", (MAIN % b"2", MAIN % b"1")),
                ("a declaration more that nobody names", b"u%d.ads" % base, (unit(base, [], b" Y : Integer;"), unit(base, []))),
                ("another type of what is named", b"u%d.ads" % base, (unit(base, []).replace(b": Integer", b": Natural"), unit(base, []))),
            ):
                turns = b"".join((put(name, it) if name else b"") + b"build m\n" for it in texts)
                spent = processor(program, stream + b"build m\n" + turns * repeats)
                print(f"{shape.__name__ + ': ' + what:<52} {count:>6} {(spent - built) / (2 * repeats):>10.1f} ms a build")


def peak_of(program, stream):
    """The most memory that a session holds at a time, in MiB."""
    with tempfile.TemporaryFile() as given:
        given.write(stream)
        given.seek(0)
        child = subprocess.Popen([program], stdin=given, stdout=subprocess.DEVNULL, stderr=subprocess.DEVNULL)
        _, _, usage = os.wait4(child.pid, 0)
        child.returncode = 0
    return usage.ru_maxrss / 1024


def dotted_names(program):
    """A with clause with one name of so many bytes, every second one a dot, and one with as many names of one part."""
    for kib in (4, 16, 64):
        parts = kib * 512
        for what, withs in (
            ("one dotted name", b"with " + b".".join([b"A"] * parts) + b";"),
            ("names of one part", b"".join(b"with A;" for _ in range(parts))),
        ):
            text = withs + b" package P is end P;"
            built = put(b"p.ads", text) + b"build p\n"
            edited = built + put(b"q.ads", b"package Q is end Q;") + b"report obsolete\n"
            row(program, f"{what}: put and build", parts, built)
            row(program, f"{what}: and an edit and obsolete units", parts, edited)
            print(f"{'':<54} {peak_of(program, edited):>10.1f} MiB at most")


TASK = b"task T%d with Priority => 3;", b"task body T%d is begin null; end T%d;"
OBJECT = (
    b"protected O%d is procedure Put (N : Integer); function Get return Integer; entry Wait; private V : Integer := 0; Open : Boolean := False; end O%d;",
    b"protected body O%d is procedure Put (N : Integer) is begin V := N; Open := True; end Put; function Get return Integer is begin return V; end Get; "
    b"entry Wait when Open is begin Open := False; end Wait; end O%d;",
)


def numbered(text, number):
    return text.replace(b"%d", b"%d" % number)


def package(name, numbers, declaration, body):
    """A package of so many tasks or protected objects, with its body."""
    one, other = (b" ".join(numbered(text, it) for it in numbers) for text in (declaration, body))
    texts = (b"ads", b"package %s is %s end %s;" % (name, one, name)), (b"adb", b"package body %s is %s end %s;" % (name, other, name))
    return b"".join(put(name.lower() + b"." + ending, text) for ending, text in texts)


def tasks_and_objects(program):
    """Tasks and protected objects that are put and built, in one package or in a package each. (An image has at most 63 tasks, so with more of
    them the build ends with `image too large`, once all units are checked.)"""
    main = put(b"m.adb", b"with P0; procedure M is begin null; end M;")
    for what, texts in (("tasks", TASK), ("protected objects", OBJECT)):
        for count in (250, 500, 1000, 2000):
            in_one = package(b"P0", range(count), *texts)
            in_many = b"".join(package(b"P%d" % it, [it], *texts) for it in range(count))
            for where, stream in (("one package", in_one), ("a package each", in_many)):
                spent = processor(program, stream + main + b"build m\n")
                print(f"{f'{what} in {where}: put and build':<56} {count:>6} {spent:>10.1f} ms")


def main():
    program = str(pathlib.Path(sys.argv[1]).resolve())
    parts = {"ada": texts_of_ada, "units": graphs_of_units, "names": dotted_names, "edits": edits_of_units, "tasks": tasks_and_objects}
    if sys.argv[2:]:
        parts[sys.argv[2]](program)
        return
    row(program, "empty session", 0, b"")
    for count in doubled(16, 4096):
        row(program, "put of so many files", count, files(count))
        row(program, "put of so many files, and a build", count, files(count) + b"build u0\n")
    for size in doubled(1024, 1 << 20):
        comment = b" " * (size - len(HELLO))
        row(program, "put of a text of so many bytes", size, put(b"hello.adb", HELLO + comment))
        row(program, "build of a text of so many bytes of blanks", size, put(b"hello.adb", HELLO + comment) + b"build hello\n")
        room = size - len(procedure(b"P", b""))
        statements = b"null;" * (room // 5)
        row(program, "build of a text of so many bytes of statements", size, put(b"p.adb", procedure(b"P", statements)) + b"build p\n")
    texts_of_ada(program)
    graphs_of_units(program)
    dotted_names(program)
    edits_of_units(program)
    tasks_and_objects(program)
    for count in doubled(1024, 65536):
        row(program, "session of so many refused commands", count, b"report order\n" * count)
        row(program, "session of so many puts over one file", count, put(b"hello.adb", HELLO) * count)
        row(program, "session of so many runs", count, put(b"hello.adb", HELLO) + b"build hello\n" + b"run 12\n" * count)
    repeats = 10000
    for count in (16, 4096):
        base, _ = least(program, files(count))
        for what, command in (
            ("put over a file", put(b"u0.adb", b"x")),
            ("put and delete of a new name", put(b"u0.ads", b"") + b"delete u0.ads\n"),
            ("refused command", b"delete none.ads\n"),
        ):
            spent, _ = least(program, files(count) + command * repeats)
            print(f"{what + f' with {count} files':<44} {'':>9} {(spent - base) * 1000 / repeats:>10.2f} us each")


if __name__ == "__main__":
    main()
