#!/usr/bin/env python3
"""machine.py ADABUILD: images that are written by hand, run by `adabuild --load`.

tests/machine/codes.txt has codes, a line each, and what comes of each. What stands before them holds for those that follow:

    image TASKS | WORDS | OBJECTS | UNITS   the fields of the image: how many tasks it may create, its data words, its protected objects, by the address,
                                            the words and the ceiling of each, and where the code of each of its units begins; these are bodies u0, u1 ..
    every N                                 a tick of the clock comes after N instructions
    steps N                                 a run has so many events at most
    run CODE => OUTPUT/END                  instructions, each before a semicolon, by the names of docs/formats.md in small letters with `_` between the words;
                                            `l:` is a label, which may stand for a number, a place or a jump
    # ..                                    what is tried

One of several replies is wanted, with `or` between them. OUTPUT has `%` for each end of a line. END is `finished`, `idle`, `going` (the steps are spent), `stuck`, or an exception and the number of its unit.

tests/machine/images.txt has images of programs, each as `NAME STEPS DIGITS` with what comes of it in the lines after it, as `adalib` replies to `run`.
Then images are damaged: the reader of tests/images.py tells which are images still. Prints each failure, and last `N passed, M failed`.
"""
import pathlib
import random
import re
import struct
import subprocess
import sys
import tempfile

from images import INSTRUCTIONS, Damaged, Image, without_tasks

MACHINE = pathlib.Path(__file__).resolve().parent / "machine"
FORMS = {entry.partition(" ")[0]: (byte, entry.partition(" ")[2]) for byte, entry in INSTRUCTIONS.items()}
SMALL = ("nothing", "nothing_with_lines", "a_protected_object")
ENDS = {
    "finished": (0, ""),
    "idle": (0, "idle: each task waits, and nothing can wake one\n"),
    "going": (0, "stopped: the steps are spent\n"),
    "stuck": (1, "stopped: the image is damaged\n"),
}


def words_of(numbers):
    return struct.pack(f">{len(numbers)}I", *numbers)


def encoded(form, given, labels, place):
    """An operand's bytes; `place` is where it begins."""
    number = int(labels.get(given, given))
    if form == "i":
        return struct.pack(">i", number - place - 4 if given in labels else number)
    return struct.pack(">" + form, number)


def instruction(part, labels, place):
    name, *given = part.split()
    byte, form = FORMS["".join(word.capitalize() for word in name.split("_"))]
    code = bytes([byte])
    if name == "put_text":
        text = "".join(given).encode()
        return code + words_of([len(text)]) + text
    if name == "put_name":
        return code + words_of([int(given[0]), len(given) - 1]) + b"".join(bytes([len(it)]) + it.encode() for it in given[1:])
    for letter, it in zip(form, given, strict=True):
        code += encoded(letter, it, labels, place + len(code))
    return code


def assembled(text):
    """The bytes of a code: once to find where its labels are, and once with them."""
    labels = {part.strip()[:-1]: 0 for part in text.split(";") if part.strip().endswith(":")}
    for _ in range(2):
        code = b""
        for part in map(str.strip, text.split(";")):
            if part.endswith(":"):
                labels[part[:-1]] = len(code)
            else:
                code += instruction(part, labels, len(code))
    return code


def image_of(fields, code):
    """An image of version 1 (docs/formats.md)."""
    tasks, words, objects, units = ([int(it) for it in field.split()] for field in fields.split("|"))
    head = b"ADLI\0\1" + words_of(tasks + words + [len(objects) // 3] + objects + [len(units)])
    return head + b"".join(b"\1\2u%d" % i + words_of([place]) for i, place in enumerate(units)) + words_of([len(code)]) + code


def ended(status, output, told):
    """The exit status, the output and the error output of a run: what is printed of its end begins with the end of the output's last line, if that has none."""
    return status, output, (b"\n" if told and output and not output.endswith(b"\n") else b"") + told


def wanted_run(reply):
    """The exit status, the output and the error output that a reply stands for."""
    output, _, end = reply.rpartition("/")
    output = output.replace("%", "\n").encode()
    if end in ENDS:
        return ended(ENDS[end][0], output, ENDS[end][1].encode())
    exception, unit = end.split()
    return ended(3, output, f"raised {exception}, u{unit}.adb\n".encode())


def codes():
    """Of each code its line, the image, the words of the command line, and what is wanted."""
    fields, every, steps = "0 | 0 | | 0", "100", "100000"
    for line in (MACHINE / "codes.txt").read_text().splitlines():
        word, _, rest = line.partition(" ")
        if word == "image":
            fields = rest
        elif word == "every":
            every = rest
        elif word == "steps":
            steps = rest
        elif word == "run":
            code, reply = rest.split(" => ")
            yield line, image_of(fields, assembled(code)), ["--steps", steps, "--tick", every], [wanted_run(it) for it in reply.split(" or ")]


def end_of(words):
    """The exit status and the error output that `end WORDS` stands for."""
    if words[0] == "raised":
        file = words[2].replace(".", "-") + {"decl": ".ads", "body": ".adb", "sub": ".adb"}[words[3]]
        return 3, f"raised {words[1]}, {file}" + (f":{words[4]}" if words[4:] else "") + "\n"
    return ENDS["going" if words[0] == "spent" else words[0]]


def images():
    """The same of each image of a program."""
    rows = (MACHINE / "images.txt").read_text()
    for name, steps, digits, output, end in re.findall(r"^(\w+) (\d+) ([0-9a-f]+)\noutput \d+\n(.*?)\nend ([^\n]*)$", rows, re.M | re.S):
        status, told = end_of(end.split())
        yield name, bytes.fromhex(digits), ["--steps", steps, "--tick", "100"], [ended(status, output.encode(), told.encode())]


def fronts(data):
    """The fronts of an image, what has one byte more, and what has one byte that is one more."""
    yield from (data[:size] for size in range(len(data)))
    yield data + b"\0"
    for place, byte in enumerate(data):
        yield data[:place] + bytes([(byte + 1) % 256]) + data[place + 1 :]


def changed(data, chance):
    """An image with one to four of its bytes changed."""
    data = bytearray(data)
    for _ in range(chance.randint(1, 4)):
        data[chance.randrange(len(data))] = chance.randrange(256)
    return bytes(data)


def damaged():
    """Bytes of which some are images still, each with a name."""
    chance = random.Random(2026)
    for name, data, _, _ in images():
        if name in SMALL:
            yield from ((f"{name} with damage {i}", it) for i, it in enumerate(fronts(data)))
        yield from ((f"{name} with bytes changed, {i}", changed(data, chance)) for i in range(20))


def is_image(data):
    try:
        return Image(data) is not None
    except Damaged:
        return False


class Machine:
    def __init__(self, program, folder):
        self.program = program
        self.image = pathlib.Path(folder) / "image"
        self.passed = self.failed = 0

    def run(self, data, words):
        self.image.write_bytes(data)
        done = subprocess.run([self.program, "--load", str(self.image), *words], stdin=subprocess.DEVNULL, capture_output=True, timeout=120)
        return done.returncode, done.stdout, without_tasks(done.stderr)

    def check(self, what, got, wanted):
        """`wanted` are all that may come."""
        self.passed += got in wanted
        self.failed += got not in wanted
        if got not in wanted:
            print(f"{what}: failed\n  got    {got}\n  wanted {wanted}")

    def damage(self, what, data):
        """What images.py doesn't read is refused; all else runs to some end, and to the same one again."""
        refused = (1, b"", f"error: {self.image} isn't an image, or is a damaged one\n".encode())
        words = ["--steps", "1000"]
        got = self.run(data, words)
        if not is_image(data):
            self.check(what, got, [refused])
        else:
            self.check(what, got[0] in (0, 1, 3) and got != refused and got == self.run(data, words), [True])


def main():
    with tempfile.TemporaryDirectory() as folder:
        machine = Machine(str(pathlib.Path(sys.argv[1]).resolve()), folder)
        for what, data, words, wanted in [*codes(), *images()]:
            machine.check(what, machine.run(data, words), wanted)
        for what, data in damaged():
            machine.damage(what, data)
    print(f"{machine.passed} passed, {machine.failed} failed")
    return machine.failed != 0


if __name__ == "__main__":
    sys.exit(main())
