"""Images and their instructions, read by the tables of docs/formats.md: a reader of its own, which shares nothing with the program."""
import re
import struct

INSTRUCTIONS = {
    0x00: "Const q", 0x01: "Frame II", 0x02: "Global I", 0x03: "Load I", 0x04: "Store I", 0x05: "Zero I", 0x06: "Same I", 0x07: "Drop I",
    0x08: "Check qq", 0x09: "Index qqI", 0x0A: "Field I", 0x0B: "Jump i", 0x0C: "JumpZero i",
    0x10: "Add", 0x11: "Subtract", 0x12: "Multiply", 0x13: "Divide", 0x14: "Modulo", 0x15: "Remainder", 0x16: "Power",
    0x17: "Negate", 0x18: "Absolute", 0x19: "Not", 0x1A: "And", 0x1B: "Or", 0x1C: "Xor",
    0x1D: "Equal", 0x1E: "NotEqual", 0x1F: "Less", 0x20: "AtMost", 0x21: "Greater", 0x22: "AtLeast",
    0x30: "Mark I", 0x31: "Root", 0x32: "Call II", 0x33: "Enter I", 0x34: "Return I", 0x35: "Access", 0x36: "Raise I",
    0x40: "PutText", 0x41: "PutInteger I", 0x42: "PutName", 0x43: "NewLine",
    0x50: "Task II", 0x51: "Go", 0x52: "Begun", 0x53: "Done", 0x54: "Now", 0x55: "Sleep",
    0x56: "EnterObject I", 0x57: "EnterEntry I", 0x58: "Leave", 0x59: "Waiting I", 0x5A: "Wake I", 0x5B: "Block I", 0x5C: "Seed II",
}  # fmt: skip
LETTERS = b"abcdefghijklmnopqrstuvwxyz0123456789_."
ENDINGS = (".ads", ".adb", ".adb")


class Damaged(Exception):
    """Bytes that are no image."""


def want(holds, what):
    if not holds:
        raise Damaged(what)


class Bytes:
    """Bytes that are read from the front."""

    def __init__(self, data, place=0):
        self.data = data
        self.place = place

    def take(self, form):
        size = struct.calcsize(">" + form)
        return struct.unpack(">" + form, self.text(size))

    def word(self):
        return self.take("I")[0]

    def text(self, length):
        self.place += length
        want(self.place <= len(self.data), "more bytes")
        return self.data[self.place - length : self.place]


class Image:
    def __init__(self, data):
        it = Bytes(data)
        mark, version, self.tasks, self.words, count = it.take("4sHIII")
        want(mark == b"ADLI" and version in (1, 2), "the mark and the version")
        want(self.tasks <= 63 and self.words <= 1 << 20 and count <= 65535, "numbers within their limits")
        self.objects = [it.take("III") for _ in range(count)]
        want(all(address + words <= self.words and ceiling <= 30 for address, words, ceiling in self.objects), "objects among the words")
        self.units = [self.unit(it) for _ in range(self.limited(it, 65535))]
        self.code = it.text(self.limited(it, 1 << 24))
        self.lines = [it.take("II") for _ in range(it.word())] if version == 2 else []
        places = [place for place, _ in self.lines]
        want(all(a < b for a, b in zip(places, places[1:] + [len(self.code)])), "lines that rise, below the code's length")
        want(all(line >= 1 for _, line in self.lines) and it.place == len(data), "lines from 1 on, and nothing after them")
        code = Bytes(self.code)
        while code.place < len(self.code):
            instruction(code)

    @staticmethod
    def limited(it, most):
        count = it.word()
        want(count <= most, "a number within its limit")
        return count

    @staticmethod
    def unit(it):
        """Where the code of a unit begins, and the file that the unit belongs in (with no name shortened)."""
        kind, length = it.take("BB")
        name = it.text(length)
        want(kind <= 2 and name and all(byte in LETTERS for byte in name), "a unit's kind and name")
        return it.word(), name.decode().replace(".", "-") + ENDINGS[kind]


def instruction(code):
    """The instruction there, as words, and where its jump leads."""
    known = INSTRUCTIONS.get(code.take("B")[0])
    want(known, "an instruction")
    name, _, form = known.partition(" ")
    if name == "PutText":
        return [name, repr(code.text(code.word()).decode(errors="replace"))], None
    if name == "PutName":
        depth, count = code.take("II")
        return [name, str(depth), *(code.text(code.take("B")[0]).decode(errors="replace") for _ in range(count))], None
    given = code.take(form)
    if name.startswith("Jump"):
        return [name], code.place + given[0]
    return [name, *map(str, given)], None


def without_tasks(told):
    """What is told of a run without the lines of its tasks, which tests/folders/tasks.txt has."""
    return re.sub(rb"^(in task |  environment task |  task )[^\n]*\n", b"", told, flags=re.M)
