#!/usr/bin/env python3
"""listings.py PROGRAM: the code that a built program makes of Ada texts, or what it finds wrong with them, against tests/listings.

A file NAME.txt there is scenes, each of which is a library:

    == TITLE          a scene, in which no file is there yet
    FILE: TEXT        the file FILE has this line; each further line stands behind a bar, `|`. One line of one file may have `@` in it
    @ TEXT            the files are put with TEXT in the place of `@`, and the unit M is built
    code FILE         the same with nothing in the place of `@`
    # ..              nothing

and the indented lines after it are what that gives, whatever the space between the words:

- what is wrong, `COL CODE` where it stands in the line of `@` (counted in TEXT), else `FILE:LINE:COL CODE`; E208 of the units that depend on it is left out;
- or what the partition lacks;
- or else the code of the line of `@`, wherever it lies, or all code of FILE.

Code is instructions by their names in docs/formats.md, with their operands, read from the image by images.py. `Call` and `Task` name the file and the line of the
code that they lead to, `:LINE` in the same file, and `:LINE+1` where one stretch of that line's code stands before it. `L0` and so on stand where jumps lead, `N:`
where code of the line N begins, in the code of a file. `Check Integer` has the bounds of Integer. Prints each failure, and last `N passed, M failed`.
"""
import bisect
import pathlib
import re
import subprocess
import sys

from images import Bytes, Image, instruction

LISTINGS = pathlib.Path(__file__).resolve().parent / "listings"
DEPENDS_ON_FAULTS = "E208"
INTEGER = ["-2147483648", "2147483647"]


class Listed(Image):
    """An image with what its lines tell of its code."""

    def file_at(self, place):
        """The file whose unit's code the place is in."""
        below = [file for begin, file in self.units if begin <= place]
        return below[-1] if below else ""

    def stretch_at(self, place):
        """The file whose code begins at the place, its line, and which stretch of that line's code it is, counted from 0."""
        file, line = self.file_at(place), dict(self.lines).get(place)
        return file, line, sum(begin < place for begin, _, _ in self.pieces(file, line))

    def pieces(self, file, line=None):
        """The stretches of code of a file, or of one line of it: where each begins and ends, and its line."""
        ends = [begin for begin, _ in self.units] + [len(self.code)]
        for i, (begin, found) in enumerate(self.lines):
            if self.file_at(begin) != file or line not in (None, found):
                continue
            follows = self.lines[i + 1][0] if i + 1 < len(self.lines) else len(self.code)
            yield begin, min(follows, ends[bisect.bisect_right(ends, begin)]), found


def instructions(image, file, begin, end):
    """Of each instruction in a stretch of code where it stands, its words, and where its jump leads."""
    code = Bytes(image.code, begin)
    while code.place < end:
        place = code.place
        words, leads = instruction(code)
        if words[0] == "Check" and words[1:] == INTEGER:
            words[1:] = ["Integer"]
        if words[0] in ("Call", "Task"):
            target = int(words[1])
            into, line, before = image.stretch_at(target)
            words[1] = f"{'' if into == file else into}:{line}" + (f"+{before}" if before else "")
        yield place, words, leads


def listing(image, file, line=None):
    """The words of the code of a file, or of a line of it."""
    all_of_it = []
    for begin, end, found in image.pieces(file, line):
        if line is None:
            all_of_it.append((begin, [f"{found}:"], None))
        all_of_it.extend(instructions(image, file, begin, end))
    targets = sorted({leads for _, _, leads in all_of_it if leads is not None})
    names = {place: f"L{i}" for i, place in enumerate(targets)}
    told, named = [], set()
    for place, words, leads in all_of_it:
        if place in names and place not in named:
            named.add(place)
            told.append(names[place] + ":")
        told.extend(words + ([names[leads]] if leads is not None else []))
    return told + [f"{names[place]}:" for place in targets if place not in named]


class Scene:
    def __init__(self, title):
        self.title = title
        self.files = {}
        self.trials = []

    def hole(self):
        """The file in which `@` stands, its line and its column."""
        for file, lines in self.files.items():
            for i, line in enumerate(lines):
                if "@" in line:
                    return file, i + 1, line.index("@")
        return None, 0, 0

    def session(self):
        commands = []
        for what, text, _ in self.trials:
            for file, lines in self.files.items():
                data = ("\n".join(lines).replace("@", text if what == "@" else "") + "\n").encode()
                commands.append(b"put %s %d\n%s\n" % (file.encode(), len(data), data))
            commands.append(b"build m\nreport image\n")
        return b"".join(commands)

    def faults(self, lines):
        file, line, column = self.hole()
        for fault in lines:
            name, at_line, at_column, text = fault.split(":", 3)
            code = text.split()[0]
            if code == DEPENDS_ON_FAULTS:
                continue
            if name == file and int(at_line) == line:
                yield from (str(int(at_column) - column), code)
            else:
                yield from (f"{name}:{at_line}:{at_column}", code)

    def told(self, replies, what, text):
        """The words of what one trial gives, whose replies are taken."""
        assert all(next(replies) == "ok" for _ in self.files), "a file is refused"
        head = next(replies).split()
        if head[0] == "failed":
            more = int(head[-1]) if head[1:3] == ["B4", "cycle"] else int(head[1]) if head[1].isdigit() else 0
            lines = [next(replies) for _ in range(more)]
            next(replies)
            return list(self.faults(lines)) if head[1].isdigit() else head[1:] + " ".join(lines).split()
        length = int(next(replies).split()[1])
        image = Listed(bytes.fromhex("".join(next(replies) for _ in range((length + 31) // 32))))
        return listing(image, text) if what == "code" else listing(image, *self.hole()[:2])

    def play(self, program):
        """Of each trial its text, what it gives and what is wanted."""
        done = subprocess.run([program], input=self.session(), stdout=subprocess.PIPE, timeout=120, check=True)
        replies = iter(done.stdout.decode().split("\n"))
        for what, text, wanted in self.trials:
            yield text, " ".join(self.told(replies, what, text)).split(), wanted


def scenes_of(path):
    scenes = []
    for row in path.read_text().splitlines():
        head, _, rest = row.partition(" ")
        if not row or row.startswith("#"):
            continue
        if head == "==":
            scenes.append(Scene(rest))
        elif row.startswith("|"):
            scenes[-1].files[file].append(row[1:])
        elif row.startswith(" "):
            scenes[-1].trials[-1][2].extend(row.split())
        elif head in ("@", "code"):
            scenes[-1].trials.append((head, rest, []))
        elif re.fullmatch(r"[a-z0-9_~-]+\.ad[sb]:", head):
            file = head[:-1]
            scenes[-1].files[file] = [rest]
        else:
            sys.exit(f"{path.name}: a line of another form: {row}")
    return scenes


def main():
    program = str(pathlib.Path(sys.argv[1]).resolve())
    passed = failed = 0
    for path in sorted(LISTINGS.glob("*.txt")):
        for scene in scenes_of(path):
            for text, got, wanted in scene.play(program):
                passed += got == wanted
                failed += got != wanted
                if got != wanted:
                    print(f"{path.stem}, {scene.title}, {text}: failed\n  got    {' '.join(got)}\n  wanted {' '.join(wanted)}")
    print(f"{passed} passed, {failed} failed")
    return failed != 0


if __name__ == "__main__":
    sys.exit(main())
