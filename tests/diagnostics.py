#!/usr/bin/env python3
"""diagnostics.py ADABUILD: what the built program `adabuild` prints of diagnostics. diagnostics.py --write: makes docs/diagnostics.md,
and the table of notes of docs/adabuild.md.
diagnostics.py --gnat ADABUILD: makes tests/messages.md, what GNAT and adabuild print for each page's wrong source, and for the programs of two recordings.

docs/diagnostics.md has the rules of al_explain, docs/adabuild.md notes of recordings, and both have to be as --write makes them. Each page's wrong source has to give its code, and its right source
to build; `--explain` prints each page, and refuses other codes. `--format json` writes an object a line, `--format sarif` one document that the schema
takes (tests/sarif.json: what SARIF 2.1.0 says of the parts that occur). Two histories with the same files print the same. One wrong line prints under
ten lines, and notes on 1,000 faulty units take little time. Prints each failure, and last `N passed, M failed`.
"""
import json
import pathlib
import re
import resource
import subprocess
import sys
import tempfile

from folders import Talk

try:
    import jsonschema
except ImportError:
    jsonschema = None

TESTS = pathlib.Path(__file__).resolve().parent
TOP = TESTS.parent
# Seconds of processor time that notes on 1,000 faulty units are to take, and those that fail the test: notes that grow as the square of the units take seconds,
# and the program that Rattle's own compiler builds is slower than that of clang.
AIM, MOST = 0.1, 0.5
# How many runs with notes and without there are at least, and at most if other work makes them slow.
ROUNDS = (3, 10)


def tables():
    """The texts of the tables of al_explain."""
    for file in sorted((TOP / "crates/al_explain/src").glob("*.rt")):
        for found in re.findall(r'pub const \w+: &str =\s*"(%(?:[^"\\]|\\.)*)";', file.read_text()):
            yield found.replace('\\"', '"').replace("\\\\", "\\")


def pages():
    """The pages of al_explain, as dictionaries, by their codes."""
    parts = "".join(tables()).split("%")[1:]
    found = []
    for head, wrong, right in zip(parts[::3], parts[1::3], parts[2::3]):
        code, clauses, rule = head.split("|")
        found.append({"code": int(code), "clauses": clauses, "rule": rule, "wrong": wrong, "right": right})
    return sorted(found, key=lambda page: page["code"])


def messages():
    """What each rule says."""
    return dict(re.findall(r'b"E(\d\d\d) ([^"]*)"', (TOP / "crates/al_base_words/src/message.rt").read_text()))


def indented(text):
    return "".join(f"    {line}\n" for line in text.splitlines())


def page_text(page):
    code = f"{page['code']:03}"
    head = f"E{code} {messages()[code]}\n\n{page['rule']} ({page['clauses']})\n\n"
    return head + f"Wrong:\n\n{indented(page['wrong'])}\nRight:\n\n{indented(page['right'])}"


def diagnostics_page():
    text = "# Diagnostics\n\nThe rule behind each code, with its clauses of the Manual; `adabuild --explain CODE` prints it with a source that breaks it and one that\nis right. Made by `tests/diagnostics.py --write` from the table of `al_explain`. [protocol.md](protocol.md) says when a code is reported.\n\n"
    return text + "".join(f"- **E{page['code']:03}** {page['rule']} ({page['clauses'].replace('ARM ', '')})\n" for page in pages())


# The programs of recordings that docs/adabuild.md shows, by the file and the folder.
SHOWN = (
    ("ordinary", "record_defaults for_of expression_function"),
    ("textbook", "entry_family"),
    ("mistakes", "semicolon keyword2 if_assign endif undeclared use field put_int case_missing"),
)


def shown_row(text, name):
    """The code, the line and the notes of the first diagnostic that a recording has for a folder."""
    said = re.search(rf"(?m)^\$ adabuild (?:\S+ )*{name}\n\S+: error: (E\d+) .*\n(.*)\n.*\n((?:note: .*\n)+)", text)
    notes = said[3].replace(" (docs/language.md#what-there-isnt)", "").replace(f"{name}/", "").replace("note: ", "").splitlines()
    return f"| {said[1]} `{said[2].strip()}` | {' / '.join(notes)} |\n"


def adabuild_page():
    """docs/adabuild.md with its table of notes as the recordings have them."""
    text = (TOP / "docs/adabuild.md").read_text()
    head = "| Code and source | Notes |\n|---|---|\n"
    before, _, after = text.partition(head)
    rows = "".join(shown_row((TESTS / f"folders/{file}.txt").read_text(), name) for file, names in SHOWN for name in names.split())
    return before + head + rows + after[after.index("\n\n") + 1 :]


PAGES = {"docs/diagnostics.md": diagnostics_page, "docs/adabuild.md": adabuild_page}


class Count:
    def __init__(self):
        self.passed = 0
        self.failed = 0

    def check(self, name, holds, told=""):
        self.passed += bool(holds)
        self.failed += not holds
        if not holds:
            print(f"{name}: failed {str(told)[:600]}")


def laid(room, text):
    """The files of a text, each after a line `-- FILE`, in a new folder."""
    folder = pathlib.Path(tempfile.mkdtemp(dir=room))
    parts = re.split(r"(?m)^-- (?=[a-z0-9_~-]+\.ad[sb]$)", text)[1:]
    for part in parts:
        name, _, body = part.partition("\n")
        (folder / name).write_text(body)
    return folder


def run(program, *words):
    return subprocess.run([program, *map(str, words)], capture_output=True, text=True, errors="replace", timeout=120)


def try_pages(program, room, count):
    for page in pages():
        code = f"E{page['code']:03}"
        said = run(program, "--explain", code)
        count.check(f"--explain {code}", said.returncode == 0 and said.stdout == page_text(page), said.stdout)
        said = run(program, "--all", "main", laid(room, page["wrong"]))
        count.check(f"{code}, wrong", said.returncode == 1 and f"error: {code} " in said.stderr, said.stderr)
        said = run(program, "--all", "main", laid(room, page["right"]))
        count.check(f"{code}, right", said.returncode == 0, said.stderr)
    for word in ("E999", "402", "E4O2", ""):
        count.check(f"--explain {word!r}", run(program, "--explain", word).returncode == 2)


FAULTY = '-- main.adb\nwith Base;\nprocedure Main is\n   X : Integer := Totl;\nbegin\n   X := True;\nend Main;\n-- base.ads\npackage Base is\n   type T is record\n      N : Integer := 0;\n   end record;\nend Base;\n'
STRAY = "-- main.adb\nprocedure Main is\n   Total : Integer := 0;\nbegin\n   Totl := 1;\nend Main;\n"


def try_json(program, room, count):
    folder = laid(room, STRAY)
    lines = run(program, "--format", "json", "main", folder).stderr.splitlines()
    objects = [json.loads(line) for line in lines]
    found = [one for one in objects if one["kind"] == "diagnostic"]
    count.check("json: one diagnostic", len(found) == 1, lines)
    if found:
        one = found[0]
        wanted = {"kind": "diagnostic", "file": f"{folder}/main.adb", "line": 4, "col": 4, "end_col": 8, "code": "E401", "text": "not visible"}
        count.check("json: its members", {key: one.get(key) for key in wanted} == wanted, one)
        count.check("json: its notes", any("Total" in note for note in one["notes"]), one)
    builds = [one for one in objects if one["kind"] == "build"]
    count.check("json: a build", builds and set(builds[0]) == {"kind", "checked", "units", "image", "ms"}, objects)
    right = laid(room, "-- main.adb\nprocedure Main is\n   X : Integer := 0;\nbegin\n   X := 1 / X;\nend Main;\n")
    ended = [json.loads(line) for line in run(program, "--format", "json", "--run", "main", right).stderr.splitlines()]
    count.check("json: an end", ended and ended[-1] == {"kind": "end", "outcome": "raised", "exception": "constraint_error", "file": f"{right}/main.adb", "line": 4}, ended)


def try_sarif(program, room, count):
    schema = json.loads((TESTS / "sarif.json").read_text())
    for text in (STRAY, FAULTY):
        said = run(program, "--format", "sarif", "main", laid(room, text)).stderr
        document = json.loads(said)
        if jsonschema is None:
            print("sarif: Python's jsonschema isn't there, so the schema wasn't tried")
        else:
            errors = list(jsonschema.Draft7Validator(schema).iter_errors(document))
            count.check("sarif: its schema", not errors, errors)
        count.check("sarif: a result", document["runs"][0]["results"][0]["ruleId"].startswith("E"), said)


def try_many(program, room, count):
    """An error on which 1,000 units depend, and 1,000 units with an error each."""
    main = "-- main.adb\n" + "".join(f"with P{n};\n" for n in range(1000)) + "procedure Main is\nbegin\n   null;\nend Main;\n"
    base = "-- base.ads\npackage Base is\n   Size : Intger := 4;\nend Base;\n"
    units = "".join(f"-- p{n}.ads\nwith Base;\npackage P{n} is\n   N : constant Integer := Base.Size;\nend P{n};\n" for n in range(1000))
    said = run(program, "main", laid(room, main + base + units)).stderr
    count.check("one wrong line", len(said.splitlines()) < 10 and "\n1 error\n1001 units depend on these" in said, said)
    good = base.replace("Intger", "Integer")
    library = main + good + units.replace("Base.Size", "Base.Sise")
    near = "".join(f"-- unit_{n:03}.ads\nwith Unit_{n:03}x;\npackage Unit_{n:03} is\nend Unit_{n:03};\n" for n in range(1000))
    alone = "-- main.adb\nprocedure Main is\nbegin\n   null;\nend Main;\n"
    types = library.replace("Base.Sise;", "Base.Size;\n   B : Boolean := N;")
    syntax = library.replace("Base.Sise", "Base.Size Base.Size")
    texts = {"names": library, "types": types, "syntax": syntax, "near names": alone + near}
    for what, text in texts.items():
        spent = spent_on_notes(program, laid(room, text), what)
        count.check(f"1,000 notes in time, {what}", spent < MOST, spent)


def processor_time(program, *words):
    before = resource.getrusage(resource.RUSAGE_CHILDREN)
    said = run(program, *words).stderr
    after = resource.getrusage(resource.RUSAGE_CHILDREN)
    return after.ru_utime + after.ru_stime - before.ru_utime - before.ru_stime, said


def spent_on_notes(program, folder, what):
    """Seconds of processor time that notes on 1,000 faulty units take: the least with notes against the least without, of runs in turn until they are few enough."""
    plain, noted, said = [], [], ""
    for number in range(ROUNDS[1]):
        plain.append(processor_time(program, "--all", "--plain", "main", folder)[0])
        spent, said = processor_time(program, "--all", "main", folder)
        noted.append(spent)
        if number + 1 >= ROUNDS[0] and min(noted) - min(plain) < AIM:
            break
    least = min(noted) - min(plain)
    print(f"notes of 1,000 faulty units, {what}: {1000 * least:.0f} ms, the least of {len(plain)} runs")
    return least if said.count("note: ") >= 1000 else float("inf")


def laid_over(folder, text):
    """The files of a text in place of those of a folder."""
    for file in folder.iterdir():
        file.unlink()
    for file in laid(folder.parent, text).iterdir():
        (folder / file.name).write_bytes(file.read_bytes())


def faulty_lines(lines):
    """The lines of a build up to how many errors there are, without how many units were checked, or weren't."""
    told = []
    for line in lines:
        if not re.match(r"checked |\d+ units? depends? on ", line):
            told.append(line)
        if not line or re.fullmatch(r"\d+ errors?\n", line):
            break
    return told


def try_histories(program, room, count):
    """The same files have the same diagnostics with the same notes, whatever else the program has built before."""
    texts = [page["wrong"] for page in pages()]
    folder = laid(room, texts[0])
    talk = Talk([program, "--watch", "--all", "main"], folder)
    for number, text in enumerate([*texts, *reversed(texts)]):
        if number > 0:
            laid_over(folder, text)
            talk.say("")
        said = faulty_lines(iter(lambda: talk.next_line().decode(errors="replace"), None))
        alone = subprocess.run([program, "--all", "main"], cwd=folder, capture_output=True, text=True, errors="replace").stderr
        count.check(f"two histories, {number}", said and said == faulty_lines(alone.splitlines(keepends=True)), said)
    talk.finish()


def first_messages(text):
    """What GNAT prints at the place of its first error."""
    found = re.findall(r"(?m)^(\S+?:\d+:\d+): (?:error: )?(.*)$", text)
    return "; ".join(message for place, message in found if place == found[0][0])


def recorded(file):
    """The programs of a recording, each as a text of its files."""
    for part in re.findall(r"(?m)((?:^\+ .*\n(?:^\|.*\n)*)+)^\$ adabuild", (TESTS / "folders" / file).read_text()):
        yield re.sub(r"(?m)^\|", "", re.sub(r"(?m)^\+ (?:.*/)?", "-- ", part))


def row(program, folder, code=""):
    """The line of the first error, or of that code, what GNAT prints at its first error, and what adabuild prints with its notes; none without an error."""
    said = subprocess.run(["gnatmake", "-q", "-gnatc", "-gnat2012", "-gnatwn", "main.adb"], cwd=folder, capture_output=True, text=True)
    own = run(program, "--all", "main", folder).stderr.splitlines()
    at = next((n for n, line in enumerate(own) if f": error: {code}" in line), None)
    if at is None:
        return ""
    notes = own[at + 3 :]
    notes = notes[: next((n for n, it in enumerate(notes) if not it.startswith("note: ")), len(notes))]
    told = " / ".join([own[at].split("error: ")[1], *(it.removeprefix("note: ") for it in notes)])
    cells = [f"`{own[at + 1].strip()[:60]}`", first_messages(said.stderr) or "nothing", told]
    return "| " + " | ".join(it.replace("|", "\\|").replace(str(folder), "") for it in cells) + " |\n"


def gnat_table(program, room):
    text = "# What GNAT and adabuild print\n\nWhat GNAT prints at the first error of a source, and what `adabuild` prints with its notes. Made by\n`python3 tests/diagnostics.py --gnat out/adabuild`.\n"
    head = "\n| Source | GNAT | adabuild |\n|---|---|---|\n"
    text += "\n## The wrong source of each page of `al_explain`\n" + head
    text += "".join(row(program, laid(room, page["wrong"]), f"E{page['code']:03} ") for page in pages())
    for title, file in (("Mistakes", "mistakes.txt"), ("Programs of text books that aren't in the subset", "textbook.txt")):
        text += f"\n## {title} (tests/folders/{file})\n" + head
        text += "".join(row(program, laid(room, one)) for one in recorded(file))
    return text


def main(word, *more):
    if word == "--write":
        for file, made in PAGES.items():
            (TOP / file).write_text(made())
        return 0
    if word == "--gnat":
        with tempfile.TemporaryDirectory() as room:
            (TESTS / "messages.md").write_text(gnat_table(str(pathlib.Path(more[0]).resolve()), room))
        return 0
    count = Count()
    for file, made in PAGES.items():
        count.check(file, (TOP / file).exists() and (TOP / file).read_text() == made())
    program = str(pathlib.Path(word).resolve())
    with tempfile.TemporaryDirectory() as room:
        for part in (try_pages, try_json, try_sarif, try_histories, try_many):
            part(program, room, count)
    print(f"{count.passed} passed, {count.failed} failed")
    return 1 if count.failed else 0


if __name__ == "__main__":
    sys.exit(main(*sys.argv[1:]))
