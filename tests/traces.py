#!/usr/bin/env python3
"""traces.py ADABUILD [keep]: traces, listings and profiles of the built program `adabuild`.

Each stored session and each program of tests/programs that has tasks is built as a folder and run for at most 3,000 events, with a trace and without: the
program's output, what is told and the exit status are the same. Its text trace is tests/traces/NAME.txt (`keep` writes those that aren't there). Of
each, the slices of the JSON trace are held against the text trace, begin and end; the value change dump goes through `vcd2fst` and back, and the states,
priorities and owners that then stand in it are held against the text trace; and the chart is read as XML. Then faulty words, files that can't be
written, a full disk, `--from`, listings, profiles and what a trace costs.

Prints each failure, what was skipped where a reader isn't there, and last `N passed, M failed`.
"""
import json
import pathlib
import re
import resource
import shutil
import subprocess
import sys
import tempfile
import xml.etree.ElementTree

TESTS = pathlib.Path(__file__).resolve().parent
STEPS = "3000"
ROW = re.compile(r"(\d+) (\d+) task (\d+) ([a-z]+)(?: until -?\d+| at object \d+)?, priority (\d+), (?:inside object (\d+), )?(\S+)")


class Count:
    def __init__(self):
        self.passed = 0
        self.failed = 0

    def check(self, name, got, wanted):
        if got == wanted:
            self.passed += 1
            return
        self.failed += 1
        shown = [repr(x) if len(repr(x)) < 1200 else repr(x)[:1200] + " .." for x in (got, wanted)]
        print(f"{name}: failed\n  got    {shown[0]}\n  wanted {shown[1]}")


def sessions():
    """The libraries that stored sessions run: a name, the files, the main unit."""
    for path in sorted((TESTS / "sessions").glob("*.in")):
        bytes_left, files, built, count = path.read_bytes(), {}, None, 0
        while bytes_left:
            line, _, bytes_left = bytes_left.partition(b"\n")
            words = line.split()
            if words[:1] == [b"put"] and len(words) == 3 and words[2].isdigit():
                size = int(words[2])
                files[words[1].decode("latin-1")] = bytes_left[:size]
                bytes_left = bytes_left[size + 1:]
            elif words[:1] == [b"delete"] and len(words) == 2:
                files.pop(words[1].decode("latin-1"), None)
            elif words[:1] == [b"build"] and len(words) == 2:
                built = (dict(files), words[1].decode("latin-1"))
            elif words[:1] == [b"run"] and built and any(b"task body" in text for text in built[0].values()):
                count += 1
                yield f"{path.stem}-{count}", *built
                built = None


def programs():
    for folder in sorted((TESTS / "programs").iterdir()):
        files = {f.name: f.read_bytes() for f in sorted(folder.glob("*.ad[sb]"))}
        if any(b"task body" in text for text in files.values()):
            yield folder.name, files, folder.name


def rows(text):
    """The rows of a text trace: event, ticks, task, state, priority, object."""
    for line in text.splitlines():
        found = ROW.fullmatch(line)
        if found:
            event, ticks, task, state, level, inside, _at = found.groups()
            yield int(event), int(ticks), int(task), state, int(level), None if inside is None else int(inside)


def slices_of_text(text):
    """For each task its slices: what, the event that begins it, the event that ends it."""
    last = int(text.splitlines()[-1].split()[0])
    made, open_states, open_objects = [], {}, {}
    for event, _ticks, task, state, _level, inside in rows(text):
        begun, was = open_states.get(task, (None, None))
        entered, object_before = open_objects.get(task, (None, None))
        turned = was != state
        moved = object_before != inside
        if object_before is not None and (turned or moved):
            made.append((task, f"inside object {object_before}", entered, event))
        if turned:
            if was is not None:
                made.append((task, was, begun, event))
            open_states[task] = (event, state)
        if turned or moved:
            open_objects[task] = (event, inside)
    for task, (begun, state) in open_states.items():
        made.append((task, state, begun, last))
    for task, (entered, inside) in open_objects.items():
        if inside is not None:
            made.append((task, f"inside object {inside}", entered, last))
    return sorted(made)


def slices_of_json(events):
    """The same of the events of a JSON trace, whose begins and ends nest on each track."""
    made, stacks, times = [], {}, {}
    for event in events:
        if event["ph"] not in "BE":
            continue
        track = event["tid"]
        assert event["ts"] >= times.get(track, 0), "time goes backwards"
        times[track] = event["ts"]
        if event["ph"] == "B":
            stacks.setdefault(track, []).append(event)
        else:
            begun = stacks[track].pop()
            made.append((track - 1, begun["name"], begun["args"]["event"], event["args"]["event"]))
    assert not any(stacks.values()), "slices without an end"
    return sorted(made)


def changes(dump):
    """The variables of a value change dump by their names, with what each has in turn."""
    names, scopes, values = {}, [], {}
    for line in dump.splitlines():
        words = line.split()
        if not words:
            continue
        if words[0] == "$scope":
            scopes.append(words[2])
        elif words[0] == "$upscope":
            scopes.pop()
        elif words[0] == "$var":
            names[words[3]] = ".".join(scopes[1:] + [words[4]])
            values[words[3]] = []
        elif line[0] in "sr" and len(words) == 2 and words[1] in values:
            value = words[0][1:]
            if not values[words[1]] or values[words[1]][-1] != value:
                values[words[1]].append(value)
    return {names[code]: found for code, found in values.items()}


def changes_of_text(text):
    """What the variables of tasks have in turn, by the rows of a text trace; several rows of one moment leave the last alone in a dump."""
    states, levels = {}, {}
    for _event, _ticks, task, state, level, _inside in rows(text):
        states.setdefault(task, []).append(state)
        levels.setdefault(task, []).append(str(level))
    return states, levels


def without_repeats(values):
    return [value for i, value in enumerate(values) if i == 0 or values[i - 1] != value]


class Program:
    def __init__(self, words, room, files):
        self.words, self.room = words, room
        for name, text in files.items():
            (room / name).write_bytes(text)

    def run(self, *words):
        done = subprocess.run([self.words, *words], cwd=self.room, stdin=subprocess.DEVNULL, capture_output=True, timeout=120)
        return done.stdout, done.stderr, done.returncode


def try_one(count, adabuild, name, files, main, keep):
    with tempfile.TemporaryDirectory() as room:
        room = pathlib.Path(room)
        program = Program(adabuild, room, files)
        words = ["--run", "--steps", STEPS, main]
        plain = program.run(*words)
        if not plain[0] and b"error" in plain[1]:
            return
        for ending in ("txt", "vcd", "json", "svg"):
            count.check(f"{name}.{ending}: the run is the same", program.run("--trace", f"trace.{ending}", *words), plain)
        text = (room / "trace.txt").read_text()
        stored = TESTS / "traces" / f"{name}.txt"
        if keep and not stored.exists():
            stored.write_text(text)
        count.check(f"{name}: the stored trace", text, stored.read_text() if stored.exists() else None)
        events = json.loads((room / "trace.json").read_text())
        count.check(f"{name}: slices", slices_of_json(events), slices_of_text(text))
        ticks = [line for line in text.splitlines() if line.endswith(" tick")]
        count.check(f"{name}: ticks", [e["args"]["event"] for e in events if e["ph"] == "i" and e["name"] == "tick"], [int(t.split()[0]) for t in ticks])
        xml.etree.ElementTree.parse(room / "trace.svg")
        count.passed += 1
        read_back(count, name, room, text)


def read_back(count, name, room, text):
    if not shutil.which("vcd2fst"):
        return
    made = subprocess.run(["vcd2fst", "trace.vcd", "trace.fst"], cwd=room, capture_output=True)
    back = subprocess.run(["fst2vcd", "trace.fst"], cwd=room, capture_output=True)
    count.check(f"{name}: vcd2fst", (made.returncode, back.returncode), (0, 0))
    found = changes(back.stdout.decode())
    states, levels = changes_of_text(text)
    for task in states:
        key = next(k for k in found if re.fullmatch(rf"task_{task}(_\w+)?\.state", k))
        got = [value for value in found[key] if value != "absent"]
        count.check(f"{name}: states of task {task} in the dump", set(got) <= set(states[task]) and got[-1:] == states[task][-1:], True)
        key = key.replace(".state", ".priority")
        got = [f"{float(value):g}" for value in found[key]]
        count.check(f"{name}: priorities of task {task} in the dump", got[-1:] == levels[task][-1:], True)


HELLO = {"hello.adb": b"with Ada.Text_IO;\nprocedure Hello is\nbegin\n   for I in 1 .. 3 loop\n      Ada.Text_IO.Put_Line (Integer'Image (I));\n   end loop;\nend Hello;\n"}


def try_words(count, adabuild):
    """Faulty words, files that can't be written, and what else is shown."""
    with tempfile.TemporaryDirectory() as room:
        room = pathlib.Path(room)
        program = Program(adabuild, room, HELLO)
        plain = program.run("--run", "hello")
        for words in (["--trace", "t.bin", "--run"], ["--trace", "t", "--run"], ["--trace", "t.txt"], ["--from", "3", "--run"], ["--from", "0", "--trace", "t.txt", "--run"],
                      ["--trace", "t.txt", "--profile", "--run"], ["--profile"], ["--trace"]):
            count.check(" ".join(words), program.run(*words, "hello")[2], 2)
        for file in ("nowhere/t.txt", "nowhere/t.vcd"):
            out, told, status = program.run("--trace", file, "--run", "hello")
            count.check(f"{file}: the run's own end", (out, status, b"can't be written" in told), (plain[0], 1, True))
        for ending in ("txt", "vcd", "json", "svg"):
            (room / f"full.{ending}").symlink_to("/dev/full")
            out, told, status = program.run("--trace", f"full.{ending}", "--run", "hello")
            count.check(f"full disk, {ending}", (out, status, b"can't be written" in told), (plain[0], 1, True))
        program.run("--trace", "all.txt", "--run", "hello")
        program.run("--trace", "late.txt", "--from", "20", "--run", "hello")
        late = [line for line in (room / "late.txt").read_text().splitlines() if not line.startswith("#")]
        count.check("--from: rows", all(int(line.split()[0]) >= 20 for line in late), True)
        count.check("--from: the end", late[-1], (room / "all.txt").read_text().splitlines()[-1])
        out, told, status = program.run("--listing", "hello")
        count.check("--listing", (status, told, b"PutInteger" in out, b"hello, body" in out), (0, b"", True, True))
        program.run("--image", "hello.img", "hello")
        count.check("--listing of a loaded image", program.run("--load", "hello.img", "--listing")[2], 0)
        out, told, status = program.run("--profile", "--run", "hello")
        count.check("--profile", (status, out.startswith(plain[0]), b"hello.adb:5" in out), (0, True, True))
        total = int(re.search(rb"(\d+) instructions", out).group(1))
        parts = [int(n) for n in re.findall(rb"^ *\d+\.\d% +(\d+)", out.split(b"body")[-1], re.M)]
        count.check("--profile: bodies add up", sum(parts), total)


def processor_time(words, room):
    """The least of three runs."""
    least = float("inf")
    for _round in range(3):
        before = resource.getrusage(resource.RUSAGE_CHILDREN)
        subprocess.run(words, cwd=room, stdin=subprocess.DEVNULL, capture_output=True, timeout=600)
        after = resource.getrusage(resource.RUSAGE_CHILDREN)
        least = min(least, after.ru_utime + after.ru_stime - before.ru_utime - before.ru_stime)
    return least


def try_costs(count, adabuild):
    """A run of two million events with a trace takes at most five times the processor time of the one without."""
    files = {f.name: f.read_bytes() for f in sorted((TESTS.parent / "bench/programs/cycles").glob("*.ad[sb]"))}
    with tempfile.TemporaryDirectory() as room:
        room = pathlib.Path(room)
        Program(adabuild, room, files).run("--image", "cycles.img", "cycles")
        words = [adabuild, "--load", "cycles.img", "--tick", "400", "--steps", "2000000"]
        plain = processor_time(words, room)
        for ending in ("txt", "vcd", "json", "svg"):
            traced = processor_time([*words, "--trace", f"t.{ending}"], room)
            print(f"two million events: {plain * 1000:.0f} ms, with a trace in .{ending} {traced * 1000:.0f} ms")
            count.check(f"costs of .{ending}", traced <= 5 * plain, True)


def main():
    adabuild, keep = str(pathlib.Path(sys.argv[1]).resolve()), sys.argv[2:] == ["keep"]
    count = Count()
    (TESTS / "traces").mkdir(exist_ok=True)
    if not shutil.which("vcd2fst"):
        print("value change dumps: skipped, vcd2fst isn't there")
    for name, files, unit in [*sessions(), *programs()]:
        try_one(count, adabuild, name, files, unit, keep)
    try_words(count, adabuild)
    try_costs(count, adabuild)
    print(f"{count.passed} passed, {count.failed} failed")
    sys.exit(count.failed > 0)


main()
