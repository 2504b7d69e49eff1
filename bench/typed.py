#!/usr/bin/env python3
"""typed.py ADALS [COUNT ..]: how long a language server takes from a change to what it tells of it, over the tree of edits.py with so many packages,
1,000 and 4,000 by default.

A body and a declaration get a fault and are mended, a change of a comment tells nothing (the answer to a request behind it is waited for), a name that
all packages read goes and comes back; then the symbols of a body, the units whose names hold a word, and what a name means. Each figure is the median of some turns, in
milliseconds of the clock. First of all is what is told first, behind `initialized`, and last the memory that the process has and the most that it had.
What is aimed at: a body under 5 ms, broken and mended, at each number, and under 100 MB at 4,000. It is no test.
"""
import pathlib
import statistics
import sys
import tempfile
import time

ROOT = pathlib.Path(__file__).resolve().parent.parent
sys.path.append(str(ROOT / "tests"))

from edits import base, body, library
from editor import Lost, Server, start

COUNTS = (1000, 4000)
TURNS = 9
RARE_TURNS = 3
AIM_BODY = 5
AIM_MEMORY = 100


def memory(process):
    """The megabytes that a process has, and the most that it had."""
    words = dict(line.split(":", 1) for line in pathlib.Path(f"/proc/{process.pid}/status").read_text().splitlines() if ":" in line)
    return tuple(int(words[name].split()[0]) / 1024 for name in ("VmRSS", "VmHWM"))


class Client:
    def __init__(self, program, folder):
        self.server, self.folder, self.version = Server(program, folder), folder, 1
        self.server.process.stderr.close()
        began = time.perf_counter()
        start(self.server, folder, ["utf-8"])
        self.server.through()
        self.first = time.perf_counter() - began

    def uri(self, name):
        return f"file://{self.folder}/{name}"

    def open(self, name, text):
        self.server.notify("textDocument/didOpen", {"textDocument": {"uri": self.uri(name), "languageId": "ada", "version": 1, "text": text}})
        self.server.through()

    def change(self, name, text, tells):
        """How long it takes until what is told of a change is there; where nothing is told, the answer to a request behind it."""
        self.version += 1
        params = {"textDocument": {"uri": self.uri(name), "version": self.version}, "contentChanges": [{"text": text}]}
        began = time.perf_counter()
        self.server.notify("textDocument/didChange", params)
        if tells:
            self.server.next()
            took = time.perf_counter() - began
            self.server.through()
        else:
            if self.server.through():
                raise Lost("a message that nothing asks for")
            took = time.perf_counter() - began
        return took * 1000

    def answer(self, method, params):
        """How long it takes until the answer to a request is there."""
        took = []
        for _ in range(TURNS):
            began = time.perf_counter()
            self.server.request(method, params)
            took.append((time.perf_counter() - began) * 1000)
        return statistics.median(took)

    def pair(self, name, broken, whole, tells=True, turns=TURNS):
        took = [(self.change(name, broken, tells), self.change(name, whole, tells)) for _ in range(turns)]
        return [statistics.median(it) for it in zip(*took)]


def timed(program, count):
    files = library(count)
    middle = count // 100 * 50
    with tempfile.TemporaryDirectory() as room:
        for name, text in files.items():
            (pathlib.Path(room) / name).write_text(text)
        client = Client(program, room)
        print(f"{count} packages: first diagnostics {client.first * 1000:.0f} ms", flush=True)
        name = f"p{middle}.adb"
        client.open(name, files[name])
        client.open("base.ads", files["base.ads"])
        for what, file, broken, turns, tells in (
            ("body gets a fault / is mended", name, body(middle, more="      Missing := 1;\n"), TURNS, True),
            ("syntax fault in a body / mended", name, body(middle, more="      Local := ;\n"), TURNS, True),
            ("context clause of nothing / mended", name, body(middle, front="with Nonexist; "), TURNS, True),
            ("comment / gone", name, body(middle, more="      --\n"), TURNS, False),
            ("declaration gets a fault / is mended", "base.ads", base(more="\n   More : Missing;"), RARE_TURNS, True),
            ("a name that all read goes / comes back", "base.ads", base().replace("Step", "Stop"), RARE_TURNS, True),
        ):
            there, back = client.pair(file, broken, files[file], tells, turns)
            aim = f"   aim {AIM_BODY} ms" if what.startswith("body") else ""
            print(f"  {what:<42} {there:8.2f} / {back:8.2f} ms{aim}", flush=True)
        symbols = client.answer("textDocument/documentSymbol", {"textDocument": {"uri": client.uri(name)}})
        units = client.answer("workspace/symbol", {"query": "p1"})
        print(f"  {'symbols of a body / units by a word':<42} {symbols:8.2f} / {units:8.2f} ms", flush=True)
        at = files[name].rindex("Local")
        position = {"line": files[name].count("\n", 0, at), "character": at - files[name].rfind("\n", 0, at) - 1}
        place = {"textDocument": {"uri": client.uri(name)}, "position": position}
        asked = [client.answer(f"textDocument/{it}", place) for it in ("definition", "hover", "completion")]
        print(f"  {'definition / hover / completion in a body':<42} {asked[0]:8.2f} / {asked[1]:8.2f} / {asked[2]:8.2f} ms", flush=True)
        now, most = memory(client.server.process)
        print(f"  memory {now:.1f} MB, at most {most:.1f} MB" + (f"   aim {AIM_MEMORY} MB" if count == 4000 else ""), flush=True)
        client.server.process.kill()


def main():
    if len(sys.argv) < 2:
        sys.exit(__doc__)
    program = pathlib.Path(sys.argv[1]).resolve()
    for count in [int(it) for it in sys.argv[2:]] or COUNTS:
        timed(program, count)


if __name__ == "__main__":
    main()
