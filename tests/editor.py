#!/usr/bin/env python3
"""editor.py [--adalib ADALIB] [--long] [--edits N] [--messages N] [--noise N] [--packages N] ADALS: the language server `adals` through clients.

tests/editor/NAME.txt are dialogues, each in a folder of its own, of which {folder} is the path:

    + FILE            the file FILE has the text of the lines that follow, each behind a bar, `|`
    - FILE            FILE is gone
    > JSON            the client sends this
    ! BYTES           .. these bytes, without a frame, with Python's escapes
    < JSON            the server sends this next; members of objects stand in any order
    ? N               the exit status, where it isn't 0
    # ..              nothing

All that the server sends must be wanted, in this order.

Then random edits: a client keeps its own texts by its own rules of lines and columns, in UTF-8 and in UTF-16, and its picture of what is wrong,
which after each edit must be what ADALIB says of these texts from nothing (N edits, 300 by default), and the symbols of each text must be in one
another, where the text has their names; declarations, references and completions of a random name of each must have that name. Then damaged input: noise in frames (N bytes,
100,000 by default), each of which has one answer, and messages with bytes changed (N, 2,000 by default); each must end in an answer or an end, and
each request that stays whole has its answer. Last, where Neovim is there, its client opens a folder, makes and mends faults; and with ADALIB a
folder of N packages (60 by default), of which it must show what ADALIB says of the texts that it has, after each step of tests/editor/neovim_steps.lua:
faults in bodies, declarations, context clauses and syntax, files that are renamed, closed and opened again. With --long there are 10,000 edits,
100,000 messages, 1,000,000 bytes and 1,000 packages, unless their number is given: some minutes. Prints each failure, and last `N passed, M failed`.
"""
import argparse
import json
import os
import pathlib
import random
import re
import select
import shutil
import subprocess
import sys
import tempfile
import time

TESTS = pathlib.Path(__file__).resolve().parent
PATIENCE = 60
# How much of each is tried: by default, and in the long form.
NUMBERS = {"edits": (300, 10_000), "messages": (2000, 100_000), "noise": (100_000, 1_000_000), "packages": (60, 1000)}


class Count:
    def __init__(self):
        self.passed = 0
        self.failed = 0

    def check(self, name, got, wanted):
        if got == wanted:
            self.passed += 1
            return True
        self.failed += 1
        print(f"{name}: failed\n  got    {shown(got)}\n  wanted {shown(wanted)}")
        return False


def shown(value):
    text = repr(value)
    return text if len(text) < 1500 else text[:700] + " .. " + text[-700:]


def frame(body):
    return b"Content-Length: %d\r\n\r\n%s" % (len(body), body)


class Lost(Exception):
    """The server sent nothing more, or no frame."""


class Server:
    """A running server, and frames to and from it."""

    def __init__(self, program, folder, *words):
        self.process = subprocess.Popen([program, *words], stdin=subprocess.PIPE, stdout=subprocess.PIPE, stderr=subprocess.PIPE, cwd=folder)
        self.waiting = b""
        self.number = 0

    def send_bytes(self, some):
        try:
            self.process.stdin.write(some)
            self.process.stdin.flush()
        except BrokenPipeError:
            pass

    def send(self, message):
        self.send_bytes(frame(json.dumps(message, separators=(",", ":")).encode()))

    def more(self):
        if not select.select([self.process.stdout], [], [], PATIENCE)[0]:
            raise Lost("no answer in time")
        some = os.read(self.process.stdout.fileno(), 1 << 20)
        if not some:
            raise Lost("the server ended")
        self.waiting += some

    def next(self):
        """The next message."""
        while b"\r\n\r\n" not in self.waiting:
            self.more()
        head, _, rest = self.waiting.partition(b"\r\n\r\n")
        length = int(re.fullmatch(rb"Content-Length: (\d+)", head)[1])
        while len(rest) < length:
            self.more()
            head, _, rest = self.waiting.partition(b"\r\n\r\n")
        self.waiting = rest[length:]
        return json.loads(rest[:length])

    def request(self, method, params=None):
        """The answer, and what came before it."""
        self.number += 1
        name = f"request {self.number}"
        self.send({"jsonrpc": "2.0", "id": name, "method": method, "params": params})
        before = []
        while True:
            message = self.next()
            if message.get("id") == name and "method" not in message:
                return message, before
            before.append(message)

    def notify(self, method, params=None):
        self.send({"jsonrpc": "2.0", "method": method, "params": params})

    def through(self):
        """What came until now."""
        return self.request("tests/through")[1]

    def ended(self):
        """What is left, and the exit status."""
        try:
            self.process.stdin.close()
        except BrokenPipeError:
            pass
        rest = self.waiting
        while True:
            some = os.read(self.process.stdout.fileno(), 1 << 20)
            if not some:
                break
            rest += some
        self.process.stderr.read()
        status = self.process.wait(PATIENCE)
        self.process.stdout.close()
        self.process.stderr.close()
        return rest, status


def start(server, folder, encodings=("utf-16",), options=None):
    params = {"processId": None, "rootUri": f"file://{folder}", "capabilities": {"general": {"positionEncodings": [*encodings]}}}
    if options:
        params["initializationOptions"] = options
    answer, _ = server.request("initialize", params)
    server.notify("initialized", {})
    return answer["result"]


# -- dialogues


def played(program, path, room):
    """What is wrong with a dialogue."""
    lines = path.read_text().replace("{folder}", str(room)).split("\n")[:-1]
    server, wrong, status = None, [], 0
    while lines:
        line = lines.pop(0)
        kind, rest = line[:1], line[2:]
        if kind == "#" or not kind:
            continue
        if kind == "?":
            status = int(rest)
        elif kind == "<":
            try:
                got = server.next()
            except Lost as e:
                wrong.append(f"{path.stem}: {e}, where this was wanted: {rest}")
                break
            if got != json.loads(rest):
                wrong.append(f"{path.stem}: got {json.dumps(got)}, where this was wanted: {rest}")
        elif kind == "+":
            text = []
            while lines and lines[0].startswith("|"):
                text.append(lines.pop(0)[1:] + "\n")
            file = room / rest
            file.parent.mkdir(parents=True, exist_ok=True)
            file.write_text("".join(text))
        elif kind == "-":
            (room / rest).unlink()
        else:
            if server is None:
                server = Server(program, room)
            if kind == ">":
                server.send_bytes(frame(rest.encode()))
            else:
                server.send_bytes(rest.encode("latin-1").decode("unicode_escape").encode("latin-1"))
    left, got = server.ended()
    if left:
        wrong.append(f"{path.stem}: sent at the end, and not wanted: {left!r}")
    if got != status:
        wrong.append(f"{path.stem}: exit status {got}, where {status} was wanted")
    return wrong


def dialogues(program, count):
    for path in sorted((TESTS / "editor").glob("*.txt")):
        with tempfile.TemporaryDirectory() as room:
            wrong = played(program, path, pathlib.Path(room))
        for line in wrong:
            print(line)
        count.check(path.stem, len(wrong), 0)


# -- a client's own texts


def lines_of(text):
    """Each line of a text with its end."""
    return re.findall(r"[^\r\n]*(?:\r\n|\r|\n)|[^\r\n]+\Z", text) if text else []


def units(text, encoding):
    return len(text.encode("utf-16-le")) // 2 if encoding == "utf-16" else len(text.encode())


def position_of(text, at, encoding):
    """The position of a character; not inside of CR LF."""
    before = text[:at]
    ends = list(re.finditer(r"\r\n|\r|\n", before))
    line = len(ends)
    start = ends[-1].end() if ends else 0
    return {"line": line, "character": units(before[start:], encoding)}


def ada_lines(text):
    return re.split(rb"\r\n|[\n\v\f\r]", text)


def ranges_of(text, line, col, encoding):
    """The range of a diagnostic, from the place that adalib tells, both from 1."""
    data = text.encode()
    mark = 3 if data.startswith(b"\xef\xbb\xbf") else 0
    at, left = mark, line - 1
    while left:
        found = re.compile(rb"\r\n|[\n\v\f\r]").search(data, at)
        if not found:
            at = len(data)
            break
        at, left = found.end(), left - 1
    stop = re.compile(rb"\r\n|[\n\v\f\r]").search(data, at)
    at = min(at + col - 1, stop.start() if stop else len(data))
    word = re.compile(rb"[A-Za-z0-9_]*").match(data, at).end() - at
    return {"start": byte_position(data, at, encoding), "end": byte_position(data, min(at + max(1, word), len(data)), encoding)}


def byte_position(data, at, encoding):
    line, column, after_cr = 0, 0, False
    for byte in data[:at]:
        if after_cr and byte == 10:
            after_cr = False
        elif byte in (10, 13):
            line, column, after_cr = line + 1, 0, byte == 13
        else:
            after_cr = False
            column += 1 if encoding == "utf-8" else 0 if 0x80 <= byte < 0xC0 else 2 if byte >= 0xF0 else 1
    return {"line": line, "character": column}


def told_by_adalib(program, texts, opened, encoding):
    """What adalib says of these texts from nothing, as a client is told it."""
    session = b"".join(b"put %s %d\n%s\n" % (name.encode(), len(text.encode()), text.encode()) for name, text in texts.items())
    session += b"build main\nreport diagnostics\nquit\n"
    lines = subprocess.run([program], input=session, capture_output=True, check=True).stdout.decode().split("\n")
    first = max(i for i, line in enumerate(lines) if line.startswith("diagnostics "))
    picture = {}
    for line in lines[first + 1 :]:
        if not line:
            continue
        file, row, col, rest = re.fullmatch(r"([^:]+):(\d+):(\d+): (.*)", line).groups()
        code, _, words = rest.partition(" ")
        if code == "E208" and file not in opened:
            continue
        found = {"range": ranges_of(texts[file], int(row), int(col), encoding), "severity": 3 if code == "E208" else 1, "code": code, "source": "adals", "message": words}
        picture.setdefault(file, []).append(found)
    return picture


class Client:
    """A client with its own texts and its own picture of what is wrong."""

    def __init__(self, program, folder, encoding):
        self.server, self.folder, self.encoding = Server(program, folder), folder, encoding
        self.texts, self.picture, self.repeated = {}, {}, 0
        start(self.server, folder, [encoding])

    def uri(self, name):
        return f"file://{self.folder}/{name}"

    def open(self, name, text):
        self.texts[name] = text
        self.server.notify("textDocument/didOpen", {"textDocument": {"uri": self.uri(name), "languageId": "ada", "version": 1, "text": text}})

    def change(self, name, changes):
        self.server.notify("textDocument/didChange", {"textDocument": {"uri": self.uri(name), "version": 2}, "contentChanges": changes})

    def close(self, name):
        del self.texts[name]
        self.server.notify("textDocument/didClose", {"textDocument": {"uri": self.uri(name)}})

    def settle(self):
        for message in self.server.through():
            params = message["params"]
            name = params["uri"].rpartition("/")[2]
            if self.picture.get(name, []) == params["diagnostics"]:
                self.repeated += 1
            if params["diagnostics"]:
                self.picture[name] = params["diagnostics"]
            else:
                self.picture.pop(name, None)

    def symbols(self, name):
        return self.server.request("textDocument/documentSymbol", {"textDocument": {"uri": self.uri(name)}})[0]["result"]

    def at(self, method, name, position):
        """What the server says of a place."""
        return self.server.request(f"textDocument/{method}", {"textDocument": {"uri": self.uri(name)}, "position": position})[0]["result"]

    def end(self):
        self.server.request("shutdown")
        self.server.notify("exit")
        return self.server.ended()


def spot(position):
    return position["line"], position["character"]


def is_within(inner, outer):
    return spot(outer["start"]) <= spot(inner["start"]) <= spot(inner["end"]) <= spot(outer["end"])


def selected(text, range_, encoding):
    """The text of a range in one line."""
    line = (lines_of(text) + [""])[range_["start"]["line"]]
    data, wide = (line.encode("utf-16-le"), 2) if encoding == "utf-16" else (line.encode(), 1)
    return data[range_["start"]["character"] * wide : range_["end"]["character"] * wide].decode("utf-16-le" if wide == 2 else "utf-8", "replace")


def misplaced(text, symbols, encoding, outer=None):
    """How many symbols aren't inside of what declares them, have their identifier outside of their range, or don't end in it."""
    wrong = 0
    for it in symbols:
        fits = is_within(it["selectionRange"], it["range"]) and (outer is None or is_within(it["range"], outer))
        wrong += not fits or not it["name"].endswith(selected(text, it["selectionRange"], encoding)) or not it["name"]
        wrong += misplaced(text, it["children"], encoding, it["range"])
    return wrong


def strayed(rng, client, name, texts):
    """How many declarations are found of an identifier of a text, and how many places and names are none of it: declarations, references, completions."""
    words = [*re.finditer(r"[A-Za-z]\w*", texts[name])]
    if not words:
        return 0, 0
    word = rng.choice(words)
    position = position_of(texts[name], word.start(), client.encoding)
    found = client.at("definition", name, position)
    places = found + client.at("references", name, position)
    wrong = sum(selected(texts[it["uri"].rpartition("/")[2]], it["range"], client.encoding).lower() != word[0].lower() for it in places)
    ends = position_of(texts[name], word.end(), client.encoding)
    wrong += sum(not it["label"].startswith(word[0].lower()) for it in client.at("completion", name, ends))
    wrong += bool(found) and client.at("hover", name, position) is None
    return len(found), wrong


PIECES = ["é", "𝄞", "\r\n", "\r", "\n", " ", "-- ü𝄞\n", "\f", "\v", "Counter", "Limit", ";", "X : Integer;", "end", ":= 1", "package", "(", '"ä"', "null;", "with Counter;\n", "use"]


def random_change(rng, client, name):
    text = client.texts[name]
    # not between CR and LF
    places = [i for i in range(len(text) + 1) if text[i - 1 : i + 1] != "\r\n"]
    from_ = rng.choice(places)
    near = [i for i in places if from_ <= i <= from_ + rng.choice([0, 0, 1, 3, 20])]
    to = rng.choice(near)
    new = rng.choice(PIECES) if rng.random() < 0.6 else ""
    client.texts[name] = text[:from_] + new + text[to:]
    return {"range": {"start": position_of(text, from_, client.encoding), "end": position_of(text, to, client.encoding)}, "text": new}


def fuzz(program, adalib, count, edits, seed=1):
    rng = random.Random(seed)
    sources = {it.name: it.read_text() for it in (TESTS.parent / "crates/adabuild/data").iterdir() if it.suffix in (".ads", ".adb")}
    for encoding in ("utf-8", "utf-16"):
        with tempfile.TemporaryDirectory() as room:
            for name, text in sources.items():
                (pathlib.Path(room) / name).write_text(text)
            client = Client(program, room, encoding)
            disk, wrong, listed, astray, found, strays = dict(sources), 0, 0, 0, 0, 0
            for turn in range(edits // 2):
                name = rng.choice([*sources])
                if name not in client.texts:
                    client.open(name, disk[name])
                elif rng.random() < 0.05:
                    client.close(name)
                elif rng.random() < 0.1:
                    client.texts[name] = sources[name]
                    client.change(name, [{"text": sources[name]}])
                else:
                    client.change(name, [random_change(rng, client, name) for _ in range(rng.choice([1, 1, 2, 5]))])
                client.settle()
                text, symbols = client.texts.get(name, disk[name]), client.symbols(name)
                listed += bool(symbols)
                astray += misplaced(text, symbols, encoding)
                more, others = strayed(rng, client, name, {**disk, **client.texts})
                found, strays = found + more, strays + others
                wanted = told_by_adalib(adalib, {**disk, **client.texts}, client.texts, encoding)
                if client.picture != wanted:
                    wrong += 1
                    if wrong < 4:
                        print(f"edit {turn}, {encoding}: {shown(client.picture)}, and not {shown(wanted)}; texts {shown(client.texts)}")
            count.check(f"random edits, {encoding}", (wrong, client.repeated), (0, 0))
            count.check(f"symbols after random edits, {encoding}", (listed > edits // 20, astray), (True, 0))
            count.check(f"declarations of names after random edits, {encoding}", (found > 0, strays), (True, 0))
            count.check(f"end after random edits, {encoding}", client.end(), (b"", 0))


# -- damaged input


def damaged(program, count, rounds, seed=2):
    rng = random.Random(seed)
    whole = [
        {"jsonrpc": "2.0", "id": 1, "method": "initialize", "params": {"rootUri": "file:///nowhere", "capabilities": {}}},
        {"jsonrpc": "2.0", "method": "initialized", "params": {}},
        {"jsonrpc": "2.0", "method": "textDocument/didOpen", "params": {"textDocument": {"uri": "file:///nowhere/a.ads", "version": 1, "text": "package A is end A;"}}},
        {"jsonrpc": "2.0", "method": "textDocument/didChange", "params": {"textDocument": {"uri": "file:///nowhere/a.ads", "version": 2}, "contentChanges": [{"range": {"start": {"line": 0, "character": 1}, "end": {"line": 9, "character": 0}}, "text": "x"}]}},
        {"jsonrpc": "2.0", "method": "textDocument/didClose", "params": {"textDocument": {"uri": "file:///nowhere/a.ads"}}},
        {"jsonrpc": "2.0", "id": 2, "method": "textDocument/documentSymbol", "params": {"textDocument": {"uri": "file:///nowhere/a.ads"}}},
        {"jsonrpc": "2.0", "id": 3, "method": "workspace/symbol", "params": {"query": "a"}},
        *({"jsonrpc": "2.0", "id": it, "method": f"textDocument/{it}", "params": {"textDocument": {"uri": "file:///nowhere/a.ads"}, "position": {"line": 0, "character": 9}}} for it in ("definition", "hover", "references", "completion")),
    ]
    bodies = [json.dumps(it).encode() for it in whole]
    lost = 0
    server = Server(program, "/")
    for turn in range(rounds):
        body = bytearray(rng.choice(bodies))
        for _ in range(rng.choice([1, 1, 2, 8])):
            at = rng.randrange(len(body))
            body[at : at + rng.choice([0, 1, 1, 5])] = bytes(rng.choice(b'{}[]",:0919-\\x \xff\x00etn') for _ in range(rng.choice([0, 1, 1, 3])))
        server.send_bytes(frame(bytes(body)))
        if turn % 50 == 49:
            try:
                answer, _ = server.request("tests/through")
                lost += "error" not in answer
            except Lost:
                lost += 1
                server.ended()
                server = Server(program, "/")
    server.ended()
    count.check(f"{rounds} messages with changed bytes", lost, 0)
    for turn in range(20):
        noise = b"\xff" + rng.randbytes(rng.choice([1, 100, 5000]))
        server = Server(program, "/")
        server.send_bytes(frame(noise) if turn % 2 else noise)
        left, status = server.ended()
        wanted = frame(b'{"error":{"code":-32700,"message":"no JSON"},"id":null,"jsonrpc":"2.0"}') if turn % 2 else b""
        count.check(f"noise {turn}", (left, status), (wanted, 1))


def noisy(program, count, most, seed=3):
    """Frames of noise, so many bytes of them, for one server: each has its answer, and so has a request between them."""
    rng = random.Random(seed)
    server, sent, wrong = Server(program, "/"), 0, 0
    while sent < most:
        noise = rng.randbytes(rng.choice([1, 10, 1000, 5000]))
        noise = b"\xff" + noise[1:] if noise.strip().isdigit() else noise
        sent += len(noise)
        server.send_bytes(frame(noise))
        answer, before = server.request("tests/through")
        wrong += [it.get("error", {}).get("code") for it in before] != [-32700] or "error" not in answer
    count.check(f"{most} bytes of noise in frames", (wrong, server.ended()), (0, (b"", 1)))


# -- Neovim


def neovim(program, count):
    nvim = shutil.which("nvim")
    if not nvim:
        print("Neovim isn't there: its client is not tried")
        return
    with tempfile.TemporaryDirectory() as room:
        room = pathlib.Path(room)
        for it in (TESTS.parent / "crates/adabuild/data").iterdir():
            if it.suffix in (".ads", ".adb"):
                (room / it.name).write_text(it.read_text())
        got = said_by_neovim(nvim, room, "neovim.lua", {"ADALS": str(program)})
    wanted = (TESTS / "editor/neovim.out").read_text().split("\n")[:-1]
    count.check("Neovim's client", got, wanted)


def said_by_neovim(nvim, room, script, named):
    """The lines that begin with `saw`, of a script for which these names have these texts."""
    words = [nvim, "--headless", "--clean", *(word for it in named.items() for word in ("-c", f"lua {it[0]} = {json.dumps(it[1])}"))]
    ran = subprocess.run([*words, "-c", f"luafile {TESTS}/editor/{script}", "-c", "qa!"], cwd=room, capture_output=True, text=True, timeout=20 * PATIENCE)
    return [line for line in (ran.stdout + ran.stderr).replace("\r", "").split("\n") if line.startswith("saw ")]


def packages_of(count):
    """Packages in a tree, as bench/edits.py has them."""
    sys.path.insert(0, str(TESTS.parent / "bench"))
    from edits import library

    return library(count)


def by_file(shown):
    picture = {}
    for it in shown:
        start, end = {"line": it["line"], "character": it["column"]}, {"line": it["end_line"], "character": it["end_column"]}
        picture.setdefault(it["file"], []).append({"range": {"start": start, "end": end}, "severity": it["severity"], "code": it["code"], "message": it["message"]})
    return sorted_picture(picture)


def sorted_picture(picture):
    return {name: sorted(({key: it[key] for key in it if key != "source"} for it in list_), key=repr) for name, list_ in sorted(picture.items())}


# The file that Neovim's steps rename.
GONE = "p16.ads"


def neovim_steps(program, adalib, count, packages):
    """What Neovim shows of a folder of packages, step by step."""
    nvim = shutil.which("nvim")
    if not nvim:
        print("Neovim isn't there: its steps are not tried")
        return
    files = packages_of(packages)
    with tempfile.TemporaryDirectory() as room:
        room = pathlib.Path(room)
        for name, text in files.items():
            (room / name).write_text(text)
        got = said_by_neovim(nvim, room, "neovim_steps.lua", {"ADALS": str(program), "BODY": "p50.adb", "READ": "base.ads", "GONE": GONE})
    faulty = 0
    for line in got:
        step = json.loads(line.removeprefix("saw "))
        disk = {name: text for name, text in files.items() if name != GONE}
        if step["place"].endswith((".ads", ".adb")):
            disk[step["place"]] = files[GONE]
        wanted = told_by_adalib(adalib, {**disk, **step["open"]}, step["open"], "utf-8")
        faulty += bool(wanted)
        count.check(f"Neovim, {packages} packages: {step['step']}", by_file(step["shown"]), sorted_picture(wanted))
    count.check("steps of Neovim, and those with faults", (len(got), faulty), (19, 9))


def main():
    words = argparse.ArgumentParser()
    words.add_argument("adals", type=pathlib.Path)
    words.add_argument("--adalib", type=pathlib.Path)
    words.add_argument("--long", action="store_true")
    for name in NUMBERS:
        words.add_argument(f"--{name}", type=int)
    words = words.parse_args()
    edits, messages, noise, packages = (numbers[words.long] if getattr(words, name) is None else getattr(words, name) for name, numbers in NUMBERS.items())
    count, program = Count(), words.adals.resolve()
    dialogues(program, count)
    damaged(program, count, messages)
    noisy(program, count, noise)
    if words.adalib:
        fuzz(program, words.adalib.resolve(), count, edits)
    neovim(program, count)
    if words.adalib:
        neovim_steps(program, words.adalib.resolve(), count, packages)
    print(f"{count.passed} passed, {count.failed} failed")
    return count.failed > 0


if __name__ == "__main__":
    sys.exit(main())
