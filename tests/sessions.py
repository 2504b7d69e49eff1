#!/usr/bin/env python3
"""sessions.py PROGRAM: runs the stored sessions and command lines against a built program.

A session NAME is NAME.in, the bytes of its commands (or NAME.gen, which writes them), NAME.out, the bytes of its
replies, NAME.exit, its exit status where that isn't 0, and NAME.args, the program's words, one a line. Each has a stack of 8 MB. NAME.cuts is
what comes of the session NAME cut to its first n bytes, for each n. command-lines.json lists words of the program with
the exit status and what it writes. Sessions run side by side. Prints each failure, and last `N passed, M failed`.
"""
import concurrent.futures
import json
import os
import pathlib
import select
import subprocess
import sys
import tempfile

TESTS = pathlib.Path(__file__).resolve().parent
SESSIONS = TESTS / "sessions"


class Count:
    def __init__(self):
        self.passed = 0
        self.failed = 0

    def check(self, name, got, wanted):
        """Counts one run, where `got` and `wanted` are exit status, standard output and standard error, and more where a test has more."""
        if got == wanted:
            self.passed += 1
            return
        self.failed += 1
        print(f"{name}: failed")
        for what, is_, should in zip(("exit status", "output", "error output", "calls that failed", "bytes that were read"), got, wanted):
            if is_ != should:
                print(f"  {what}: {shown(is_)}\n  wanted: {shown(should)}")


def shown(value):
    if isinstance(value, int):
        return value
    return f"{len(value)} bytes, {value[-300:]!r}" if len(value) > 300 else repr(value)


def run(program, words, given, output=subprocess.PIPE):
    """The exit status, output and error output; `given` is the standard input, as bytes or as an open file. The stack has 8 MB."""
    source = {"input": given} if isinstance(given, bytes) else {"stdin": given}
    with tempfile.TemporaryDirectory() as folder:
        command = ["sh", "-c", 'ulimit -S -s 8192; exec "$0" "$@"', program, *words]
        try:
            done = subprocess.run(command, stdout=output, stderr=subprocess.PIPE, cwd=folder, timeout=300, **source)
        except subprocess.TimeoutExpired:
            return (-1, b"", b"no end within 300 seconds")
    return (done.returncode, done.stdout or b"", done.stderr)


def input_of(name):
    made = SESSIONS / f"{name}.gen"
    if made.exists():
        return subprocess.run([sys.executable, made], stdout=subprocess.PIPE, check=True).stdout
    return (SESSIONS / f"{name}.in").read_bytes()


def words_of(name):
    args = SESSIONS / f"{name}.args"
    return args.read_text().split("\n")[:-1] if args.exists() else []


def run_sessions(program, count, pool):
    names = [it.stem for it in sorted(SESSIONS.glob("*.out"))]
    for name, got in zip(names, pool.map(lambda name: run(program, words_of(name), input_of(name)), names)):
        status = SESSIONS / f"{name}.exit"
        wanted = (int(status.read_text()) if status.exists() else 0, (SESSIONS / f"{name}.out").read_bytes(), b"")
        count.check(name, got, wanted)


def run_cuts(program, count, pool):
    for table in sorted(SESSIONS.glob("*.cuts")):
        whole = input_of(table.stem)
        told = set()
        for row in table.read_text().splitlines():
            if row.startswith("#"):
                continue
            first, last, status, replies = (row.split(" ", 3) + [""])[:4]
            wanted = (int(status), replies.replace("\\n", "\n").encode(), b"")
            sizes = range(int(first), int(last) + 1)
            told.update(sizes)
            for size, got in zip(sizes, pool.map(lambda size: run(program, [], whole[:size]), sizes)):
                count.check(f"{table.stem} cut to {size} bytes", got, wanted)
        if told != set(range(len(whole) + 1)):
            count.check(f"{table.name} has a row for each cut", (1,), (0,))


def run_command_lines(program, count):
    """Each line's words may name {hello}, a file with the session hello, {none}, a file that isn't there, and {folder}."""
    hello = input_of("hello")
    replies = (SESSIONS / "hello.out").read_bytes()
    with tempfile.TemporaryDirectory() as folder:
        path = pathlib.Path(folder)
        (path / "hello.in").write_bytes(hello)
        places = {"{hello}": str(path / "hello.in"), "{none}": str(path / "none.in"), "{folder}": folder}
        for line in json.loads((TESTS / "command-lines.json").read_text()):
            words = [places.get(word, word) for word in line["words"]]
            output = {"hello": replies, "nothing": b""}[line["output"]]
            error = line["error"] + "\n" if "error" in line else ""
            for place, named in places.items():
                error = error.replace(place, named)
            given = b"" if any(word in places for word in line["words"]) else hello
            got = run(program, words, given)
            count.check(f"adalib {' '.join(line['words'])!a}", got, (line["exit"], output, error.encode()))


def run_faults(program, count):
    """Devices that fail: then the exit status is 1, nothing more is written, and the cause is told."""
    hello = input_of("hello")
    with open("/dev/full", "wb") as full:
        count.check("output to a full device", run(program, [], hello, full), (1, b"", b"error: the output can't be written\n"))
    with tempfile.NamedTemporaryFile("wb") as sink, open(sink.name, "wb") as write_only:
        count.check("input that can't be read", run(program, [], write_only), (1, b"", b"error: the input can't be read\n"))


def next_line(stream):
    """The bytes up to a line end, or fewer where no more come within 20 seconds."""
    line = b""
    while not line.endswith(b"\n") and select.select([stream], [], [], 20)[0]:
        some = os.read(stream.fileno(), 1)
        if not some:
            break
        line += some
    return line


def run_turns(program, count):
    """Each reply is there before the next command is written."""
    turns = {b"delete a.ads\n": b"refused 2 no-file\n", b"run 1\n": b"refused 6 not-built\n", b"\n": b"refused 8 bad-command\n"}
    with subprocess.Popen([program], stdin=subprocess.PIPE, stdout=subprocess.PIPE, bufsize=0) as talk:
        for command, reply in turns.items():
            talk.stdin.write(command)
            count.check(f"the reply to {command} in its turn", (0, next_line(talk.stdout), b""), (0, reply, b""))


def run_last_command(program, count):
    """A session ends with its millionth command, where each line is one, refused and empty ones too; what follows isn't read."""
    empty = 999_999
    for last, reply in ((b"put a b c\n", b"refused 8 bad-command\n"), (b"put a.ads 5\nquit\n\n", b"ok\n")):
        wanted = (0, b"refused 8 bad-command\n" * empty + reply, b"")
        count.check(f"the millionth command {last}", run(program, [], b"\n" * empty + last + b"put a.ads x\n"), wanted)


def main():
    program = str(pathlib.Path(sys.argv[1]).resolve())
    count = Count()
    with concurrent.futures.ThreadPoolExecutor(os.cpu_count()) as pool:
        run_sessions(program, count, pool)
        run_cuts(program, count, pool)
    run_command_lines(program, count)
    run_faults(program, count)
    run_turns(program, count)
    run_last_command(program, count)
    print(f"{count.passed} passed, {count.failed} failed")
    return count.failed != 0


if __name__ == "__main__":
    sys.exit(main())
