#!/usr/bin/env python3
"""devices.py PROGRAM: fails each read and each write in turn, in one stored session.

The session is run once for each call of a device, with that call and all later ones failing (by fail.c, built by the kit's clang and
loaded before the program). Then the exit status is 1, the device isn't called again, and:

- a read that fails, where each gives one byte: the replies to the commands that end before it are written, and nothing else;
- a write that fails, or takes no byte, where each takes a reply, or one byte: what was taken before stays, which is a front of the plain
  replies, and no command was read beyond the one whose reply it is.

Prints each failure and how many calls failed in turn, and last `N passed, M failed`.
"""
import os
import pathlib
import re
import subprocess
import sys
import tempfile

from memory import commands_of, shim_of
from sessions import SESSIONS, Count, input_of

SESSION = "use-visible-name-and-its-homograph"
WHOLE = 1_000_000
NEVER = 1_000_000_000


class Failing:
    """Runs the program over the session with a device that fails from one of its calls on."""

    def __init__(self, program, folder):
        self.program = program
        self.folder = pathlib.Path(folder)
        self.shim = shim_of("fail.c", folder)
        self.session = self.folder / "session"
        self.session.write_bytes(input_of(SESSION))

    def run(self, what, at, reads=1, writes=WHOLE):
        """Exit status, output and error output; and how many calls failed, and how many bytes were read."""
        with open(self.session, "rb") as given, open(self.folder / "told", "w+b") as told:
            env = {"LD_PRELOAD": self.shim, "FAIL": what, "AT": str(at), "READS": str(reads), "WRITES": str(writes), "TELL": str(told.fileno())}
            done = subprocess.run([self.program], stdin=given, capture_output=True, env=env, pass_fds=[told.fileno()], timeout=120)
            told.seek(0)
            return (done.returncode, done.stdout, done.stderr), (len(told.read()), os.lseek(given.fileno(), 0, os.SEEK_CUR))


def ends_of(parts):
    """Where each of these ends, if they stand one behind another."""
    ends = []
    for part in parts:
        ends.append((ends[-1] if ends else 0) + len(part))
    return ends


def replies_in(output):
    """The replies to puts and builds: a line each, and behind `failed K` K lines more."""
    lines = output.splitlines(keepends=True)
    while lines:
        faults = re.fullmatch(rb"failed ([0-9]+)\n", lines[0])
        size = 1 + int(faults[1]) if faults else 1
        yield b"".join(lines[:size])
        lines = lines[size:]


class Session:
    """The session's commands and replies, and where each ends."""

    def __init__(self):
        self.plain = (SESSIONS / f"{SESSION}.out").read_bytes()
        self.replies = list(replies_in(self.plain))
        self.ends = ends_of(commands_of(input_of(SESSION)))
        self.reply_ends = ends_of(self.replies)
        self.size = self.ends[-1]

    def told(self, read):
        """How many bytes are written once so many were read."""
        return sum(len(reply) for reply, end in zip(self.replies, self.ends) if end <= read)

    def read_at(self, taken):
        """How many bytes are read where the replies' byte with this number, from 0, isn't taken."""
        return next((end for end, told in zip(self.ends, self.reply_ends) if taken < told), self.size)


def fail_in_turn(count, failing, what, wanted_of, **how):
    """Fails each call in turn until none fails. `wanted_of` a number of calls before gives the output and how many bytes are read."""
    at = 1
    got, (failed, read) = failing.run(what, at, **how)
    while failed:
        output, until = wanted_of(at - 1)
        told = b"error: the input can't be read\n" if what == "read" else b"error: the output can't be written\n"
        count.check(f"{what} {at} of {how}", (*got, failed, read), (1, output, told, 1, until))
        at += 1
        got, (failed, read) = failing.run(what, at, **how)
    return at - 1


def fail_all(count, failing, it):
    """Each call of each device in turn; how many there were."""

    def by_reads(before):
        return it.plain[: it.told(before)], before

    def by_bytes(before):
        return it.plain[:before], it.read_at(before)

    def by_replies(before):
        written = b"".join(it.replies[:before])
        return written, it.read_at(len(written))

    calls = {"reads": fail_in_turn(count, failing, "read", by_reads)}
    count.check("each byte is a read, and so is the end", (calls["reads"],), (it.size + 1,))
    for what in ("write", "nothing"):
        calls[f"{what}, byte by byte"] = fail_in_turn(count, failing, what, by_bytes, writes=1)
        calls[f"{what}, reply by reply"] = fail_in_turn(count, failing, what, by_replies)
    return calls


def main():
    program = str(pathlib.Path(sys.argv[1]).resolve())
    count = Count()
    with tempfile.TemporaryDirectory() as folder:
        failing = Failing(program, folder)
        it = Session()
        count.check("a reply for each command", (len(it.replies),), (len(it.ends),))
        for size in (1, 7, WHOLE):
            got, _ = failing.run("read", NEVER, size, size)
            count.check(f"reads and writes of {size} bytes", got, (0, it.plain, b""))
        calls = fail_all(count, failing, it)
    print(f"{SESSION}: calls that failed in turn: " + ", ".join(f"{times} {name}" for name, times in calls.items()))
    print(f"{count.passed} passed, {count.failed} failed")
    return count.failed != 0


if __name__ == "__main__":
    sys.exit(main())
