#!/usr/bin/env python3
"""memory.py [--every N] PROGRAM [NAME ..]: refuses each growth of memory in turn, or one of N, in the stored sessions, or in those of these names.

A session is run once, and at each growth the program forks: there the child is refused its growth, and goes on to its end (refuse_each.c, built by
the kit's clang and loaded before the program). It must then write what it always writes; or `refused 10 no-memory` to one put, rename, build, run, report
of units or report of obsolete units that is not refused otherwise, and to all else what the session without that command
writes; or, where the growth is outside the session, nothing, with exit status 1. Those growths that come before the first
command is read are the same in each session with the same words: they are refused in the session without a command alone. Prints
a line for each session, and last `N passed, M failed`.
"""
import concurrent.futures
import contextlib
import functools
import os
import pathlib
import re
import shutil
import struct
import subprocess
import sys
import tempfile
import zlib

from sessions import SESSIONS, TESTS, Count, input_of, words_of

LONGEST = 4096
# How long all growths of one session may take, in seconds.
LIMIT = 1800
REFUSED = b"refused 10 no-memory\n"
OUTSIDE = "outside the session"
UNSEEN = "with the plain replies"
WANT_MEMORY = (b"put ", b"rename ", b"build ", b"run ", b"report units", b"report obsolete")


def shim_of(source, folder):
    """A C file of tests/ as a library that can be loaded before a program, built by the kit's clang."""
    shim = f"{folder}/{source}.so"
    clang = pathlib.Path(shutil.which("rt")).resolve().parents[1] / "toolchain/bin/clang"
    how = ["-shared", "-nostdlib", "-fPIC", "-O1", "-fuse-ld=lld"]
    subprocess.run([clang, *how, "-o", shim, TESTS / source], check=True)
    return shim


class Refuser:
    """Runs the program with one growth refused, or with none, or with each in turn."""

    def __init__(self, program, folder):
        self.program = program
        self.one, self.each = shim_of("refuse.c", folder), shim_of("refuse_each.c", folder)

    def run(self, session, growth=0, words=()):
        """The exit status, output and error output; and whether a growth was refused."""
        with tempfile.TemporaryFile() as told:
            env = {"LD_PRELOAD": self.one, "REFUSE": str(growth), "TELL": str(told.fileno())}
            done = subprocess.run(
                [self.program, *words],
                input=session,
                capture_output=True,
                env=env,
                pass_fds=[told.fileno()],
                timeout=120,
            )
            told.seek(0)
            return (done.returncode, done.stdout, done.stderr), told.read() != b""

    def in_turn(self, session, first=1, words=(), every=1):
        """The exit status, output and error output where no growth is refused; and where each is, or one of so many, from this one on, by its number."""
        with contextlib.ExitStack() as files:
            given, output, error, told = (files.enter_context(tempfile.TemporaryFile()) for _ in range(4))
            given.write(session)
            given.seek(0)
            env = {"LD_PRELOAD": self.each, "FIRST": str(first), "EVERY": str(every), "TELL": str(told.fileno())}
            how = {"stdin": given, "stdout": output, "stderr": error, "env": env, "pass_fds": [told.fileno()], "timeout": LIMIT}
            status = subprocess.run([self.program, *words], **how).returncode
            output.seek(0)
            error.seek(0)
            told.seek(0)
            return (status, output.read(), error.read()), list(records(told))


def records(told):
    """What refuse_each.c told: of each child the growth that it was refused, and its exit status, output and error output."""
    while head := told.read(32):
        growth, status, output, error = struct.unpack("<4q", head)
        yield growth, (os.waitstatus_to_exitcode(status), told.read(output), told.read(error))


def commands_of(session):
    """The commands: a line each, a put whose length is digits with its text."""
    at = 0
    while at < len(session):
        end = (session.find(b"\n", at) + 1) or len(session)
        put = re.fullmatch(rb"put [^ \n]+ ([0-9]{1,9})\n", session[at:end])
        if put:
            end += int(put[1]) + 1
        yield session[at:end]
        at = end


def may_lack_memory(command, reply):
    return command.startswith(WANT_MEMORY) and not reply.startswith(b"refused ")


class Allowed:
    """What may come of a session where one growth is refused."""

    def __init__(self, refuser, words, session):
        self.refuser, self.words, self.session = refuser, words, session
        self.plain = refuser.run(session, 0, words)[0]
        self.commands = list(commands_of(session))
        self.without = {}

    def output(self, commands):
        return self.refuser.run(b"".join(commands), 0, self.words)[0][1]

    @functools.cached_property
    def written(self):
        """What is written before each command, and in all."""
        return [self.output(self.commands[:k]) for k in range(len(self.commands) + 1)]

    def refused_at(self, k):
        """The output where just the command k finds no memory."""
        if k not in self.without:
            before = self.written[k]
            self.without[k] = before + REFUSED + self.output(self.commands[:k] + self.commands[k + 1 :])[len(before) :]
        return self.without[k]

    def name(self, got):
        """What this outcome is called, or None where it may not come."""
        if got == self.plain:
            return UNSEEN
        if got == (1, b"", b"error: out of memory\n"):
            return OUTSIDE
        if (got[0], got[2]) != (self.plain[0], self.plain[2]):
            return None
        for k, command in enumerate(self.commands):
            before, reply = self.written[k], self.written[k + 1][len(self.written[k]) :]
            if got[1].startswith(before + REFUSED) and may_lack_memory(command, reply) and got[1] == self.refused_at(k):
                line = command.split(b"\n")[0].decode()
                return f"at '{line[:20]}'"
        return None


def sweep(refuser, name, every):
    """What is told of a session with each growth refused in turn, or one of so many, and whether all was as it may be."""
    session, words = input_of(name), words_of(name)
    allowed = Allowed(refuser, words, session)
    first = len(refuser.in_turn(b"", 1, words)[1]) + 1 if session else 1
    plain, refused = refuser.in_turn(session, first + zlib.crc32(name.encode()) % every, words, every)
    named, seen, lines = {}, {}, []
    for growth, got in refused:
        if got not in named:
            named[got] = allowed.name(got)
        told = named[got]
        seen[told] = seen.get(told, 0) + 1
        if told is None:
            lines.append(f"{name}: failed at growth {growth}: {got}")
    if plain != allowed.plain:
        lines.append(f"{name}: failed where the process went on behind the growths: {plain}")
    outcome = ", ".join(f"{times} {what}" for what, times in seen.items() if what)
    return [f"{name}: {len(refused)} growths refused: {outcome}", *lines], not lines and first - 1 + len(refused) > 0


def main():
    words, every = sys.argv[1:], 1
    if words[0] == "--every":
        words, every = words[2:], int(words[1])
    program = str(pathlib.Path(words[0]).resolve())
    names = words[1:] or [it.stem for it in sorted(SESSIONS.glob("*.in")) if it.stat().st_size <= LONGEST]
    count = Count()
    with tempfile.TemporaryDirectory() as folder, concurrent.futures.ThreadPoolExecutor(os.cpu_count()) as pool:
        refuser = Refuser(program, folder)
        for lines, passed in pool.map(lambda name: sweep(refuser, name, every), names):
            print("\n".join(lines), flush=True)
            count.passed += passed
            count.failed += not passed
    print(f"{count.passed} passed, {count.failed} failed")
    return count.failed != 0


if __name__ == "__main__":
    sys.exit(main())
