#!/usr/bin/env python3
"""installing.py: the way from a clone to the first program that runs, as the README has it.

Runs `bash tools/install FOLDER` with folders of several kinds, and then the program that it put there. Both programs are to be in out/ already, or this takes
some ten minutes. Prints each failure, and last `N passed, M failed`.
"""
import os
import pathlib
import subprocess
import sys
import tempfile

TOP = pathlib.Path(__file__).resolve().parent.parent


def said(words, **more):
    """The exit status, the output and the error output."""
    done = subprocess.run(words, cwd=TOP, stdin=subprocess.DEVNULL, capture_output=True, text=True, **more)
    return done.returncode, done.stdout, done.stderr


def main():
    failures, passed = [], 0

    def check(name, got, wanted):
        nonlocal passed
        passed += got == wanted
        if got != wanted:
            failures.append(f"{name}: failed: got {got!r}, wanted {wanted!r}")

    with tempfile.TemporaryDirectory() as room:
        room = pathlib.Path(room)
        folder = room / "some where/bin"
        status, output, told = said(["bash", "tools/install", str(folder)])
        check("it is installed", (status, told), (0, ""))
        check("the paths are printed", [it for it in output.splitlines() if it.startswith(str(folder / "ada"))], [str(folder / it) for it in ("adabuild", "adalib", "adals")])
        help_text = said([folder / "adabuild", "--help"])[1]
        check("the help is last", output.endswith("\n" + help_text) and help_text != "", True)
        check("nothing else is there", sorted(it.name for it in folder.iterdir()), ["adabuild", "adalib", "adals"])
        check("it runs", said([folder / "adabuild", "--run", "main", "crates/adabuild/data"]), (0, "total 55\n", ""))
        path = {**os.environ, "PATH": f"{folder}:{os.environ['PATH']}"}
        status, output, told = said(["bash", "tools/install", str(folder)], env=path)
        check("on the path nothing is said of it", (status, "isn't on the path" in output, told), (0, False, ""))
        (room / "file").write_text("")
        check("a file in place of a folder", said(["bash", "tools/install", str(room / "file")]), (1, "", f"error: {room}/file isn't a folder\n"))
        usage = "usage: bash tools/install [FOLDER]\n"
        check("two folders", said(["bash", "tools/install", "a", "b"]), (2, "", usage))
        check("an option", said(["bash", "tools/install", "--help"]), (2, "", usage))
        bare = room / "bare"
        bare.mkdir()
        for tool in ("bash", "dirname", "python3"):
            (bare / tool).symlink_to(subprocess.run(["which", tool], capture_output=True, text=True).stdout.strip())
        got = said(["bash", "tools/install", str(folder)], env={"PATH": str(bare), "HOME": str(room)})
        check("without the kit", got, (1, "", "error: there is no rt, which makes the programs (README.md)\n"))
    print("".join(f"{it}\n" for it in failures), end="")
    print(f"{passed} passed, {len(failures)} failed")
    return 1 if failures else 0


if __name__ == "__main__":
    sys.exit(main())
