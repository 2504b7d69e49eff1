#!/usr/bin/env python3
"""programs.py PROGRAM: the Ada programs of tests/programs through a built program.
programs.py --gnat [NAME..]: the same through GNAT, where there is one.

tests/programs/NAME holds the units of one Ada program, whose main unit is NAME, beside `stdout`, what it writes, and `outcome`, how its
run ends where it doesn't end `finished`. Where the file `no-gnat` is there, GNAT's run differs, for the reason in it. GNAT gets programs with tasks or
protected objects under the Ravenscar profile, on one processor, and with the main procedure at priority 15; there no task ever ends, so what is
written within four seconds counts.

Each program is put, its units are reported, it is built and run: every unit is sound, and the run's reply is held against the files. The last line
is `N passed, M failed`.
"""
import pathlib
import re
import subprocess
import sys
import tempfile

RAVENSCAR = "pragma Profile (Ravenscar);\npragma Partition_Elaboration_Policy (Sequential);\n"
PROGRAMS = pathlib.Path(__file__).resolve().parent / "programs"
STEPS = 1_000_000_000


def files_of(folder):
    return sorted(it for it in folder.iterdir() if it.suffix in (".ads", ".adb"))


def unit_line(file):
    """What `report units` says of a file."""
    kind = "decl" if file.suffix == ".ads" else "sub" if re.search(rb"^separate\b", file.read_bytes(), re.M | re.I) else "body"
    return f"{file.name} {kind} {file.stem.replace('-', '.')}"


def session_of(folder):
    commands = [b"put %s %d\n%s\n" % (it.name.encode(), len(it.read_bytes()), it.read_bytes()) for it in files_of(folder)]
    return b"".join(commands) + f"report units\nbuild {folder.name}\nrun {STEPS}\n".encode()


def wanted_run(folder):
    """The reply to `run`."""
    written = (folder / "stdout").read_bytes()
    ends = folder / "outcome"
    return b"output %d\n%s\nend %s" % (len(written), written, ends.read_bytes().strip() if ends.exists() else b"finished")


def judged(folder, replies):
    """What is wrong with the replies to a program's session, or None."""
    files = files_of(folder)
    heads = [*["ok"] * len(files), f"units {len(files)}", *map(unit_line, files)]
    lines = replies.decode(errors="replace").split("\n")
    if lines[: len(heads)] != heads:
        return f"units: {lines[: len(heads)]}"
    build = lines[len(heads)]
    if not build.startswith("built "):
        return "\n  ".join(lines[len(heads) :])[:600]
    got = replies.split(build.encode() + b"\n", 1)[1].strip(b"\n")
    return None if got == wanted_run(folder).strip(b"\n") else f"{got[-300:]!r}"


def by_program(program, folder):
    try:
        done = subprocess.run([program], input=session_of(folder), stdout=subprocess.PIPE, stderr=subprocess.PIPE, timeout=120)
    except subprocess.TimeoutExpired:
        return "no end within 120 seconds"
    if done.returncode != 0 or done.stderr:
        return f"exit status {done.returncode}, {done.stderr[-300:]!r}"
    return judged(folder, done.stdout)


def has_tasks(folder):
    return any(re.search(rb"^\s*(task|protected)\b", it.read_bytes(), re.M) for it in files_of(folder))


def by_ravenscar(folder, room):
    """What is wrong with GNAT's run of a program with tasks, or None."""
    (room / "gnat.adc").write_text(RAVENSCAR)
    (room / "gnat_main.adb").write_text(f"with {folder.name};\nprocedure Gnat_Main is\n   pragma Priority (15);\nbegin\n   {folder.name};\nend Gnat_Main;\n")
    made = subprocess.run(["gnatmake", "-q", "-gnat2012", "gnat_main"], cwd=room, stdout=subprocess.PIPE, stderr=subprocess.STDOUT)
    if made.returncode != 0:
        return made.stdout.decode(errors="replace")
    done = subprocess.run(["timeout", "4", "taskset", "-c", "0", room / "gnat_main"], stdout=subprocess.PIPE, stderr=subprocess.PIPE)
    if done.stderr:
        return f"{done.stderr[-300:]!r}"
    return None if done.stdout == (folder / "stdout").read_bytes() else f"{done.stdout[-300:]!r}"


def by_gnat(folder):
    with tempfile.TemporaryDirectory() as room:
        for it in files_of(folder):
            (pathlib.Path(room) / it.name).write_bytes(it.read_bytes())
        if has_tasks(folder):
            return by_ravenscar(folder, pathlib.Path(room))
        made = subprocess.run(["gnatmake", "-q", "-gnat2012", folder.name], cwd=room, stdout=subprocess.PIPE, stderr=subprocess.STDOUT)
        if made.returncode != 0:
            return made.stdout.decode(errors="replace")
        done = subprocess.run([f"{room}/{folder.name}"], stdout=subprocess.PIPE, stderr=subprocess.PIPE, timeout=60)
    ends = folder / "outcome"
    raised = ends.read_text().split()[1].upper() if ends.exists() else ""
    if raised not in done.stderr.decode() or (done.returncode == 0) == ends.exists():
        return f"exit status {done.returncode}, {done.stderr[-300:]!r}"
    return None if done.stdout == (folder / "stdout").read_bytes() else f"{done.stdout[-300:]!r}"


def main(words):
    is_gnat = words[:1] == ["--gnat"]
    passed = failed = 0
    for folder in sorted(it for it in PROGRAMS.iterdir() if it.is_dir()):
        if is_gnat and ((folder / "no-gnat").exists() or words[1:] and folder.name not in words[1:]):
            continue
        wrong = by_gnat(folder) if is_gnat else by_program(words[0], folder)
        if wrong is None:
            passed += 1
        else:
            failed += 1
            print(f"{folder.name}: failed\n  {wrong}")
    print(f"{passed} passed, {failed} failed")
    return 1 if failed else 0


if __name__ == "__main__":
    sys.exit(main(sys.argv[1:]))
