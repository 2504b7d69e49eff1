#!/usr/bin/env python3
"""pages.py: whether what the pages name is there.

- Each link of a page leads to a file of the repository, and to a heading of it if it names one, also as `[page](file), "Heading"`.
- Each name between backquotes of a crate, each path to an item (`part::item`) and each name of several words (`two_words`) is in crates.txt, the sources of the crates or the scripts,
  or is a test's.
- Each file that a command of the README names is there, and each `grep` of it finds something. (tests/folders.py plays its examples, tests/installing.py installs, and
  tests/run is what runs this.)
- Each list of CONTRIBUTING.md names all files of the crates in which its model, the words of its heading, is: no fewer and no more.
- No page is longer than its limit, nor are all together.

Prints each failure, and last `N passed, M failed`. `pages.py lists` writes the lists of CONTRIBUTING.md anew.
"""
import functools
import pathlib
import re
import subprocess
import sys

ROOT = pathlib.Path(__file__).resolve().parent.parent
PAGES = [*sorted(ROOT.glob("*.md")), *sorted((ROOT / "docs").glob("*.md")), ROOT / "drafts/README.md"]
# How many words a page has at most, and all pages.
LIMITS = {"README.md": 1_000, "CONTRIBUTING.md": 1_200, "docs/PROVED.md": 4_500, "docs/DECISIONS.md": 6_000}
LIMIT = 50_000
CONTRIBUTING = ROOT / "CONTRIBUTING.md"
# A list: its heading with the model's words in backquotes after `as`, what is said of it, and lines of a crate and its files.
LIST = re.compile(r"^(### [^\n]*, as (`[^\n]*`)\n\n(?:[^\n#-][^\n]*\n+)*)((?:- `\w+`: [^\n]*\n)*)\n*", re.MULTILINE)
# What looks like a name of a crate or like a path, and is none.
OTHERS = {"al_LAYER", "al_LAYER_PART"}


def code_of(text):
    """The pieces of a page between backquotes, and its blocks of code."""
    return re.findall(r"`([^`\n]+)`", text)


def anchor(heading):
    return re.sub(r"[^\w\- ]", "", heading.strip().lower()).replace(" ", "-")


def headings(path):
    return {anchor(it.replace("`", "")) for it in re.findall(r"^#+ (.*)$", path.read_text(), re.MULTILINE)}


def has_part(path, begins):
    """Whether a heading of the page, or a paragraph of it by its bold words, begins so."""
    return any(it.startswith(begins) for it in [*headings(path), *map(anchor, re.findall(r"^\*\*(.*?)\*\*", path.read_text(), re.MULTILINE))])


def links(path):
    """Of each link of a page to a file whether it leads there."""
    for target in re.findall(r"\]\(([^)\s]+)\)", path.read_text()):
        if "://" in target:
            continue
        file, _, place = target.partition("#")
        to = (path.parent / file).resolve() if file else path
        yield target, to.exists() and (not place or place in headings(to))
    for file, heading in re.findall(r"\]\(([^)\s:]+\.md)\), \"([^\"\n]+)\"", path.read_text()):
        yield f'{file}, "{heading}"', has_part((path.parent / file).resolve(), anchor(heading))


@functools.lru_cache(maxsize=None)
def crates():
    lines = (it.partition("#")[0].partition(":") for it in (ROOT / "crates.txt").read_text().splitlines())
    return {name.split()[0] for name, colon, _ in lines if colon}


@functools.lru_cache(maxsize=None)
def texts():
    """The sources, definitions and proofs of each crate, by path."""
    files = [it for part in ("src", "specs", "proofs") for ending in ("rt", "antt") for it in ROOT.glob(f"crates/*/{part}/**/*.{ending}")]
    return {it: it.read_text() for it in sorted(files)}


@functools.lru_cache(maxsize=None)
def words():
    """All words of the crates' texts, of the scripts and of stored replies, and the names of tests and wrong bodies."""
    others = [it.read_text(errors="replace") for form in ("tests/*.py", "bench/**/*.py", "tools/*.py", "tests/sessions/*.out") for it in ROOT.glob(form)]
    tests = {it.stem for form in ("tests/*/*", "bench/*/*", "drafts/*", "crates/*/*/*.edit") for it in ROOT.glob(form)}
    return crates() | tests | set(re.findall(r"\w+", " ".join([*texts().values(), *others])))


def names(path):
    """Of each name of a crate, each path, and each name of several words whether it is there."""
    for code in code_of(path.read_text()):
        for crate in re.findall(r"(?<![\w/])al_\w+", code):
            if crate not in OTHERS:
                yield crate, crate in words()
        for item in re.findall(r"\b[A-Za-z]\w*(?:::\w+)+", code):
            yield item, set(item.split("::")) - {"std", "core"} <= words()
        if re.fullmatch(r"[a-z]\w*_\w+", code) and code not in OTHERS:
            yield code, code in words()


def commands():
    """Of each file that a command of the README names whether it is there, and of each `grep` whether it finds something."""
    text = (ROOT / "README.md").read_text()
    lines = [it for block in re.findall(r"(?:^    [^\n]*\n)+|^```[^\n]*\n.*?^```", text, re.MULTILINE | re.DOTALL) for it in re.findall(r"^(?:    |\$ )([^#\n]*)", block, re.MULTILINE)]
    for line in (it.strip() for it in [*lines, *code_of(text)]):
        folder = ROOT
        for command in line.split("&&") if re.match(r"(?:cd|bash|python3|rt|grep|adabuild|out/\w+) ", line) else []:
            given = command.split()
            if given[0] == "grep":
                yield line, bool(subprocess.run(command, shell=True, cwd=folder, capture_output=True).stdout)
            for it in [it for it in given[1:] if "/" in it and not it.startswith(("[", "~", "/"))]:
                yield line, it.startswith("out/") or any(folder.glob(it))
            if given[0] == "cd":
                folder = ROOT / given[1]


def lengths():
    """Of each page with a limit, and of all together, whether it keeps its limit."""
    words = {str(it.relative_to(ROOT)): len(it.read_text().split()) for it in PAGES}
    for page, limit in [*LIMITS.items(), ("all pages", LIMIT)]:
        long = words[page] if page in words else sum(words.values())
        yield f"{page} has {long} words, of at most {limit}", long <= limit


def list_of(model):
    """The lines of a list: each crate with its files in which one of these words stands."""
    whole, found = re.compile(rf"\b(?:{'|'.join(model)})\b"), {}
    for file, text in texts().items():
        if whole.search(text):
            crate, _, inside = str(file.relative_to(ROOT / "crates")).partition("/")
            found.setdefault(crate, []).append(inside)
    return "".join(f"- `{crate}`: {', '.join(files)}\n" for crate, files in found.items())


def lists():
    """Of each line of each list, and of each that should be there, whether it is both."""
    for heading, model, lines in LIST.findall(CONTRIBUTING.read_text()):
        wanted = list_of(code_of(model)).splitlines()
        for line in dict.fromkeys([*lines.splitlines(), *wanted]):
            yield f"{heading.splitlines()[0][4:]}: {'' if line in wanted else 'no more '}{line}", line in lines.splitlines() and line in wanted


def write_lists():
    text = CONTRIBUTING.read_text()
    CONTRIBUTING.write_text(LIST.sub(lambda found: f"{found[1]}{list_of(code_of(found[2]))}\n", text))


def main(given):
    if given == ["lists"]:
        return write_lists()
    passed, failed = 0, []
    for path in PAGES:
        for what, checks in (("link", links), ("name", names)):
            for it, is_there in checks(path):
                passed += is_there
                failed += [f"{path.relative_to(ROOT)}: failed: {what} {it}"] * (not is_there)
    for what, checks in (("README.md: failed: command", commands), ("CONTRIBUTING.md: failed: list", lists), ("failed: limit", lengths)):
        for it, is_there in checks():
            passed += is_there
            failed += [f"{what} {it}"] * (not is_there)
    print("".join(f"{it}\n" for it in dict.fromkeys(failed)), end="")
    print(f"{passed} passed, {len(failed)} failed")
    return 1 if failed else 0


if __name__ == "__main__":
    sys.exit(main(sys.argv[1:]))
