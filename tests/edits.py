"""Wrong bodies: files *.edit of a crate's must-fail/ and edits/, read, put into the crate's text, and told of by the functions that they change.

A file has a line `file: src/FILE.rt` and then pairs of lines `old: TEXT`, which stands once in that file, and `new: TEXT`; a further line
`file:` begins with another file. Other lines are read by nobody.
"""
import pathlib
import re

FUNCTION = re.compile(r"( *)(?:pub(?:\([^)]*\))? )?(?:const )?(?:unsafe )?(?:extern \"C\" )?fn (\w+)")
IMPL = re.compile(r"impl(?:<.*?>)? (?:(?P<trait>.+) for )?(?P<type>.+)")


class BadEdit(Exception):
    """Why an edit can't be put into a text."""


class Edit:
    """A wrong body: the folder with its crate's text, and by file the texts to replace."""

    def __init__(self, path, crate=None):
        self.path, self.crate, self.name = path, crate or path.parent.parent, path.stem
        self.text = path.read_text(errors="replace")
        self.changes, file, old = [], None, None
        for line in self.text.split("\n"):
            word, _, rest = line.partition(":")
            rest = rest.removeprefix(" ")
            if word == "file":
                file = rest.strip()
            elif word == "old":
                old = rest
            elif word == "new" and file and old:
                self.changes.append((file, old, rest))
                old = None

    def put_into(self, texts):
        """The texts, by file, with the edit made in them, and the functions that it changes (None where one stands outside of all)."""
        made, functions = dict(texts), set()
        if not self.changes:
            raise BadEdit("no pair of lines 'old:' and 'new:'")
        for file, old, new in self.changes:
            text = made[file] if file in made else read(self.crate / file)
            if text.count(old) != 1:
                raise BadEdit(f"its old text stands {text.count(old)} times in {file}: {old.strip()[:80]}")
            functions.add(function_at(self.crate, file, text, text.index(old)))
            made[file] = text.replace(old, new)
        if all(made[file] == read(self.crate / file) for file in made):
            raise BadEdit("it changes nothing")
        return made, functions


def read(path):
    if not path.is_file():
        raise BadEdit(f"there is no file {path.name}")
    return path.read_text()


def edits(root, folders=("must-fail", "edits")):
    """The edits of all crates in these folders."""
    return [Edit(it) for folder in folders for it in sorted(root.glob(f"crates/*/{folder}/*.edit"))]


def modules_of(file):
    """The modules in which a file's items stand."""
    parts = list(pathlib.PurePath(file).with_suffix("").parts[1:])
    return parts[:-1] if parts[-1] in ("lib", "main", "mod") else parts


def function_at(crate, file, text, place):
    """The name, below its crate and as a check prints it, of the function round a place of a text that is laid out by `rt fmt`; or None."""
    lines = text.split("\n")
    at = text.count("\n", 0, place)
    depth = len(lines[at]) - len(lines[at].lstrip())
    for number in range(at, -1, -1):
        found = FUNCTION.match(lines[number])
        if found and (number == at or len(found[1]) < depth):
            end = f"{found[1]}}}"
            is_inside = all(line.rstrip() != end for line in lines[number + 1 : at])
            return "::".join([*owner(crate, file, lines, number), found[2]]) if is_inside else None
    return None


def owner(crate, file, lines, number):
    """The modules in which a function stands; of a method the module and the name of its type, and after this that of the trait."""
    if not lines[number].startswith(" "):
        return modules_of(file)
    heads = (line for line in reversed(lines[:number]) if re.match(r"(?:unsafe )?(?:pub )?(?:impl|trait|mod)\b", line))
    head = next(heads, "").split("{")[0].strip()
    found = IMPL.match(head)
    if not found:
        return [*modules_of(file), head.split("<")[0].split(":")[0].split()[-1]]
    of = plain(found["type"].split("<")[0])
    if found["trait"]:
        return [*modules_of(file), of + plain(found["trait"])]
    return [*home(crate, file, of), of]


def home(crate, file, name):
    """The modules in which a type of the crate is declared."""
    declared = re.compile(rf"^(?:pub(?:\([^)]*\))? )?(?:struct|enum) {name}\b", re.MULTILINE)
    for path in [crate / file, *sorted((crate / "src").rglob("*.rt"))]:
        if declared.search(path.read_text()):
            return modules_of(path.relative_to(crate))
    return modules_of(file)


def plain(name):
    """A type or trait as names of impls have it: without lifetimes, paths and brackets."""
    without = re.sub(r"'\w+|\w+::", "", name)
    return "".join(re.findall(r"\w+", without))
