#!/usr/bin/env python3
"""alternatives.py: which alternatives of the grammar's rules the accepted texts of the stored sessions take.

The rules are read from crates/al_tree_syntax/specs, the texts from the `put` commands of tests/sessions. A text is read as the
grammar is, by the next lexeme (behind the mark of a name, by the one after it). Each choice of a `∣` counts one alternative, each `Opt`,
`Many` and `RoomOr` two, and each `Marked` three. Prints what no accepted text takes, the constructs with no fault inside, and
last `N of M alternatives taken`; the exit status is 1 where one is left.
"""
import pathlib
import re
import sys

ROOT = pathlib.Path(__file__).resolve().parent.parent
SPECS = ROOT / "crates" / "al_tree_syntax" / "specs"
SESSIONS = ROOT / "tests" / "sessions"
MOST_OPEN = 64

MARKS = {
    "Ampersand": "&", "Apostrophe": "'", "LeftParenthesis": "(", "RightParenthesis": ")", "Asterisk": "*", "Plus": "+",
    "Comma": ",", "Minus": "-", "Dot": ".", "Slash": "/", "Colon": ":", "Semicolon": ";", "Less": "<", "Equal": "=",
    "Greater": ">", "VerticalLine": "|", "Arrow": "=>", "DoubleDot": "..", "DoubleAsterisk": "**", "Assign": ":=",
    "NotEqual": "/=", "GreaterOrEqual": ">=", "LessOrEqual": "<=",
}
# the reserved words (ARM 2.9) that no rule has
OTHERS = """abort abstract accept access aliased all at delta digits do exception generic goto interface limited new overriding
raise renames requeue select some synchronized tagged terminate""".split()
SORTS = ("Identifier", "Number", "StringLiteral")
LEXEME = re.compile(
    r"""\s+|--[^\n]*|(?P<string>"(?:[^"\n]|"")*")|(?P<number>[0-9][0-9_]*(?:\#[0-9A-Za-z_]+\#)?(?:[eE]\+?[0-9_]+)?)
    |(?P<word>[A-Za-z][A-Za-z0-9_]*)|(?P<mark>=>|\.\.|\*\*|:=|/=|>=|<=|[&'()*+,\-./:;<=>|])""",
    re.VERBOSE,
)


class Fault(Exception):
    """No sentence goes on with the next lexeme; `inside` is the construct that is open there."""

    def __init__(self, inside):
        super().__init__(inside)
        self.inside = inside


def rules_of():
    """The rules and the constructs' insides, by name, as nested tuples."""
    rules, insides = {}, {}
    for file in ("Expressions", "Declarations", "Statements", "Units", "Rules"):
        text = re.sub(r"--[^\n]*", "", (SPECS / f"{file}.antt").read_text())
        for name, body in re.findall(r"^(\w+_rule|inside \w+) =((?:[^\n]|\n +)*)", text, re.M):
            tree = expression_of(re.findall(r"\w+|«Type»|[()⨾∣]", body.replace("(number Apostrophe)", "Apostrophe")))
            if name.startswith("inside "):
                insides[name.split()[1]] = tree
            else:
                rules[name] = tree
    return rules, insides


def expression_of(words):
    tree, rest = sequences(words)
    if rest:
        raise SystemExit(f"rule not read: {rest}")
    return tree


def sequences(words):
    first, words = sequence(words)
    choices = [first]
    while words and words[0] == "∣":
        other, words = sequence(words[1:])
        choices.append(other)
    return (["Alt", *choices] if len(choices) > 1 else first), words


def sequence(words):
    first, words = application(words)
    if words and words[0] == "⨾":
        other, words = sequence(words[1:])
        return ["Seq", first, other], words
    return first, words


def atom(words):
    if words[0] == "(":
        tree, words = sequences(words[1:])
        return tree, words[1:]
    return ["Call", words[0]], words[1:]


def application(words):
    head = words[0]
    if head in ("the", "any"):
        return [head, words[1].strip("«»")], words[2:]
    if head in ("opens", "opens_at"):
        return [head, words[1].strip("«»"), words[2]], words[3:]
    if head == "parted":
        item, rest = atom(words[2:])
        return ["Seq", item, ["Many", ["Seq", ["the", words[1]], item]]], rest
    if head in ("Opt", "Many", "Room"):
        item, rest = atom(words[1:])
        return [head, item], rest
    if head == "RoomOr":
        one, rest = atom(words[1:])
        other, rest = atom(rest)
        return [head, one, other], rest
    if head == "Marked":
        one, rest = atom(words[2:])
        other, rest = atom(rest)
        return [head, words[1], one, other], rest
    return atom(words)


class Grammar:
    def __init__(self):
        self.rules, self.insides = rules_of()
        self.reserved = dict.fromkeys(OTHERS, "Other")
        self.number_of = {}
        self.alternatives = {}
        for where, tree in [*self.rules.items(), *self.insides.items()]:
            self.count(where, tree)

    def count(self, where, tree):
        """Gives each alternative a name, and learns the reserved words."""
        kind = tree[0]
        if kind in ("the", "any", "opens", "opens_at"):
            if tree[1] not in MARKS and tree[1] not in SORTS:
                self.reserved[tree[1].lower()] = tree[1]
        parts = {"Opt": ["none", "one"], "Many": ["none", "some"], "RoomOr": ["room", "no room"],
                 "Marked": ["none", "more", "last"]}.get(kind, [])
        if kind == "Alt":
            parts = [shown(choice) for choice in tree[1:]]
        number = self.number_of.setdefault(id(tree), len(self.number_of))
        for part in parts:
            self.alternatives[(number, part)] = f"{where}: {part} of {shown(tree)}"
        for part in tree[1:]:
            if isinstance(part, list):
                self.count(where, part)

    def first(self, tree):
        """The kinds that a rule begins with, and whether it may be empty."""
        kind = tree[0]
        if kind in ("the", "any", "opens", "opens_at"):
            return {tree[1]}, False
        if kind == "Call":
            return self.first(self.rules[tree[1]])
        if kind == "Marked":
            return {tree[1]}, True
        if kind in ("Opt", "Many"):
            return self.first(tree[1])[0], True
        if kind == "Room":
            return self.first(tree[1])
        if kind == "Seq":
            one, empty = self.first(tree[1])
            other, also = self.first(tree[2]) if empty else (set(), False)
            return one | other, also
        choices = [self.first(choice) for choice in tree[1:]]
        return set().union(*(one for one, _ in choices)), any(empty for _, empty in choices)


def shown(tree):
    kind = tree[0]
    if kind in ("the", "any", "Call"):
        return tree[1]
    if kind in ("opens", "opens_at"):
        return f"{tree[1]} {tree[2]}"
    if kind == "Seq":
        return f"{shown(tree[1])} ⨾ {shown(tree[2])}"
    if kind == "Alt":
        return f"({' ∣ '.join(shown(choice) for choice in tree[1:])})"
    return f"{kind} ({', '.join(part if isinstance(part, str) else shown(part) for part in tree[1:])})"


class Reader:
    """Reads a list of kinds by a rule, and keeps the alternatives that it took."""

    def __init__(self, grammar, kinds):
        self.grammar = grammar
        self.kinds = kinds
        self.at = 0
        self.open = []
        self.taken = set()

    def next(self, ahead=0):
        return self.kinds[self.at + ahead] if self.at + ahead < len(self.kinds) else None

    def begins(self, tree, ahead=0):
        return self.next(ahead) in self.grammar.first(tree)[0]

    def take(self, tree, part):
        self.taken.add((self.grammar.number_of[id(tree)], part))

    def fault(self):
        return Fault(self.open[-1] if self.open else "the unit")

    def word(self, kind):
        if self.next() != kind:
            raise self.fault()
        self.at += 1

    def construct(self, name):
        if len(self.open) == MOST_OPEN:
            raise self.fault()
        self.open.append(name)
        self.read(self.grammar.insides[name])
        self.open.pop()

    def read(self, tree):
        kind = tree[0]
        if kind == "Call":
            self.read(self.grammar.rules[tree[1]])
        elif kind in ("the", "any"):
            self.word(tree[1])
        elif kind in ("opens", "opens_at"):
            if len(self.open) == MOST_OPEN:
                raise self.fault()
            self.word(tree[1])
            self.construct(tree[2])
        elif kind == "Seq":
            self.read(tree[1])
            self.read(tree[2])
        elif kind == "Room":
            if len(self.open) == MOST_OPEN:
                raise self.fault()
            self.read(tree[1])
        else:
            self.choose(tree)

    def choose(self, tree):
        kind = tree[0]
        if kind == "Alt":
            chosen = next((choice for choice in tree[1:] if self.begins(choice) or self.grammar.first(choice)[1]), None)
            if chosen is None:
                raise self.fault()
            self.take(tree, shown(chosen))
            self.read(chosen)
        elif kind == "Opt":
            self.take(tree, "one" if self.begins(tree[1]) else "none")
            if self.begins(tree[1]):
                self.read(tree[1])
        elif kind == "Many":
            self.take(tree, "some" if self.begins(tree[1]) else "none")
            while self.begins(tree[1]):
                self.read(tree[1])
        elif kind == "RoomOr":
            room = len(self.open) < MOST_OPEN
            self.take(tree, "room" if room else "no room")
            self.read(tree[1] if room else tree[2])
        else:
            self.marked(tree)

    def marked(self, tree):
        _, mark, more, last = tree
        self.take(tree, "none" if self.next() != mark else "more" if self.begins(more, 1) else "last")
        while self.next() == mark:
            self.word(mark)
            if self.begins(more):
                self.read(more)
                self.take(tree, "more")
            else:
                self.take(tree, "last")
                self.read(last)
                return


def kinds_of(grammar, text):
    """The kinds of a text's lexemes, or None where it has a fault of its lexis."""
    marks = {spelling: name for name, spelling in MARKS.items()}
    kinds, at = [], 0
    while at < len(text):
        found = LEXEME.match(text, at)
        if not found:
            return None
        at = found.end()
        if found["string"]:
            kinds.append("StringLiteral")
        elif found["number"]:
            kinds.append("Number")
        elif found["mark"]:
            kinds.append(marks[found["mark"]])
        elif found["word"]:
            kinds.append(grammar.reserved.get(found["word"].lower(), "Identifier"))
    return kinds


def texts():
    """The texts of the stored sessions."""
    for path in sorted(SESSIONS.glob("*.in")):
        data, at = path.read_bytes(), 0
        while at < len(data):
            end = data.find(b"\n", at)
            line, at = data[at : end if end >= 0 else len(data)], (end + 1 if end >= 0 else len(data))
            put = re.fullmatch(rb"put (\S+) ([0-9]{1,7})", line)
            if put:
                text, at = data[at : at + int(put[2])], at + int(put[2]) + 1
                yield path.stem, put[1].decode("ascii", "replace"), text.decode("latin-1")


def main():
    sys.setrecursionlimit(100_000)
    grammar = Grammar()
    taken, opened, faulty, accepted = set(), set(), set(), 0
    for session, name, text in texts():
        kinds = kinds_of(grammar, text)
        if kinds is None:
            continue
        reader = Reader(grammar, kinds)
        try:
            reader.read(["Call", "unit_rule"])
            if reader.at < len(kinds):
                raise Fault("nothing")
        except Fault as fault:
            faulty.add(fault.inside)
            continue
        accepted += 1
        taken |= reader.taken
    for key, shown_ in grammar.alternatives.items():
        if key not in taken:
            print(f"not taken: {shown_}")
    for construct in grammar.insides:
        if construct not in faulty:
            print(f"no fault inside: {construct}")
    print(f"{accepted} accepted texts; {len(taken)} of {len(grammar.alternatives)} alternatives taken")
    return 0 if len(taken) == len(grammar.alternatives) else 1


if __name__ == "__main__":
    sys.exit(main())
