"""Tells where the time of a crate's proofs went: python3 bench/proofs.py crates/NAME [LINES]

`rt check --jobs 1` keeps a file for each module that it proved, in crates/NAME/out, in the order in which it proved them. So the time between
one file and the next is what a module took. It is time of the clock: with other checks beside it is more than that of the processor.
Modules that an earlier check proved stand before a gap, which counts for the first module behind it; for figures of a whole crate begin with no out/.
"""
import collections
import os
import re
import sys

PHASES = "Layout Lts Proof Tie Code Goals Given Answers Invariants Symbol TheLink Reads Kinds Named Met Statement Key View".split()


def files(crate):
    """The kept files of a crate, each with the time when it was written."""
    found = []
    for folder, _, names in os.walk(f"{crate}/out/incremental"):
        for name in names:
            if name.endswith(".oantt"):
                found.append((os.stat(f"{folder}/{name}").st_mtime_ns / 1e9, name))
    return sorted(found)


def module(name):
    """The function of a module, and which part of its proof the module is."""
    name = re.sub(r"^Rattle-\w+?-", "", re.sub(r"(\.decls)?\.oantt$", "", name))
    words = name.split(".")
    here = next((i for i, word in enumerate(words) if i > 0 and word.split("-")[0] in PHASES), len(words))
    part = words[here].split("-")[0] if here < len(words) else "other"
    return ".".join(words[:here]), part


def main():
    crate, lines = sys.argv[1], int(sys.argv[2]) if len(sys.argv) > 2 else 25
    functions, parts, before = collections.Counter(), collections.Counter(), None
    for time, name in files(crate):
        function, part = module(name)
        functions[function] += time - before if before else 0
        parts[part] += time - before if before else 0
        before = time
    for title, counts in (("part", parts), ("function", functions)):
        print(f"seconds by {title}, {sum(counts.values()):.0f} in all")
        for name, seconds in counts.most_common(lines):
            print(f"{seconds:9.1f}  {name}")


main()
