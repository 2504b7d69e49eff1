#!/usr/bin/env python3
"""reach.py [CRATE ..]: what a change costs. Of these crates, or of those whose files differ from the last commit: which crates the gate proves anew at most, in the
order in which they are proved, each with the seconds that docs/GATE.md has for it; their sum, and the longest chain of crates that wait for each other.

Fewer are proved where a library stays as it was, byte for byte: `rt ci` proves a crate anew where its files differ, or a library below does.
"""
import pathlib
import re
import subprocess
import sys

ROOT = pathlib.Path(__file__).resolve().parent.parent


def named_libraries():
    """The crates of crates.txt, each behind those that it names, with the crates that it names."""
    named, order = {}, {}
    for line in (ROOT / "crates.txt").read_text().splitlines():
        name, colon, rest = line.partition("#")[0].partition(":")
        if colon:
            named[name.split()[0]] = rest.split()

    def add(name):
        if name in named and name not in order:
            for library in named[name]:
                add(library)
            order[name] = [it for it in named[name] if it in named]

    for name in named:
        add(name)
    return order


def changed_crates():
    """The crates of which files that a proof reads differ from the last commit, or are new."""
    said = subprocess.run(["git", "status", "--porcelain", "-uall"], cwd=ROOT, stdout=subprocess.PIPE, text=True, check=True).stdout
    return {found[1] for found in re.finditer(r"\bcrates/(\w+)/(?:src|specs|proofs)/", said)}


def reached_by(changed, named):
    """These crates and all that stand on them, in the order of `named`."""
    reached = []
    for name, libraries in named.items():
        if name in changed or not set(reached).isdisjoint(libraries):
            reached.append(name)
    return reached


def seconds_of_crates():
    """What each crate's proofs and tests take, by the table of the gate's page."""
    page = (ROOT / "docs" / "GATE.md").read_text()
    return {found[1]: int(found[2]) for found in re.finditer(r"^\| `(\w+)` \| (\d+) \|", page, re.MULTILINE)}


def longest_chain(reached, named, seconds):
    """The crates of the dearest chain of these, lowest first, and its seconds."""
    chains = {}
    for name in reached:
        names, took = max((chains[it] for it in named[name] if it in chains), key=lambda it: it[1], default=([], 0))
        chains[name] = [*names, name], took + seconds.get(name, 0)
    return max(chains.values(), key=lambda it: it[1], default=([], 0))


def main(names):
    named, seconds = named_libraries(), seconds_of_crates()
    changed = set(names) or changed_crates()
    if not changed <= set(named):
        sys.exit(f"crates.txt has no crate {min(changed - set(named))}")
    reached = reached_by(changed, named)
    for name in reached:
        print(f"{name:24}{seconds.get(name, 0):6} s{'  changed' if name in changed else ''}")
    chain, took = longest_chain(reached, named, seconds)
    print(f"{len(changed)} crates changed; {len(reached)} of {len(named)} are proved anew: {sum(seconds.get(it, 0) for it in reached)} of {sum(seconds.values())} s")
    print(f"the longest chain takes {took} s: {', '.join(chain)}")
    return 0


if __name__ == "__main__":
    sys.exit(main(sys.argv[1:]))
