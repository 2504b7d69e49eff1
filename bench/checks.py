#!/usr/bin/env python3
"""checks.py PROGRAM OTHER [ROUNDS|instructions]: what the check of texts takes of two programs, which run by turns, so that one run tells before and after.

A line for each text: processor time in milliseconds of a build, less that of the same session without it, of each program the least of so many
rounds (9); and by how much the second one is faster. With `instructions` it counts by callgrind (of valgrind), in millions, which tells the same under
any load. Both must give the same replies. It is no test.
"""
import pathlib
import re
import resource
import subprocess
import sys


def put(name, text):
    return f"put {name} {len(text)}\n{text}\n"


def lines(count, line, first=0):
    return "\n".join(line(at) for at in range(first, first + count))


def procedure(declarations, statements="null;"):
    return put("m.adb", f"procedure M is\n{declarations}\nbegin\n{statements}\nend M;\n")


def statements(n):
    return procedure("X : Integer := 1;", lines(n, lambda i: f"X := X + {i};"))


def objects(n):
    return put("p.ads", f"package P is\n{lines(n, lambda i: f'X{i} : Integer := {i};')}\nend P;\n") + put("m.adb", "with P;\nprocedure M is\nbegin\nP.X0 := 1;\nend M;\n")


def units(n):
    """Each of them names eight others."""
    texts = (
        put(f"u{i}.ads", "".join(f"with U{i - j}; " for j in range(1, min(i, 8) + 1)) + f"package U{i} is\nX : Integer := 1;\nend U{i};\n")
        for i in range(n)
    )
    return "".join(texts) + put("m.adb", f"with U{n - 1};\nprocedure M is\nbegin\nU{n - 1}.X := 2;\nend M;\n")


def with_clauses(n):
    """One unit that names so many."""
    texts = "".join(put(f"u{i}.ads", f"package U{i} is\nend U{i};\n") for i in range(n))
    return texts + put("m.adb", lines(n, lambda i: f"with U{i};") + "\nprocedure M is\nbegin\nnull;\nend M;\n")


def children(n):
    """Packages in packages, each with a body, and one that names the innermost."""
    name = lambda i: ".".join(f"P{j}" for j in range(i + 1))
    file = lambda i: "-".join(f"p{j}" for j in range(i + 1))
    texts = (
        put(f"{file(i)}.ads", f"package {name(i)} is\nprocedure Q;\nend {name(i)};\n") + put(f"{file(i)}.adb", f"package body {name(i)} is\nprocedure Q is\nbegin\nnull;\nend Q;\nend {name(i)};\n")
        for i in range(n)
    )
    return "".join(texts) + put("m.adb", f"with {name(n - 1)};\nprocedure M is\nbegin\n{name(n - 1)}.Q;\nend M;\n")


def faults(n):
    """One unit with so many."""
    return procedure("X : Integer := 1;", lines(n, lambda i: f"Y{i} := 1;"))


def faulty_units(n):
    """So many units that one names, each with a fault."""
    texts = "".join(put(f"u{i}.ads", f"package U{i} is\nX : Integer := Y;\nend U{i};\n") for i in range(n))
    return texts + put("m.adb", lines(n, lambda i: f"with U{i};") + "\nprocedure M is\nbegin\nnull;\nend M;\n")


TEXTS = [
    ("statements in one unit", statements, 20000),
    ("objects in one unit", objects, 8000),
    ("units that each name eight", units, 1000),
    ("with clauses of one unit", with_clauses, 1000),
    ("packages in packages, with bodies", children, 12),
    ("faults in one unit", faults, 8000),
    ("units with a fault", faulty_units, 1000),
]


def spent_by(program, stream):
    """The processor time of a session, in milliseconds, and its replies."""
    before = resource.getrusage(resource.RUSAGE_CHILDREN)
    done = subprocess.run([program], input=stream.encode(), stdout=subprocess.PIPE, stderr=subprocess.PIPE)
    after = resource.getrusage(resource.RUSAGE_CHILDREN)
    return (after.ru_utime - before.ru_utime + after.ru_stime - before.ru_stime) * 1000, done.stdout


def counted_of(program, stream):
    """The instructions of a session, in millions, and its replies."""
    words = ["valgrind", "--tool=callgrind", "--callgrind-out-file=/dev/null", program]
    done = subprocess.run(words, input=stream.encode(), stdout=subprocess.PIPE, stderr=subprocess.PIPE)
    return int(re.search(rb"Collected : (\d+)", done.stderr)[1]) / 1e6, done.stdout


def by_turns(programs, streams, rounds, spent_by):
    """The least that each program takes of each session, and whether the programs' replies are the same."""
    best = [[float("inf")] * len(streams) for _ in programs]
    same = True
    for _ in range(rounds):
        for at, stream in enumerate(streams):
            replies = []
            for of, program in enumerate(programs):
                spent, reply = spent_by(program, stream)
                best[of][at] = min(best[of][at], spent)
                replies.append(reply)
            same = same and all(reply == replies[0] for reply in replies)
    return best, same


def main():
    programs = [str(pathlib.Path(word).resolve()) for word in sys.argv[1:3]]
    instructions = sys.argv[3:] == ["instructions"]
    rounds = 1 if instructions else int(sys.argv[3]) if sys.argv[3:] else 9
    spent = counted_of if instructions else spent_by
    print(f"{'':<36} {'':>7} {'first':>9} {'second':>9}")
    differ = 0
    for what, make, n in TEXTS:
        texts = make(n)
        best, same = by_turns(programs, [texts, texts + "build m\n"], rounds, spent)
        first, second = (built - read for read, built in best)
        less = f"{(1 - second / first) * 100:>6.1f} % less" if first > 0 else ""
        print(f"{what:<36} {n:>7} {first:>9.1f} {second:>9.1f} {less}{'' if same else '   OTHER REPLIES'}", flush=True)
        differ += not same
    return 1 if differ else 0


if __name__ == "__main__":
    sys.exit(main())
