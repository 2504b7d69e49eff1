#!/usr/bin/env python3
"""growth.py PROGRAM [WORD ..]: what a build takes of texts that grow in one way, at n, 2n and 4n (with words, those ways whose names have one of them).

A line for each way: the processor time of put and build in milliseconds and the greatest memory in megabytes, at each size, each the
least of two runs, and the power of n by which the time grew from 2n to 4n. Where it is linear that is 1. It is no test.
"""
import math
import os
import re
import subprocess
import sys
import tempfile


def put(name, text):
    return f"put {name} {len(text)}\n{text}\n"


def procedure(declarations, statements="null;"):
    return put("m.adb", f"procedure M is\n{declarations}\nbegin\n{statements}\nend M;\n")


def lines(count, line, first=0):
    return "\n".join(line(at) for at in range(first, first + count))


def dotted_mark(n):
    return procedure(f"X : A{'.B' * n};")


def dotted_use(n):
    return procedure(f"use A{'.B' * n};")


def records_in_records(n):
    return procedure("type R0 is record C : Integer; end record;\n" + lines(n, lambda i: f"type R{i} is record C : R{i - 1}; end record;", 1) + f"\nX : R{n};")


def arrays_in_arrays(n):
    return procedure("type A0 is array (1 .. 1) of Integer;\n" + lines(n, lambda i: f"type A{i} is array (1 .. 1) of A{i - 1};", 1) + f"\nX : A{n};")


def selectors(n):
    """A name through records in records."""
    types = "type R0 is record C : Integer; end record;\n" + lines(n, lambda i: f"type R{i} is record C : R{i - 1}; end record;", 1)
    return procedure(f"{types}\nX : R{n};", f"X{'.C' * (n + 1)} := 1;")


def wrong_selectors(n):
    """A name in an expression none of whose selectors is there."""
    return procedure("X : Integer;", f"X := X{'.B' * n};")


def wrong_indexes(n):
    """Indexes one behind the other, after the name of an array of integers."""
    return procedure("A : array (1 .. 2) of Integer;\nX : Integer;", f"X := A{'(1)' * n};")


def use_types(n):
    types = lines(n, lambda i: f"type T{i} is range 0 .. 9;")
    users = lines(n, lambda i: f"use type P.T{i};")
    return put("p.ads", f"package P is\n{types}\nX : T0;\nend P;\n") + put("m.adb", f"with P;\nprocedure M is\n{users}\nbegin\n{lines(n, lambda i: 'P.X := P.X + P.X;')}\nend M;\n")


def elaborate_all(n):
    return (
        put("p0.ads", "package P0 is X : Integer := 1; end P0;\n")
        + "".join(put(f"p{i}.ads", f"with P{i - 1}; pragma Elaborate_All (P{i - 1});\npackage P{i} is X : Integer := P{i - 1}.X; end P{i};\n") for i in range(1, n))
        + put("m.adb", f"with P{n - 1};\nprocedure M is begin P{n - 1}.X := 1; end M;\n")
    )


def overloads(n):
    types = lines(n, lambda i: f"type T{i} is range 0 .. 9;\nfunction F (X : T{i}) return Integer is begin return 1; end F;\nX{i} : T{i} := 1;")
    return procedure(f"{types}\nY : Integer;", lines(n, lambda i: f"Y := F (X{i});"))


def one_call_of_overloads(n):
    types = lines(n, lambda i: f"type T{i} is range 0 .. 9;\nfunction F (X : T{i}) return Integer is begin return 1; end F;")
    return procedure(f"{types}\nX0 : T0 := 1;\nY : Integer;", "Y := F (X0);")


def sum_of_numbers(n):
    return procedure("X : Integer;", "X := 1" + " + 1" * n + ";")


def sum_of_variables(n):
    return procedure("X : Integer := 1;", "X := X" + " + X" * n + ";")


def arguments(n):
    names = ", ".join(f"A{i}" for i in range(n))
    return procedure(f"procedure F ({names} : Integer) is begin null; end F;", f"F ({', '.join('1' for _ in range(n))});")


def wrong_arguments(n):
    return procedure("X : Integer;\nprocedure F (X : Integer) is begin null; end F;", f"F ({', '.join(['X'] * n)});")


def components(n):
    """An aggregate of so many records without components."""
    return procedure(f"type N is null record;\nX : N;\nA : array (1 .. {n}) of N := ({', '.join(['X'] * n)});")


def wrong_attributes(n):
    return procedure("X : Integer;", "X := X" + "'First" * n + ";")


def names_after_dots(n):
    return procedure("X : Integer;", f"M{'.M' * n};")


def selected_objects(n):
    """Selectors, indexes, attributes and calls, joined by an operator."""
    declarations = "type R is record C : Integer; end record;\nX : R;\nA : array (1 .. 2) of Integer;\nY : Integer;\nfunction F (Z : Integer) return Integer is begin return Z; end F;"
    return procedure(declarations, "Y := Y" + " + X.C + A (1) + A'First + F (1)" * (n // 4) + ";")


def short_circuits(n):
    return procedure("B : Boolean := True;", "B := B" + " and then B" * n + ";")


def strings(n):
    images = " & ".join(["Integer'Image (X)"] * n)
    return put("m.adb", f"with Ada.Text_IO;\nprocedure M is\nX : Integer := 1;\nbegin\nAda.Text_IO.Put ({images});\nend M;\n")


def minus_numbers(n):
    return procedure("X : Integer := 1;", "X := X" + " - 1" * n + ";")


def protected_object(heads, bodies):
    return (
        put("p.ads", f"package P is\nprotected O is\n{heads}\nprivate\nC : Integer := 0;\nend O;\nend P;\n")
        + put("p.adb", f"package body P is\nprotected body O is\n{bodies}\nend O;\nend P;\n")
        + put("m.adb", "with P;\nprocedure M is begin P.O.P0; end M;\n")
    )


def operations(n):
    """Operations of a protected object, each with its body."""
    return protected_object(lines(n, lambda i: f"procedure P{i};"), lines(n, lambda i: f"procedure P{i} is begin C := {i}; end P{i};"))


def operations_by_turns(n):
    """Procedures and functions by turns, so that each body has the components in another form than the one before."""
    heads = lines(n // 2, lambda i: f"procedure P{i};\nfunction F{i} return Integer;")
    bodies = lines(n // 2, lambda i: f"procedure P{i} is begin C := {i}; end P{i};\nfunction F{i} return Integer is begin return C; end F{i};")
    return protected_object(heads, bodies)


def calls_of_operations(n):
    """As many calls as the protected object has operations."""
    heads = lines(n, lambda i: f"procedure P{i};")
    return put("p.ads", f"package P is\nprotected O is\n{heads}\nend O;\nend P;\n") + put("m.adb", f"with P;\nprocedure M is\nbegin\n{lines(n, lambda i: f'P.O.P{i};')}\nend M;\n")


def types_of_a_record(n):
    types = lines(n, lambda i: f"type T{i} is range 0 .. 9;")
    return procedure(f"{types}\ntype R is record\n{lines(n, lambda i: f'C{i} : T{i};')}\nend record;")


def types_of_a_profile(n):
    types = lines(n, lambda i: f"type T{i} is range 0 .. 9;")
    return procedure(f"{types}\nprocedure F ({'; '.join(f'X{i} : T{i}' for i in range(n))}) is begin null; end F;")


def names_of_a_with_clause(n):
    return put("p.ads", "package P is X : Integer; end P;\n") + put("m.adb", f"with {', '.join(['P'] * n)};\nuse {', '.join(['P'] * n)};\nprocedure M is begin X := 1; end M;\n")


def stubs(n):
    return (
        put("m.adb", f"procedure M is\n{lines(n, lambda i: f'procedure S{i} is separate;')}\nbegin\nnull;\nend M;\n")
        + "".join(put(f"m-s{i}.adb", f"separate (M)\nprocedure S{i} is begin null; end S{i};\n") for i in range(n))
    )


def use_clauses(n):
    packages = "".join(put(f"p{i}.ads", f"package P{i} is X{i} : Integer; end P{i};\n") for i in range(n))
    withs = lines(n, lambda i: f"with P{i}; use P{i};")
    return packages + put("m.adb", f"{withs}\nprocedure M is\nbegin\n{lines(n, lambda i: f'X{i} := 1;')}\nend M;\n")


def literals(n):
    types = lines(n, lambda i: f"type T{i} is (Red, L{i});\nX{i} : T{i} := Red;")
    return procedure(types)


def identifiers(n):
    return procedure(", ".join(f"X{i}" for i in range(n)) + " : Integer;")


def literals_of_one_type(n):
    return procedure("type T is (" + ", ".join(f"L{i}" for i in range(n)) + ");")


def declarations(n):
    return procedure(lines(n, lambda i: f"X{i} : Integer := {i};"))


def statements(n):
    return procedure("X : Integer := 0;", lines(n, lambda i: "X := X + 1;"))


def branches(n):
    return procedure("B : Boolean := False;", "if B then null;" + " elsif B then null;" * n + " end if;")


def choices(n):
    return procedure("X : Integer := 0;", f"case X is when {'|'.join(str(choice) for choice in range(n))} => null; when others => null; end case;")


def membership_tests(n):
    """Of which each keeps its value in a word of the frame."""
    return procedure("X : Integer := 0;\nB : Boolean;", "B := " + " or ".join(["X in 0 .. 2"] * n) + ";")


def package(name, declarations, body=None):
    file = name.lower().replace(".", "-")
    text = put(f"{file}.ads", f"package {name} is\n{declarations}\nend {name};\n")
    return text if body is None else text + put(f"{file}.adb", f"package body {name} is\n{body}\nend {name};\n")


def main(names, declarations="", statements="null;", use=False):
    """A main unit with a with clause for each of these, and a use clause if asked."""
    clauses = lines(len(names), lambda i: f"with {names[i]};" + (f" use {names[i]};" if use else ""))
    return put("m.adb", f"{clauses}\nprocedure M is\n{declarations}\nbegin\n{statements}\nend M;\n")


def integer_types(n):
    return lines(n, lambda i: f"type T{i} is range 0 .. 9;\nX{i} : T{i} := 1;")


def each_added(n):
    return lines(n, lambda i: f"X{i} := X{i} + 1;")


def types_each_added(n):
    return procedure(integer_types(n), each_added(n))


def types_not_used(n):
    return procedure(integer_types(n))


def enumerations_each_compared(n):
    return procedure(lines(n, lambda i: f"type T{i} is (A{i}, B{i});\nX{i} : T{i} := A{i};\nOk{i} : Boolean;"), lines(n, lambda i: f"Ok{i} := X{i} = B{i};"))


def types_of_used_packages_each_added(n):
    packages = "".join(package(f"P{i}", f"type T{i} is range 0 .. 9;\nX{i} : T{i} := 1;") for i in range(n))
    return packages + main([f"P{i}" for i in range(n)], statements=each_added(n), use=True)


def types_of_a_used_package_each_added(n):
    return package("P", integer_types(n)) + main(["P"], statements=each_added(n), use=True)


def names_of_a_used_package(n):
    return package("P", lines(n, lambda i: f"X{i} : Integer := 1;")) + main(["P"], statements=lines(n, lambda i: f"X{i} := 1;"), use=True)


def selected_names_of_a_package(n):
    return package("P", lines(n, lambda i: f"X{i} : Integer := 1;")) + main(["P"], statements=lines(n, lambda i: f"P.X{i} := 1;"))


def literals_each_used(n):
    return procedure("type T is (" + ", ".join(f"L{i}" for i in range(n)) + ");\nX : T;", lines(n, lambda i: f"X := L{i};"))


def alternatives_of_literals(n):
    alternatives = lines(n, lambda i: f"when L{i} => Y := {i};")
    return procedure("type T is (" + ", ".join(f"L{i}" for i in range(n)) + ");\nX : T := L0;\nY : Integer := 0;", f"case X is\n{alternatives}\nend case;")


def siblings_with_bodies(n):
    children = "".join(package(f"P.C{i}", "procedure Q;", "procedure Q is begin X := X + 1; end Q;") for i in range(n))
    return package("P", "X : Integer := 1;") + children + main([f"P.C{i}" for i in range(n)], statements=lines(n, lambda i: f"P.C{i}.Q;"))


def procedures_of_a_body(n):
    heads = lines(n, lambda i: f"procedure Q{i} (A : in out Integer);")
    bodies = lines(n, lambda i: f"procedure Q{i} (A : in out Integer) is L : Integer := A; begin A := L + {i}; end Q{i};")
    return package("P", heads, bodies) + main(["P"], "X : Integer := 0;", "P.Q0 (X);")


def procedures_that_call_the_one_before(n):
    first = "procedure Q0 (A : in out Integer) is begin A := 1; end Q0;\n"
    return procedure(first + lines(n, lambda i: f"procedure Q{i} (A : in out Integer) is begin Q{i - 1} (A); end Q{i};", 1))


def calls_with_three_arguments(n):
    head = "procedure Q (A : Integer; B : Integer; C : out Integer)"
    return package("P", f"{head};", f"{head} is begin C := A + B; end Q;") + main(["P"], "X : Integer := 0;", lines(n, lambda i: f"P.Q (X, {i}, X);"))


def objects_of_a_wide_record(n):
    record = "type R is record\n" + lines(100, lambda i: f"C{i} : Integer;") + "\nend record;\n"
    return procedure(record + lines(n, lambda i: f"X{i} : R;"), lines(n, lambda i: f"X{i}.C{i % 100} := {i};"))


def components_each_set(n):
    return procedure("type R is record\n" + lines(n, lambda i: f"C{i} : Integer;") + "\nend record;\nX : R;", lines(n, lambda i: f"X.C{i} := {i};"))


def blocks(n):
    return procedure("X : Integer := 0;", lines(n, lambda i: f"declare Y{i} : Integer := X; begin X := Y{i} + 1; end;"))


def loops(n):
    return procedure("X : Integer := 0;", lines(n, lambda i: "for I in 1 .. 10 loop X := X + I; end loop;"))


def constants_of_the_one_before(n):
    return procedure("C0 : constant Integer := 0;\n" + lines(n, lambda i: f"C{i} : constant Integer := (C{i - 1} + 1) mod 1000;", 1))


def subtypes_of_the_one_before(n):
    return procedure("subtype S0 is Integer range 0 .. 100;\n" + lines(n, lambda i: f"subtype S{i} is S{i - 1} range 0 .. 100;", 1) + f"\nX : S{n} := 1;")


def array_types_each_indexed(n):
    return procedure(lines(n, lambda i: f"type A{i} is array (1 .. 10) of Integer;\nX{i} : A{i};"), lines(n, lambda i: f"X{i} (3) := X{i} (4);"))


def private_types_with_functions(n):
    partial = lines(n, lambda i: f"type T{i} is private; function F{i} (X : T{i}) return Integer;")
    full = lines(n, lambda i: f"type T{i} is range 0 .. 9;")
    bodies = lines(n, lambda i: f"function F{i} (X : T{i}) return Integer is begin return Integer (X); end F{i};")
    objects = lines(n, lambda i: f"X{i} : P.T{i};") + "\nY : Integer;"
    return package("P", f"{partial}\nprivate\n{full}", bodies) + main(["P"], objects, lines(n, lambda i: f"Y := P.F{i} (X{i});"))


def lines_put_out(n):
    return main(["Ada.Text_IO"], statements=lines(n, lambda i: f'Put_Line ("number" & Integer\'Image ({i}));'), use=True)


def with_clauses(n):
    return "".join(package(f"P{i}", "X : Integer := 1;") for i in range(n)) + main([f"P{i}" for i in range(n)], statements=lines(n, lambda i: f"P{i}.X := 1;"))


def layers_of_64(n):
    texts = []
    for layer in range(n):
        withs = "".join(f"with L{layer - 1}P{j}; " for j in range(64)) if layer else ""
        for i in range(64):
            value = f" + L{layer - 1}P{i}.X" if layer else ""
            texts.append(put(f"l{layer}p{i}.ads", f"{withs}package L{layer}P{i} is X : Integer := 1{value}; end L{layer}P{i};\n"))
    return "".join(texts) + main([f"L{n - 1}P{i}" for i in range(64)], statements=f"L{n - 1}P0.X := 1;")


def tasks_in_packages(n):
    return "".join(package(f"P{i}", f"task T{i};", f"task body T{i} is begin loop null; end loop; end T{i};") for i in range(n)) + main([])


def protected_objects_each_called(n):
    heads = lines(n, lambda i: f"protected O{i} is\nprocedure Up;\nfunction Get return Integer;\nprivate\nC : Integer := 0;\nend O{i};")
    bodies = lines(n, lambda i: f"protected body O{i} is\nprocedure Up is begin C := C + 1; end Up;\nfunction Get return Integer is begin return C; end Get;\nend O{i};")
    return package("P", heads, bodies) + main(["P"], "X : Integer;", lines(n, lambda i: f"P.O{i}.Up; X := P.O{i}.Get;"))


def entries(n):
    heads = lines(n, lambda i: f"protected O{i} is\nentry Wait;\nprocedure Go;\nprivate\nB : Boolean := False;\nend O{i};")
    bodies = lines(n, lambda i: f"protected body O{i} is\nentry Wait when B is begin B := False; end Wait;\nprocedure Go is begin B := True; end Go;\nend O{i};")
    return package("P", heads, bodies) + main(["P"], statements="P.O0.Go;")


def elaborate_all_of_one(n):
    base = package("B", "function F return Integer;", "function F return Integer is begin return 1; end F;")
    users = "".join(put(f"p{i}.ads", f"with B; pragma Elaborate_All (B);\npackage P{i} is X : Integer := B.F; end P{i};\n") for i in range(n))
    return base + users + main([f"P{i}" for i in range(n)])


def elaborate_all_of_ten(n):
    """Each package has a pragma for each of the ten before it."""
    clauses = lambda i: "".join(f"with P{j}; pragma Elaborate_All (P{j}); " for j in range(max(0, i - 10), i))
    return "".join(put(f"p{i}.ads", f"{clauses(i)}package P{i} is X : Integer := 1; end P{i};\n") for i in range(n)) + main([f"P{n - 1}"])


def wrong_names(n):
    return procedure("X : Integer;", lines(n, lambda i: f"X := Nothing{i};"))


def comments(n):
    return procedure("X : Integer;\n" + lines(n, lambda i: "-- a comment of some length that says nothing at all"))


def units_that_use_one(n):
    """Packages whose bodies each call ten procedures of one package, under a use clause."""
    base = package("B", lines(50, lambda i: f"X{i} : Integer := 1;\nprocedure Q{i} (A : Integer);"), lines(50, lambda i: f"procedure Q{i} (A : Integer) is begin X{i} := A; end Q{i};"))
    calls = lambda i: lines(10, lambda j: f"Q{(i + j) % 50} (X{(i * 3 + j) % 50});")
    users = "".join(
        package(f"P{i}", "procedure R;") + put(f"p{i}.adb", f"with B; use B;\npackage body P{i} is\nprocedure R is begin\n{calls(i)}\nend R;\nend P{i};\n") for i in range(n)
    )
    return base + users + main([f"P{i}" for i in range(n)], statements="P0.R;")


WAYS = [
    ("parts of a mark", dotted_mark, 4_000),
    ("parts of a use clause", dotted_use, 4_000),
    ("records in records", records_in_records, 100),
    ("arrays in arrays", arrays_in_arrays, 100),
    ("selectors of a name", selectors, 100),
    ("selectors that are not there", wrong_selectors, 1_000),
    ("indexes that are not there", wrong_indexes, 500),
    ("use type clauses", use_types, 100),
    ("a chain of Elaborate_All", elaborate_all, 250),
    ("overloads of a name, each called", overloads, 100),
    ("overloads of a name, one called", one_call_of_overloads, 200),
    ("1 + 1 + ..", sum_of_numbers, 2_000),
    ("X + X + ..", sum_of_variables, 2_000),
    ("membership tests", membership_tests, 2_000),
    ("X - 1 - 1 ..", minus_numbers, 2_000),
    ("short circuits", short_circuits, 2_000),
    ("images joined by &", strings, 2_000),
    ("selectors, indexes, attributes, calls", selected_objects, 2_000),
    ("attributes that are not there", wrong_attributes, 2_000),
    ("names after dots in a call", names_after_dots, 2_000),
    ("arguments of a call", arguments, 2_000),
    ("arguments that are too many", wrong_arguments, 2_000),
    ("components of an aggregate", components, 2_000),
    ("names of a with and a use clause", names_of_a_with_clause, 2_000),
    ("operations of a protected object", operations, 2_000),
    ("functions and procedures by turns", operations_by_turns, 125),
    ("calls of these", calls_of_operations, 500),
    ("types of the components of a record", types_of_a_record, 250),
    ("types of the formals of a profile", types_of_a_profile, 250),
    ("stubs with their subunits", stubs, 250),
    ("packages with use clauses", use_clauses, 100),
    ("types with a literal of one name", literals, 100),
    ("identifiers of a declaration", identifiers, 2_000),
    ("literals of a type", literals_of_one_type, 2_000),
    ("declarations", declarations, 1_000),
    ("statements", statements, 1_000),
    ("branches of an if", branches, 2_000),
    ("choices of an alternative", choices, 2_000),
    ("integer types, each added", types_each_added, 200),
    ("integer types that are not used", types_not_used, 500),
    ("enumeration types, each compared", enumerations_each_compared, 200),
    ("types of used packages, each added", types_of_used_packages_each_added, 100),
    ("types of a used package, each added", types_of_a_used_package_each_added, 200),
    ("names of a used package", names_of_a_used_package, 2_000),
    ("selected names of a package", selected_names_of_a_package, 2_000),
    ("literals, each used", literals_each_used, 2_000),
    ("alternatives, each for a literal", alternatives_of_literals, 1_000),
    ("children with bodies", siblings_with_bodies, 250),
    ("procedures of a package body", procedures_of_a_body, 1_000),
    ("procedures, each calls the one before", procedures_that_call_the_one_before, 1_000),
    ("calls with three arguments", calls_with_three_arguments, 1_000),
    ("objects of a wide record", objects_of_a_wide_record, 250),
    ("components, each set", components_each_set, 250),
    ("blocks", blocks, 500),
    ("loops", loops, 500),
    ("constants, each of the one before", constants_of_the_one_before, 1_000),
    ("subtypes, each of the one before", subtypes_of_the_one_before, 500),
    ("array types, each indexed", array_types_each_indexed, 500),
    ("private types with functions", private_types_with_functions, 250),
    ("lines put out", lines_put_out, 500),
    ("with clauses of a unit", with_clauses, 500),
    ("layers of 64 packages", layers_of_64, 4),
    ("tasks in packages", tasks_in_packages, 250),
    ("protected objects, each called", protected_objects_each_called, 100),
    ("protected objects with an entry", entries, 250),
    ("Elaborate_All of one package", elaborate_all_of_one, 100),
    ("Elaborate_All of the ten before", elaborate_all_of_ten, 50),
    ("names that are not there", wrong_names, 1_000),
    ("lines of comments", comments, 4_000),
    ("units that use one package", units_that_use_one, 250),
]


def spent(program, stream):
    """Processor time in milliseconds, greatest memory in megabytes, and the last line that was written, of one run."""
    with tempfile.TemporaryFile() as given, tempfile.TemporaryFile() as written:
        given.write(stream)
        given.seek(0)
        child = subprocess.Popen([program], stdin=given, stdout=written, stderr=subprocess.DEVNULL)
        _, status, usage = os.wait4(child.pid, 0)
        child.returncode = status
        written.seek(0)
        reply = written.read()
    last = re.sub(rb"\d+", b"n", reply.rstrip(b"\n").rsplit(b"\n", 1)[-1]).decode("latin-1") if status == 0 else f"ended by {status}"
    return (usage.ru_utime + usage.ru_stime) * 1000, usage.ru_maxrss / 1024, last


def measured(program, stream):
    runs = [spent(program, stream) for _ in range(2)]
    if runs[0][0] < 2000:
        runs.append(spent(program, stream))
    return min(it[0] for it in runs), min(it[1] for it in runs), runs[0][2]


def tell(program, what, way, n):
    figures = [measured(program, (way(size) + "build m\n").encode()) for size in (n, 2 * n, 4 * n)]
    least = spent(program, b"")[0]
    times = [max(0.1, it[0] - least) for it in figures]
    power = math.log2(times[2] / times[1])
    shown = "   ".join(f"{size:>6}: {time:>8.1f} ms {it[1]:>6.0f} MB" for size, time, it in zip((n, 2 * n, 4 * n), times, figures))
    print(f"{what:<38} {shown}   n^{power:.1f}   {figures[2][2][:40]}", flush=True)


def run():
    program = os.path.abspath(sys.argv[1])
    for what, way, n in WAYS:
        if not sys.argv[2:] or any(word in what for word in sys.argv[2:]):
            tell(program, what, way, n)


if __name__ == "__main__":
    run()
