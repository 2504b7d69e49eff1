#!/usr/bin/env python3
"""edits_counted.py PROGRAM: millions of instructions, by callgrind, of the first build, of one behind no edit, and of the put and build of one body,
over libraries of 200, 1,000 and 4,000 packages, every fiftieth with a body, that one main unit names. It is no test.
"""
import re
import subprocess
import sys
from concurrent.futures import ThreadPoolExecutor


def put(name, text):
    return f"put {name} {len(text)}\n{text}\n"


def body(value):
    return f"   procedure Q is\n   begin\n      X := {value};\n   end Q;\n"


def library(count):
    """The packages and the main unit that names them all."""
    texts = []
    for at in range(count):
        has_body = at % 50 == 0
        texts.append(put(f"p{at}.ads", f"package P{at} is\n   X : Integer := {at};\n{'   procedure Q;' if has_body else ''}\nend P{at};\n"))
        if has_body:
            texts.append(put(f"p{at}.adb", f"package body P{at} is\n{body(1)}end P{at};\n"))
    named = "".join(f"with P{at};\n" for at in range(count))
    return "".join(texts) + put("main.adb", f"{named}procedure Main is\nbegin\n   P0.X := 1;\nend Main;\n")


def counted(stream):
    words = ["valgrind", "--tool=callgrind", "--callgrind-out-file=/dev/null", sys.argv[1]]
    done = subprocess.run(words, input=stream.encode(), capture_output=True)
    return int(re.search(rb"Collected : (\d+)", done.stderr)[1]) / 1e6


def main():
    build = "build main\n"
    edit = put("p0.adb", f"package body P0 is\n{body(2)}end P0;\n")
    for count in (200, 1000, 4000):
        read = library(count)
        streams = [read, read + build, read + build + build, read + build + edit + build]
        with ThreadPoolExecutor(4) as runs:
            put_alone, first, again, edited = runs.map(counted, streams)
        print(f"{count} packages: first build {first - put_alone:.1f}, no edit {again - first:.3f}, one body {edited - first:.3f}", flush=True)


if __name__ == "__main__":
    main()
