#!/usr/bin/env python3
"""growths.py PROGRAM STDIN STDOUT: refuses each growth of memory in turn, in a program that does once more what found no memory.

The program must write what it always writes; or, where the growth is one of reading its input, nothing, with exit status 1. It is
for al_engine_runs, and no part of the gate. Prints how many growths were refused.
"""
import sys
import tempfile

from memory import Refuser


def main():
    program, given, wanted = sys.argv[1], open(sys.argv[2], "rb").read(), open(sys.argv[3], "rb").read()
    with tempfile.TemporaryDirectory() as folder:
        refuser = Refuser(program, folder)
        growth, outside, wrong = 1, 0, 0
        while True:
            (status, output, _), refused = refuser.run(given, growth)
            if not refused:
                break
            if status == 1 and output == b"":
                outside += 1
            elif (status, output) != (0, wanted):
                wrong += 1
                print(f"growth {growth}: status {status}, {output[-200:]}")
            growth += 1
        print(f"{growth - 1} growths refused in turn, {outside} of them in reading the input; {wrong} wrong")
    sys.exit(wrong > 0 or (status, output) != (0, wanted))


main()
