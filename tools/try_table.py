#!/usr/bin/env python3
"""Tries tools/table.py: tables that go into a program and come back, and what is refused.

    tools/try_table.py [JADE]

The last line says how many tables and how many refusals were tried; the script ends with 1 at the first that
is not as it must be.
"""
import random
import sys

from programs import TOP, built, run
from table import LEAST, MOST, Wrong, cells, fill

# The words, what is read, and a part of what is told.
REFUSED = (
    (fill, ("1,2\n3,x\n", "t", "4"), "line 2, cell 2: `x` is no whole number"),
    (fill, ("year,count\n2024,3\n", "t", "4"), "line 1, cell 1: `year` is no whole number"),
    (fill, ("1,2.5\n", "t", "4"), "line 1, cell 2: `2.5` is no whole number"),
    (fill, ("1,,2\n", "t", "4"), "line 1, cell 2: the cell is empty"),
    (fill, (f"{MOST + 1}\n", "t", "4"), "line 1, cell 1: 9223372036854775808 does not fit in 64 bits"),
    (fill, (f"0\n{LEAST - 1}\n", "t", "4"), "line 2, cell 1: -9223372036854775809 does not fit in 64 bits"),
    (fill, ("9" * 5000, "t", "4"), "does not fit in 64 bits"),
    (fill, ("1,2\n3\n", "t", "4"), "line 2 has 1 cells, and line 1 has 2"),
    (fill, ("1\n\n2\n", "t", "4"), "line 2 is empty"),
    (fill, ("1,2,3\n", "t", "2"), "the table has 3 numbers, and t has 2 cells"),
    (fill, ("1,2,3\n", "t[2]", "1"), "the table has 3 numbers, and t[2] has 2 cells"),
    (fill, ("1\n", "t", "0"), "SIZE is a number from 1 to 65536, and not `0`"),
    (fill, ("1\n", "t", "9" * 5000), "SIZE is a number from 1 to 65536, and not `9999"),
    (fill, ("", "t", "4"), "the table is empty"),
    (fill, ("1\f2\n", "t", "4"), "line 1, cell 1: `1\f2` is no whole number"),
    (fill, ("1\n", "t[x]", "1"), "MEMBERS is a number from 1 to 4096, and not `x`"),
    (fill, ("1\n", "2t", "1"), "`2t` names no object and no family"),
    (fill, ("123456789\n" * 65000, "table", "65536"), "bytes, and a text has at most 1048576"),
    (cells, ("s = 1 2\nf[0] = 3\n", "t"), "the answer has no object `t`; it has f, s"),
    (cells, ("fault 4:16 right task 0.0\n", "t"), "the answer has no objects: it is `fault 4:16 right task 0.0`"),
    (cells, ("", "t"), "it is empty"),
    (cells, ("s = 1 2 3\n", "s", "2"), "`s` has 3 cells, which are no whole lines of 2"),
    (cells, ("s = 1 2 3\n", "s", "-1"), "WIDTH is a number from 1 to"),
)


# Spellings that the program does not know, and what is stored of them.
SPELLED = (("+5, -0 ,007\n" + "0" * 5000 + "4,-0012, 0\n", "t[0]=5;\nt[2]=7;\nt[3]=4;\nt[4]=-12;\n"),)


def refusals():
    """Whether what can't be is refused, each with its words."""
    for call, words, part in REFUSED:
        try:
            call(*words)
            told = "nothing"
        except Wrong as wrong:
            told = str(wrong)
        if part not in told:
            print(f"{call.__name__} {words[1:]}: told is {told}, and not {part}")
            return False
    return True


def table(rows, width, seed):
    """A table of numbers of all lengths."""
    pick = random.Random(seed)
    number = lambda: pick.choice((0, LEAST, MOST, pick.randint(-9, 9), pick.randint(LEAST, MOST)))
    return "".join(",".join(str(number()) for _ in range(width)) + "\n" for _ in range(rows))


def comes_back(jade, given, item, word, size, width):
    """Whether a table that a program was filled with comes back by `cells`."""
    name = word.partition("[")[0]
    text = f"{item}\nmain {{\n{fill(given, word, str(size))}}}\n"
    ran = run([jade, "serial", "1000000"], text)
    if ran.status == 0 and cells(ran.text, name, str(width)) == given:
        return True
    print(f"a table does not come back from {item}: {ran.text[:200]}")
    return False


def example(jade):
    """Whether examples/tally.jade has the statements that its table makes, and its answer is what the table has."""
    folder = TOP / "examples"
    given = (folder / "tally.csv").read_text()
    text = (folder / "tally.jade").read_text()
    statements = fill(given, "part[4]", "16")
    ran = run([jade, "serial", "1000000", "10"], text)
    numbers = [int(cell) for line in given.split() for cell in line.split(",")]
    wanted = ",".join(str(sum(number // 10 == at for number in numbers)) for at in range(10)) + "\n"
    if statements in text and cells(ran.text, "total") == wanted:
        return True
    print("examples/tally.jade is not made of examples/tally.csv, or its answer is not the tally of it")
    return False


def main():
    jade = sys.argv[1] if len(sys.argv) > 1 else built()
    tried = [refusals(), all(fill(given, "t", "6") == wanted for given, wanted in SPELLED), example(jade)]
    for seed, (rows, width) in enumerate(((1, 1), (3, 5), (64, 16), (200, 100))):
        given, size = table(rows, width, seed), rows * width
        tried.append(comes_back(jade, given, f"object t : {size};", "t", size, width))
        tried.append(comes_back(jade, given, f"objects t[{rows}] : {width};", f"t[{rows}]", width, width))
    if not all(tried):
        return 1
    print(f"try_table: {len(tried) - 2} tables came back, {len(REFUSED)} refusals as they must be")
    return 0


if __name__ == "__main__":
    sys.exit(main())
