#!/usr/bin/env python3
"""Brings a table into a program, and an object out of an answer.

    table.py fill NAME SIZE < TABLE.csv         statements that fill the object NAME of SIZE cells
    table.py fill 'NAME[MEMBERS]' SIZE < TABLE.csv      the same for a family
    table.py cells NAME [WIDTH] < ANSWER        the cells of an object, of a member or of a family, as a table

A table has a line for each row, and in it numbers between commas; each row has as many. `fill` stores them
row by row, in a family the first SIZE of them in its first member and so on. A cell that would get 0 gets
no statement, since cells begin with 0. Nothing may be left over; what the table does not reach stays 0.

`cells` reads what `run` or `serial` wrote. With a WIDTH each line has so many numbers; without it a line has
a whole object. `./jade fill` and `./jade cells` call this. What is wrong is told on standard error, with
status 2. docs/GUIDE.md has an example.
"""
import re
import sys

# The most bytes of a text, the most cells of an object, and the most members of a family and objects in all.
TEXT, CELLS, MEMBERS = 1_048_576, 65_536, 4_096

# The least and the greatest number of a cell.
LEAST, MOST = -(2**63), 2**63 - 1

USAGE = "the words are `fill NAME SIZE`, `fill 'NAME[MEMBERS]' SIZE` or `cells NAME [WIDTH]`"


class Wrong(Exception):
    """What is wrong, as it is told."""


def counted(word, what, most):
    """A word as a number from 1 to the most."""
    # Python reads no decimal of thousands of digits.
    if not re.fullmatch(r"[1-9][0-9]{0,18}", word) or int(word) > most:
        raise Wrong(f"{what} is a number from 1 to {most}, and not `{word[:40]}`")
    return int(word)


def number_of(cell, where):
    """A cell of a table as a number."""
    word = cell.strip()
    if not re.fullmatch(r"[+-]?[0-9]+", word):
        told = f"`{word}` is no whole number" if word else "the cell is empty"
        raise Wrong(f"{where}: {told}")
    # Python reads no decimal of thousands of digits.
    digits = word.lstrip("+-").lstrip("0") or "0"
    number = int(digits[:20]) * (-1 if word[0] == "-" else 1)
    if not LEAST <= number <= MOST:
        raise Wrong(f"{where}: {word[:40]} does not fit in 64 bits")
    return number


def rows_of(text):
    """The rows of a table, each of as many numbers."""
    rows, lines = [], re.split(r"\r?\n", text.removeprefix("\ufeff"))
    # The last line may be ended or not.
    if not lines[-1]:
        lines.pop()
    if not lines:
        raise Wrong("the table is empty")
    for place, line in enumerate(lines, 1):
        if not line.strip():
            raise Wrong(f"line {place} is empty")
        row = [number_of(cell, f"line {place}, cell {at}") for at, cell in enumerate(line.split(","), 1)]
        if rows and len(row) != len(rows[0]):
            raise Wrong(f"line {place} has {len(row)} cells, and line 1 has {len(rows[0])}")
        rows.append(row)
    return rows


def spelled(number):
    """A number as an expression: the least one has no numeral."""
    return f"{LEAST + 1}-1" if number == LEAST else str(number)


def target(word, size):
    """Of a NAME or NAME[MEMBERS]: how a cell of it is named, and how many cells it has."""
    found = re.fullmatch(r"([A-Za-z_][A-Za-z0-9_]{0,63})(?:\[(.*)\])?", word)
    if not found:
        raise Wrong(f"`{word}` names no object and no family; {USAGE}")
    name, members = found.groups()
    if members is None:
        return (lambda place: f"{name}[{place}]"), size
    return (lambda place: f"{name}[{place // size}][{place % size}]"), counted(members, "MEMBERS", MEMBERS) * size


def fill(text, word, size):
    """The statements that store a table."""
    cell, room = target(word, counted(size, "SIZE", CELLS))
    numbers = [number for row in rows_of(text) for number in row]
    if len(numbers) > room:
        raise Wrong(f"the table has {len(numbers)} numbers, and {word} has {room} cells")
    lines = [f"{cell(place)}={spelled(number)};\n" for place, number in enumerate(numbers) if number]
    length, fit = 0, 0
    for line in lines:
        length += len(line)
        fit += length <= TEXT
    if length > TEXT:
        raise Wrong(f"the statements have {length} bytes, and a text has at most {TEXT}: so many hold {fit} of the {len(lines)} numbers other than 0")
    return "".join(lines)


def objects_of(answer):
    """The objects of an answer, by their labels."""
    if not answer:
        raise Wrong("the answer has no objects: it is empty")
    objects = {}
    for line in answer.splitlines():
        found = re.fullmatch(r"([A-Za-z_][A-Za-z0-9_]*(?:\[[0-9]+\])?) = (-?[0-9]+(?: -?[0-9]+)*)", line)
        if not found:
            raise Wrong(f"the answer has no objects: it is `{line[:60]}`")
        objects[found[1]] = found[2].split(" ")
    return objects


def cells(answer, name, width=None):
    """The cells of an object, or of all members of a family, as a table."""
    objects = objects_of(answer)
    found = [objects[name]] if name in objects else [objects[it] for it in objects if it.startswith(name + "[")]
    if not found:
        names = ", ".join(sorted({it.partition("[")[0] for it in objects}))
        raise Wrong(f"the answer has no object `{name}`; it has {names}")
    if width:
        every, width = [cell for row in found for cell in row], counted(width, "WIDTH", CELLS * MEMBERS)
        if len(every) % width:
            raise Wrong(f"`{name}` has {len(every)} cells, which are no whole lines of {width}")
        found = [every[place : place + width] for place in range(0, len(every), width)]
    return "".join(",".join(row) + "\n" for row in found)


def made(words, text):
    """What the words make of what was read."""
    if words[:1] == ["fill"] and len(words) == 3:
        return fill(text, *words[1:])
    if words[:1] == ["cells"] and len(words) in (2, 3):
        return cells(text, *words[1:])
    raise Wrong(USAGE)


def main():
    words = sys.argv[1:]
    try:
        sys.stdout.write(made(words, sys.stdin.buffer.read().decode("utf-8", "replace")))
    except Wrong as wrong:
        sys.stderr.write(f"{words[0] if words[:1] in (['fill'], ['cells']) else 'table'}: {wrong}\n")
        return 2
    return 0


if __name__ == "__main__":
    sys.exit(main())
