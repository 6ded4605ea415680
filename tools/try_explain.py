#!/usr/bin/env python3
"""Tries what tools/explain.py says more of an answer, on made-up texts.

    tools/try_explain.py [TEXTS] [SEED] [JADE]

The programs of tools/soak.py are run as they are, and broken by a token left out, doubled or replaced; and the texts of
tools/soak_expand.py, which have procedures. Where the proved program refuses a token, a procedure or a call, or tells a fault,
the reading and the run of this folder must come to the same place, kind and task; where it refuses a name, something must be
told of it. The last line says how many there were of each; the script ends with 1 at the first that differs.
"""
import random
import re
import sys

import explain
import mistakes
import soak
import soak_expand
from jade_text import tokens_of
from programs import built, run

# What a token is replaced by.
OTHERS = "; } { ) ( ] [ = == .. , : + - ! < && do cont else if for in int bool rd df_wr no_rd cm main object a s0 7 true".split()


def broken(text, pick):
    """A text with one token left out, doubled or replaced."""
    token = pick.choice(tokens_of(text.encode())[:-1])
    lines = text.split("\n")
    line, at = lines[token.line - 1], token.column - 1
    new = pick.choice(("", f"{token.text} {token.text}", pick.choice(OTHERS)))
    lines[token.line - 1] = line[:at] + " " + new + " " + line[at + len(token.text) :]
    return "\n".join(lines)


def made(number, seed):
    """A text, and a limit."""
    if number % 2:
        maker = soak_expand.Maker(number, seed)
        return maker.text(), maker.limit()
    maker, pick = soak.Maker(number, seed), random.Random(f"{seed} {number} broken")
    text, limit = maker.program(), maker.limit()
    return (broken(text, pick) if number % 3 else text).encode(), limit


def is_told(jade, text, limit):
    """The word of the answer, and whether what more is told of it fits."""
    words = ["serial", limit, *["7" for _ in explain.inputs_of(text)]]
    ran = run([jade, *words], text, seconds=60)
    refusal = re.fullmatch(r"refused ([0-9]+):([0-9]+) ([a-z]+)\n", ran.text)
    fault = re.fullmatch(r"fault (?:([0-9]+):([0-9]+) )?([a-z]+) task ([0-9.]+)\n", ran.text)
    if refusal:
        line, column, word = int(refusal[1]), int(refusal[2]), refusal[3]
        more = explain.of_procedures(text, word, line, column) or explain.more_of_refusal(text, word, line, column)
        return word, more is not None
    if fault:
        place = (int(fault[1]), int(fault[2])) if fault[1] else None
        return fault[3], explain.same_fault(text, words, place, fault[3], fault[4]) is not None
    place = mistakes.refused_in(text)
    return "ok", ran.status == 0 and place is None and explain.first_fault(text, [7] * len(words[2:]), int(limit)) is None


def main():
    sys.setrecursionlimit(explain.DEPTH)
    count = int(sys.argv[1]) if len(sys.argv) > 1 else 300
    seed = int(sys.argv[2]) if len(sys.argv) > 2 else 1
    jade = sys.argv[3] if len(sys.argv) > 3 else built()
    found = {}
    for number in range(count):
        text, limit = made(number, seed)
        word, fits = is_told(jade, text, limit)
        if not fits:
            print(f"{text.decode('latin-1')}\ntry_explain: text {number} of seed {seed}, with LIMIT {limit}, is told otherwise than as {word}")
            return 1
        found[word] = found.get(word, 0) + 1
    print(f"try_explain: {count} texts, seed {seed}: " + ", ".join(f"{many} {word}" for word, many in sorted(found.items())))
    return 0


if __name__ == "__main__":
    sys.exit(main())
