#!/usr/bin/env python3
"""Runs the proved program with some words on standard input, and says more of a fault or a refusal.

    explain.py PROGRAM WORDS < FILE

First stands what the program writes, as it writes it. Where that is a fault or a refusal, the line of
the text follows with a mark under the place, what the word means, and what more there is to tell: of a
refused token what could stand there and which usual mistake it may be (mistakes.py), of a name what it
stands for (names.py), of a procedure or call why it is refused (expander.py), of a fault the values (serial_run.py, which runs the program again, and is believed
only where it comes to the same fault). Refused words and a wrong count of numbers are explained too.
`./jade explain WORDS` calls this. It ends with the program's status. It proves nothing.
"""
import re
import sys

import expander
import mistakes
import names
from programs import run
from serial_run import first_fault, uses_cm

# A text nests 64 brackets at most, and an expression has 256 tokens: so deep is what reads it.
DEPTH = 20_000

# What each word of a refusal means.
REFUSALS = {
    "text": "The text has more than 1,048,576 bytes, which is the longest that is read.",
    "byte": "No token begins with this byte, or it is the 65th byte of a word, which has at most 64.",
    "number": "A number is 0 or begins with 1 to 9, is at most 9223372036854775807, and no letter or _ follows it.",
    "deep": "This bracket would be the 65th that is open at once; at most 64 may be.",
    "token": "No program goes on with this token after what stands before it.",
    "long": "This is the 257th token of one expression; give a part of it to a local first.",
    "name": "This name is not declared here: a task's body sees the items and the names of its do list alone, a procedure's the items and its parameters.",
    "twice": "This name is declared already where it stands; all names share one space.",
    "kind": "An int is needed here and this is a bool, or the other way round, or the name stands for something else.",
    "assign": "A loop variable or an input is not assigned to; copy it to a local.",
    "size": "This number is outside its limit, or with this item the objects, cells or inputs are too many.",
}

# What each word of a refusal means that only texts with procedures have, and what `twice` means of these.
PROCEDURES = {
    "proc": "The form of a procedure or of a call breaks here.",
    "noproc": "What is called is a procedure that stands before the call.",
    "count": "A call has an argument for each parameter of its procedure.",
    "twice": "No two procedures have one name, and no two parameters of a procedure.",
    "grown": "With each call written out as the body of its procedure, the text has more than 1,048,576 bytes, which is the longest that is read.",
}

# What each kind of fault means.
FAULTS = {
    "overflow": "The result of this operator does not fit in 64 bits.",
    "zero": "The divisor is 0.",
    "index": "The object has no cell of this number; cells are numbered from 0.",
    "object": "The family has no member of this number; members are numbered from 0.",
    "right": "The task has no immediate right to this access: declare it in its withonly, or make it immediate by a with.",
    "cover": "The child declares a right that its creator does not have itself, or has given up.",
    "commute": "A task that declares cm declares beside it only reads of other objects, creates no task, and does not change its rights.",
    "change": "The with asks for a right that the task does not have: it was not declared, or was given up.",
    "limit": "One step more than LIMIT would be begun, and a larger LIMIT allows it; a step is a statement, an argument of a call or a turn of a loop.",
}

# What is told of a recording that is not written, or is not right.
RECORDINGS = {
    "record: long": "With its turns, answer and text the recording would have more than 1,048,576 bytes, the most that replay reads.",
    "replay: turns": "The lines `turns` must name declared objects in declared order, and have exactly the turns that the tasks take when"
    " those of each group take them in this order: one is missing, too many, in another group's place, or of a task that does not commute.",
    "replay: answer": "By these turns the program has another answer than the lines after `answer` have.",
}

# What the lines of a recording are, from its first on; the lines after these are any of the last.
LINES = ("`jade record 1`", "`limit LIMIT`, with a LIMIT from 1 to 4294967295", "`numbers` and at most 64 NUMBERs")
LATER = "`turns LABEL PATH..`, or `answer K`, or one of K lines of answer, and then `text`"

# The words of each command, and the most that those may be which are numbers from 1 on.
FORMS = {
    "run": ("WORKERS", "LIMIT", "NUMBER*"),
    "serial": ("LIMIT", "NUMBER*"),
    "record": ("WORKERS", "LIMIT", "NUMBER*"),
    "replay": (),
    "check": (),
    "show": (),
    "expand": (),
    "drill": ("TASKS", "WORKERS"),
}
MOSTS = {"WORKERS": 64, "LIMIT": 4294967295, "TASKS": 10000}

# How much of a long line is shown on either side of the place, in bytes.
WINDOW = 60


def line_with_mark(text, line, column):
    """The line of a place and below it a mark under the column, both as they are printed."""
    lines = text.split(b"\n")
    whole = lines[line - 1] if line <= len(lines) else b""
    begin = max(0, column - 1 - WINDOW)
    before, after = whole[begin : column - 1], whole[column - 1 : column - 1 + WINDOW]
    cut_before = "... " if begin else ""
    cut_after = " ..." if len(whole) > column - 1 + WINDOW else ""
    shown = [piece.decode("utf-8", "replace").replace("\r", " ") for piece in (before, after)]
    blank = "".join("\t" if letter == "\t" else " " for letter in cut_before + shown[0])
    margin = f"{line} | "
    return f"{margin}{cut_before}{shown[0]}{shown[1]}{cut_after}\n{' ' * (len(margin) - 2)}| {blank}^\n"


def at_place(text, line, column):
    """The number of the byte at a place."""
    return sum(len(it) + 1 for it in text.split(b"\n")[: line - 1]) + column - 1


def of_procedures(text, word, line, column):
    """The refusal of a text for its procedures and calls, or for how deep they go, where it is this one."""
    refusal = expander.refusal_of(text) if word == "deep" or word in PROCEDURES else None
    return refusal if refusal and (refusal.word, refusal.place) == (word, (line, column)) else None


def why_refusal(text, word, line, column):
    """What is told of a refused place."""
    refusal = of_procedures(text, word, line, column)
    if refusal:
        return f"{PROCEDURES.get(word) or REFUSALS[word]} {refusal.told}".rstrip()
    more = more_of_refusal(text, word, line, column)
    return more if more and word == "token" else f"{REFUSALS.get(word) or PROCEDURES[word]} {more or ''}".rstrip()


def more_of_refusal(text, word, line, column):
    """What more is told of a refused place than what its word means."""
    if word == "token":
        return mistakes.of_token(text, line, column)
    if word == "byte":
        return mistakes.of_byte(text, at_place(text, line, column))
    if word == "number":
        return mistakes.of_number(text, at_place(text, line, column))
    if word in ("name", "twice", "kind", "assign", "size"):
        return names.of_place(text, word, line, column)
    return None


def same_fault(text, words, place, word, path):
    """The fault as a run here finds it, where that is the same one; none for a run whose updates may come in another order."""
    limit, *numbers = words[2:] if words[0] == "run" else words[1:]
    if words[0] == "run" and uses_cm(text):
        return None
    fault = first_fault(text, [int(number) for number in numbers], int(limit))
    if fault and (fault.kind, fault.task.path, fault.token and fault.token.place) == (word, path, place):
        return fault
    return None


def why_fault(text, words, place, word, path):
    """What is told of a fault."""
    fault = same_fault(text, words, place, word, path)
    whose = "main" if path == "0" else f"the task {path}"
    if not fault and words[0] == "run" and uses_cm(text):
        return f"{FAULTS[word]} It is the first fault in serial order where the updates come as in this run, in {whose}."
    if not fault:
        return f"{FAULTS[word]} It is the first fault in serial order, in {whose}."
    return f"{FAULTS[word]} {fault.told}. It is the first fault in serial order, in {fault.task.told()}{fault.calls}."


def is_count(word, most):
    return re.fullmatch(r"[1-9][0-9]*", word) is not None and int(word[:20]) <= most and len(word) < 20


def why_word(name, word, most):
    """What is wrong with a word that is a number from 1 to the most, or nothing."""
    return None if is_count(word, most) else f"{name} is a number from 1 to {most}, and not `{word}`."


def why_usage(words):
    """What is wrong with words that are refused."""
    if not words or words[0] not in FORMS:
        told = f"`{words[0]}` is no command" if words else "A command is missing"
        return f"{told}; the commands are {', '.join(FORMS)}."
    form = FORMS[words[0]]
    wanted = [name for name in form if name != "NUMBER*"]
    for name, word in zip(wanted, words[1:]):
        told = why_word(name, word, MOSTS[name])
        if told:
            return told
    if len(words) - 1 < len(wanted):
        return f"{wanted[len(words) - 1]} is missing: the words are `{' '.join((words[0], *form))}`."
    if len(form) == len(wanted):
        return f"`{words[len(wanted) + 1]}` is one word too many: the words are `{' '.join((words[0], *form))}`."
    for word in words[len(wanted) + 1 :]:
        if not re.fullmatch(r"0|-?[1-9][0-9]*", word) or not -(2**63) <= int(word[:30]) < 2**63:
            return f"A NUMBER is an int of 64 bits, written without needless signs and zeros, and not `{word}`."
    return "There are at most 64 NUMBERs."


def recorded(text):
    """The text of the program in a recording, and the words that run it."""
    head = re.match(rb"jade record 1\nlimit ([0-9]+)\nnumbers([^\n]*)\n(?:turns [^\n]*\n)*answer ([0-9]+)\n", text)
    lines = text[head.end() :].split(b"\n", int(head[3]) + 1)
    return lines[-1], ["run", "1", head[1].decode(), *head[2].decode().split()]


def why_recording(answer):
    """What is told of a recording that is not written, or is not right."""
    form = re.fullmatch(r"replay: form ([0-9]+)\n", answer)
    if form:
        line = int(form[1])
        wanted = LINES[line - 1] if line <= len(LINES) else LATER
        return f"replay: Line {line} must be {wanted}, with single spaces and a line feed at its end.\n"
    told = answer.rstrip("\n")
    return f"{told.partition(':')[0]}: {RECORDINGS[told]}\n"


def inputs_of(text):
    """The names of a program's inputs."""
    tokens = expander.tokens_of_program(text)
    return [f"`{name.text}`" for word, name in zip(tokens, tokens[1:]) if word.text == "input"]


def why_numbers(text, where):
    """Which numbers a program wants, and where they are given."""
    inputs = inputs_of(text)
    return f"One NUMBER is given for each input, {where}: {', '.join(inputs)}." if inputs else "The program has no inputs."


def explanation(text, words, answer):
    """What is added to an answer: nothing, where there is nothing to explain."""
    fault = re.fullmatch(r"fault (?:([0-9]+):([0-9]+) )?([a-z]+) task ([0-9.]+)\n", answer)
    refusal = re.fullmatch(r"refused ([0-9]+):([0-9]+) ([a-z]+)\n", answer)
    if answer.startswith(("record: ", "replay: ")):
        return why_recording(answer)
    where = "after LIMIT"
    if words[:1] == ["replay"] and answer != "usage\n" and not answer.startswith("refused 1:1 text"):
        where = "in the line `numbers` of the recording"
        text, words = recorded(text)
    if answer == "usage\n":
        return f"usage: {why_usage(words)}\n"
    if answer.startswith("numbers: "):
        return f"numbers: {why_numbers(text, where)}\n"
    if not fault and not refusal:
        return ""
    line, column, word = (refusal or fault).groups()[:3]
    place = (int(line), int(column)) if line else None
    why = why_refusal(text, word, *place) if refusal else why_fault(text, words, place, word, fault[4])
    shown = line_with_mark(text, *place) if place and word not in ("text", "grown") else ""
    return f"{shown}{word}: {why}\n"


def main():
    sys.setrecursionlimit(DEPTH)
    program, *words = sys.argv[1:]
    text = sys.stdin.buffer.read()
    ran = run([program, *words], text)
    sys.stdout.buffer.write(ran.written)
    if ran.status in (1, 2, 3, 4, 8):
        sys.stdout.buffer.write(explanation(text, words, ran.text).encode())
    sys.stdout.buffer.flush()
    return ran.status


if __name__ == "__main__":
    sys.exit(main())
