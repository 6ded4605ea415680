#!/usr/bin/env python3
"""Records runs of made-up programs with commuting tasks, and replays the recordings, as they are and changed.

    tools/soak_replay.py [PROGRAMS] [SEED] [JADE]

The programs are those of tools/soak_commuting.py. Each is recorded with 1 to 8 workers. The recording must have the
form of docs/LANGUAGE.md, turns that a plain reading of the meaning takes when it goes by them, and the answer that it
comes to; `replay` must say `same`. Then turns are exchanged, left out, doubled or moved to another object, and `replay`
must say `same`, `replay: turns` or `replay: answer` as the plain reading by these turns does. Of some recordings each
beginning is tried, and copies with one line left out, doubled or changed: the first line that is not of the form must be
told as a plain check of the form tells it. The first recording that differs is printed, and the script ends with 1; so it
does where one of the three verdicts on changed turns never came. The programs have no inputs, families or faults.
"""
import random
import re
import sys

from programs import built, run
from soak_commuting import LIMIT, Maker, Meaning, text_of

VERDICTS = ("same\n", "replay: turns\n", "replay: answer\n")

# So many programs have their recordings cut and their lines changed.
BROKEN = 12


class Listed(Meaning):
    """The serial meaning by turn lists: those of a group whom the list names come first, in its order, then the others."""

    def __init__(self, sizes, lists):
        super().__init__(sizes, None)
        self.lists = lists
        self.turns = [[] for _ in sizes]
        self.path, self.children = (0,), 0

    def next_path(self):
        self.children += 1
        return (*self.path, self.children - 1)

    def settle(self, object):
        group = [member for member in self.waiting if member[0] == object]
        self.waiting = [member for member in self.waiting if member[0] != object]
        for path in self.lists[object]:
            for member in [it for it in group if it[4] == path]:
                group.remove(member)
                self.turn(member)
        for member in group:
            self.turn(member)

    def turn(self, member):
        object, body, env, kept, path = member
        self.turns[object].append(path)
        seen = list(kept)
        seen[object] = self.store[object]
        self.plain(body, env, seen)

    def join(self, statement, env):
        _, object, seen, given, body = statement
        for other in sorted(seen):
            self.settle(other)
        kept = [list(cells) for cells in self.store]
        self.waiting.append((object, body, {name: env[name] for name in given}, kept, self.next_path()))

    def create(self, statement, env):
        path, self.path = self.path, self.next_path()
        children, self.children = self.children, 0
        super().create(statement, env)
        self.path, self.children = path, children


def judged(sizes, body, lists, answer):
    """What a plain reading says of turn lists and an answer."""
    meaning = Listed(sizes, lists)
    text = meaning.whole(body)
    if meaning.turns != [list(it) for it in lists]:
        return "replay: turns\n"
    return "same\n" if text == answer else "replay: answer\n"


def recording(lists, answer, text):
    """The recording of these turns and this answer."""
    turns = [f"turns s{o} {' '.join('.'.join(map(str, path)) for path in paths)}\n" for o, paths in enumerate(lists) if paths]
    return f"jade record 1\nlimit {LIMIT}\nnumbers\n{''.join(turns)}answer {answer.count(chr(10))}\n{answer}text\n{text}"


def read(written, objects):
    """The turn lists and the answer of a recording that was written."""
    head = re.match(r"jade record 1\nlimit [0-9]+\nnumbers\n((?:turns [^\n]*\n)*)answer ([0-9]+)\n", written)
    lists = [[] for _ in range(objects)]
    for line in head[1].splitlines():
        _, label, *paths = line.split(" ")
        lists[int(label[1:])] = [tuple(map(int, path.split("."))) for path in paths]
    return lists, "".join(written[head.end() :].splitlines(keepends=True)[: int(head[2])])


def changed_once(lists, pick):
    """Turn lists with one change, which may leave them as they are."""
    lists = [list(paths) for paths in lists]
    some = [paths for paths in lists if paths]
    paths = pick.choice(some) if some else pick.choice(lists)
    kind = pick.choice(["neighbours", "neighbours", "neighbours", "exchange", "leave out", "double", "move", "strange"])
    if kind == "strange" or not paths:
        paths.insert(pick.randint(0, len(paths)), (0, pick.randint(0, 3)))
        return lists
    place = pick.randrange(len(paths))
    other = pick.randrange(len(paths)) if kind != "neighbours" else (place + 1) % len(paths)
    if kind in ("neighbours", "exchange"):
        paths[place], paths[other] = paths[other], paths[place]
    elif kind == "double":
        paths.insert(other, paths[place])
    else:
        path = paths.pop(place)
        if kind == "move":
            pick.choice(lists).append(path)
    return lists


def changed(lists, pick):
    """Other turn lists, with one change."""
    while (other := changed_once(lists, pick)) == lists:
        pass
    return other


NUMBER = b"(?:0|[1-9][0-9]*)"
LABEL = rb"[A-Za-z_][A-Za-z0-9_]*(?:\[" + NUMBER + rb"\])?"
PATH = b"0(?:\\." + NUMBER + b")*"


def is_below(digits, most):
    return all(int(it) < most for it in digits)


def takes(stage, line):
    """The stage after a line, or nothing where it may not stand there."""
    if stage == "head":
        return "limit" if line == b"jade record 1" else None
    if stage == "limit":
        found = re.fullmatch(b"limit ([1-9][0-9]*)", line)
        return "numbers" if found and int(found[1]) <= 4294967295 else None
    if stage == "numbers":
        found = re.fullmatch(b"numbers((?: (?:0|-?[1-9][0-9]*))*)", line)
        numbers = [int(it) for it in found[1].split()] if found else [2**63]
        return "turns" if len(numbers) <= 64 and all(-(2**63) <= it < 2**63 for it in numbers) else None
    if stage == "turns" and line.startswith(b"turns "):
        found = re.fullmatch(b"turns (" + LABEL + b")((?: " + PATH + b")+)", line)
        fits = found and is_below(re.findall(rb"[0-9]+", found[2]), 2**32) and is_below(re.findall(rb"\[([0-9]+)", found[1]), 2**32)
        return "turns" if fits else None
    if stage == "turns":
        found = re.fullmatch(b"answer (" + NUMBER + b")", line)
        return int(found[1]) if found and int(found[1]) <= 4096 else None
    if stage == 0:
        return "text" if line == b"text" else None
    return stage - 1


def broken_line(data):
    """The number of the first line that is not of the form of a recording, or is missing; nothing where there is none."""
    stage, number = "head", 1
    while stage != "text":
        line, feed, data = data.partition(b"\n")
        stage = takes(stage, line) if feed else None
        if stage is None:
            return number
        number += 1
    return None


def answered(jade, words, given):
    """The status with which a command ends, and what it writes."""
    ran = run([jade, *words], given, seconds=60)
    return ran.status, ran.written


def is_told(jade, data):
    """Whether `replay` tells the first broken line of some bytes as the plain check does, or says something of a recording."""
    line, (status, told) = broken_line(data), answered(jade, ["replay"], data)
    if line is not None:
        return (status, told) == (8, b"replay: form %d\n" % line)
    if status in (2, 4):
        return told.startswith((b"refused ", b"numbers: "))
    return told.decode() in VERDICTS and status == (0 if told == b"same\n" else 8)


def copies(data, pick):
    """Each beginning of a recording's lines before the text, and copies with one of them left out, doubled or changed."""
    head = data.index(b"\ntext\n") + 6
    yield from (data[:length] for length in range(head + 1))
    lines = data.splitlines(keepends=True)
    for place in range(data[:head].count(b"\n")):
        line = lines[place]
        other = bytearray(line)
        other[pick.randrange(len(other))] = pick.choice(b" 0179-.[]sx\n")
        for new in (b"", line + line, bytes(other), line.replace(b" ", b"  ", 1), line[:-1] + b" \n"):
            yield b"".join(lines[:place]) + new + b"".join(lines[place + 1 :])


def told(jade, data, wanted):
    """Whether `replay` says what is wanted of a recording; where not, both are printed."""
    status = 0 if wanted == "same\n" else 8
    got = answered(jade, ["replay"], data.encode())
    if got == (status, wanted.encode()):
        return True
    print(f"{data}\nreplay: {got}, wanted {wanted!r}")
    return False


def is_right(jade, number, seed, found):
    """Whether one program is recorded and replayed as it must be."""
    maker, pick = Maker(number, seed), random.Random(f"replay {seed} {number}")
    body = maker.program()
    text = text_of(maker.sizes, body)
    status, written = answered(jade, ["record", str(number % 8 + 1), LIMIT], text.encode())
    lists, answer = read(written.decode(), len(maker.sizes)) if status == 0 else ([], "")
    if written.decode() != recording(lists, answer, text) or judged(maker.sizes, body, lists, answer) != "same\n":
        print(f"{text}\nrecord: {status}\n{written.decode()}")
        return False
    if not told(jade, written.decode(), "same\n"):
        return False
    for _ in range(3):
        other = changed(lists, pick)
        wanted = judged(maker.sizes, body, other, answer)
        found[wanted] = found.get(wanted, 0) + 1
        if not told(jade, recording(other, answer, text), wanted):
            return False
    if number < BROKEN:
        for data in copies(written, pick):
            found["lines"] = found.get("lines", 0) + 1
            if not is_told(jade, data):
                print(f"{data!r}\nreplay: {answered(jade, ['replay'], data)}, wanted line {broken_line(data)}")
                return False
    return True


def main():
    count = int(sys.argv[1]) if len(sys.argv) > 1 else 300
    seed = int(sys.argv[2]) if len(sys.argv) > 2 else 1
    jade = sys.argv[3] if len(sys.argv) > 3 else built()
    found = {}
    for number in range(count):
        if not is_right(jade, number, seed, found):
            print(f"soak_replay: program {number} of seed {seed} differs")
            return 1
    said = ", ".join(f"{found.get(it, 0)} {it.strip()}" for it in VERDICTS)
    print(f"soak_replay: {count} programs, seed {seed}, recorded on 1 to 8 workers and replayed: same; with turns changed: {said};")
    print(f"{found.get('lines', 0)} copies with a line or the end cut or changed were told as a plain check tells them")
    return 0 if all(it in found for it in VERDICTS) else 1


if __name__ == "__main__":
    sys.exit(main())
