#!/usr/bin/env python3
"""Runs made-up programs with commuting tasks on workers, and judges what they write.

    tools/soak_commuting.py [PROGRAMS] [SEED] [JADE]

Each program is made from its number and the seed alone: objects, nested tasks with immediate and deferred
rights, loops, changes of rights, and commuting tasks that also read other objects. None of them faults. In one
half of the programs all commuting tasks of an object add to its cells, or raise them to a greater number, so
that their order does not matter: `run` with 1 to 8 workers must write what `serial` writes. In the other half
they set, double and exchange numbers, and at most four wait for one object at a time: what `run` writes must be
what some order of each group gives, and what `serial` writes what the order of creation gives. Which texts those
are is found by going through all orders, by a plain reading of the meaning that stands below and knows nothing
of tables and workers. Some tasks count for a while first, so that commuting tasks which read their objects come
after others. The first program that differs is printed with its answers, and the script ends with 1.
"""
import itertools
import random
import sys

from programs import built, run

LIMIT = "1000000"
MOST_ORDERS = 1500
MOST_WAITING = 4


class TooMany(Exception):
    """A program with more orders, or more tasks that wait for one object, than are gone through."""


class Maker:
    """Makes one program: its text, and as a tree what it does."""

    def __init__(self, number, seed):
        self.random = random.Random(f"commuting {seed} {number}")
        self.free = number % 2 == 0
        self.budget = 14 if self.free else 7
        self.names = 0

    def program(self):
        self.sizes = [self.random.randint(1, 3) for _ in range(self.random.randint(1, 4))]
        self.kinds = [self.random.choice(["add", "raise"]) for _ in self.sizes]
        return self.body(0, {o: "both" for o in range(len(self.sizes))}, {}, [])

    def name(self, letter):
        self.names += 1
        return f"{letter}{self.names}"

    def cell(self, objects):
        object = self.random.choice(sorted(objects))
        return object, self.random.randrange(self.sizes[object])

    def value(self, readable, names, depth=0):
        pick = self.random.random()
        if depth > 1 or pick < 0.3:
            return ("number", self.random.randint(0, 9))
        if pick < 0.5 and names:
            return ("name", self.random.choice(names))
        if pick < 0.7 and readable:
            return ("cell", *self.cell(readable))
        kind = self.random.choice(["+", "+", "*"])
        return (kind, self.value(readable, names, depth + 1), self.value(readable, names, depth + 1))

    def small(self, readable, names):
        return ("%", self.value(readable, names), 100)

    def body(self, depth, now, later, names):
        made, now, later, names = [], dict(now), dict(later), list(names)
        for _ in range(self.random.randint(2, 6 if depth == 0 else 3)):
            made.append(self.statement(depth, now, later, names))
            mine = [o for o, right in now.items() if right == "both"]
            if len(mine) > 1 and self.budget > 2 and self.random.random() < 0.25:
                made += self.race(mine, now, names)
        return made

    def race(self, mine, now, names):
        """A task that counts long, a commuting task that reads what that one writes, and one that need not wait."""
        self.budget -= 2
        read, object = self.random.sample(mine, 2)
        slow = [("count", self.name("w"), 30000), ("store", *self.cell([read]), self.small([read], []))]
        late = ("commute", object, [read], [], [self.update(object, [read], [])])
        return [("task", {read: "both"}, {}, [], slow), late, ("commute", object, [], [], [self.update(object, [], [])])]

    def statement(self, depth, now, later, names):
        pick = self.random.random()
        mine = [o for o, right in now.items() if right == "both"]
        both = mine + list(later)
        if self.budget > 0 and both and pick < 0.45:
            self.budget -= 1
            if self.random.random() < 0.5:
                many = self.random.randint(2, 6 if self.free else 3)
                index = self.name("i")
                return ("for", index, many, [self.commuting(both, now, names + [index])])
            return self.commuting(both, now, names)
        if self.budget > 0 and depth < 2 and pick < 0.65:
            self.budget -= 1
            return self.task(depth, now, later, names)
        if pick < 0.75 and later:
            object = self.random.choice(sorted(later))
            del later[object]
            now[object] = "both"
            return ("change", object)
        if pick < 0.85:
            name = self.name("v")
            made = ("int", name, self.small(now, names))
            names.append(name)
            return made
        if mine:
            return ("store", *self.cell(mine), self.small(now, names))
        return ("int", self.name("v"), self.small(now, names))

    def commuting(self, both, now, names):
        object = self.random.choice(both)
        seen = [o for o in now if o != object and self.random.random() < 0.4]
        given = self.random.sample(names, min(len(names), 2))
        updates = [self.update(object, seen, given) for _ in range(self.random.randint(1, 2))]
        return ("commute", object, seen, given, updates)

    def update(self, object, seen, given):
        cell = self.random.randrange(self.sizes[object])
        value = self.small(seen, given)
        if self.free and self.kinds[object] == "add":
            return ("store", object, cell, ("+", ("cell", object, cell), value))
        if self.free:
            return ("raise", object, cell, value)
        other = ("cell", object, self.random.randrange(self.sizes[object]))
        pick = self.random.random()
        if pick < 0.3:
            return ("store", object, cell, value)
        if pick < 0.7:
            return ("store", object, cell, ("%", ("+", ("*", ("number", 2), other), value), 1000))
        return ("store", object, cell, ("%", ("+", other, value), 1000))

    def task(self, depth, now, later, names):
        mine, deferred = {}, {}
        for object, right in sorted({**later, **now}.items()):
            pick = self.random.random()
            if pick < 0.4:
                continue
            if object in later or pick < 0.55:
                if right == "both":
                    deferred[object] = "both"
            elif pick < 0.7 or right == "read":
                mine[object] = "read"
            else:
                mine[object] = "both"
        given = self.random.sample(names, min(len(names), self.random.randint(0, 2)))
        body = self.body(depth + 1, mine, deferred, given)
        if self.random.random() < 0.6:
            body.insert(0, ("count", self.name("w"), self.random.choice([10, 1000, 20000])))
        return ("task", mine, deferred, given, body)


def words(value):
    """The text of a value."""
    kind = value[0]
    if kind == "number":
        return str(value[1])
    if kind == "name":
        return value[1]
    if kind == "cell":
        return f"s{value[1]}[{value[2]}]"
    if kind == "%":
        return f"({words(value[1])}) % {value[2]}"
    return f"({words(value[1])} {kind} {words(value[2])})"


def lines(statements, at):
    """The text of statements, line by line."""
    pad = "    " * at
    for statement in statements:
        kind = statement[0]
        if kind == "store":
            yield f"{pad}s{statement[1]}[{statement[2]}] = {words(statement[3])};"
        elif kind == "raise":
            cell = f"s{statement[1]}[{statement[2]}]"
            yield f"{pad}if {cell} < {words(statement[3])} {{"
            yield f"{pad}    {cell} = {words(statement[3])};"
            yield f"{pad}}}"
        elif kind == "count":
            index = f"i{statement[1]}"
            yield f"{pad}int {statement[1]} = 1;"
            yield f"{pad}for {index} in 0 .. {statement[2]} {{ {statement[1]} = ({statement[1]} * 3 + {index}) % 1000; }}"
        elif kind == "int":
            yield f"{pad}int {statement[1]} = {words(statement[2])};"
        elif kind == "for":
            yield f"{pad}for {statement[1]} in 0 .. {statement[2]} {{"
            yield from lines(statement[3], at + 1)
            yield f"{pad}}}"
        elif kind == "change":
            yield f"{pad}with {{ rd_wr(s{statement[1]}); }} cont;"
        else:
            yield from task_lines(statement, at)


def task_lines(statement, at):
    """The text of a task that is created."""
    pad = "    " * at
    if statement[0] == "commute":
        _, object, seen, given, body = statement
        rights = [f"cm(s{object});"] + [f"rd(s{o});" for o in seen]
    else:
        _, mine, deferred, given, body = statement
        word = {"both": "rd_wr", "read": "rd"}
        rights = [f"{word[r]}(s{o});" for o, r in mine.items()] + [f"df_rd_wr(s{o});" for o in deferred]
    yield f"{pad}withonly {{ {' '.join(rights)} }} do ({', '.join(given)}) {{"
    yield from lines(body, at + 1)
    yield f"{pad}}}"


def text_of(sizes, statements):
    declared = [f"object s{o} : {size};" for o, size in enumerate(sizes)]
    return "\n".join(declared + ["main {"] + list(lines(statements, 1)) + ["}"]) + "\n"


class Meaning:
    """The serial meaning of one program by one choice of orders: the commuting tasks wait by object, and take
    their turns, in the order that is chosen, where the object's group is settled."""

    def __init__(self, sizes, choices):
        self.store = [[0] * size for size in sizes]
        self.waiting = []
        self.choices = choices
        self.counts = []

    def settle(self, object):
        group = [member for member in self.waiting if member[0] == object]
        self.waiting = [member for member in self.waiting if member[0] != object]
        if len(group) > 1:
            group = self.chosen(group)
        for _, body, env, kept in group:
            seen = list(kept)
            seen[object] = self.store[object]
            self.plain(body, env, seen)

    def chosen(self, group):
        if self.choices is None:
            return group
        if len(group) > MOST_WAITING:
            raise TooMany
        orders = list(itertools.permutations(group))
        place = len(self.counts)
        self.counts.append(len(orders))
        return orders[self.choices[place] if place < len(self.choices) else 0]

    def value(self, value, env, cell):
        kind = value[0]
        if kind == "number":
            return value[1]
        if kind == "name":
            return env[value[1]]
        if kind == "cell":
            return cell(value[1], value[2])
        left = self.value(value[1], env, cell)
        if kind == "%":
            return left % value[2]
        right = self.value(value[2], env, cell)
        return left + right if kind == "+" else left * right

    def plain(self, body, env, seen):
        """A commuting task's turn on what it sees."""
        def cell(object, number):
            return seen[object][number]
        for kind, object, number, value in body:
            if kind == "store":
                seen[object][number] = self.value(value, env, cell)
            elif seen[object][number] < self.value(value, env, cell):
                seen[object][number] = self.value(value, env, cell)

    def cell(self, object, number):
        self.settle(object)
        return self.store[object][number]

    def run(self, body, env):
        """The body of a task that does not commute."""
        env = dict(env)
        for statement in body:
            kind = statement[0]
            if kind == "count":
                continue
            if kind == "store":
                value = self.value(statement[3], env, self.cell)
                self.settle(statement[1])
                self.store[statement[1]][statement[2]] = value
            elif kind == "int":
                env[statement[1]] = self.value(statement[2], env, self.cell)
            elif kind == "for":
                for index in range(statement[2]):
                    self.run(statement[3], {**env, statement[1]: index})
            elif kind == "change":
                self.settle(statement[1])
            elif kind == "commute":
                self.join(statement, env)
            else:
                self.create(statement, env)

    def join(self, statement, env):
        _, object, seen, given, body = statement
        for other in sorted(seen):
            self.settle(other)
        kept = [list(cells) for cells in self.store]
        self.waiting.append((object, body, {name: env[name] for name in given}, kept))

    def create(self, statement, env):
        _, mine, _, given, body = statement
        for object in sorted(mine):
            self.settle(object)
        self.run(body, {name: env[name] for name in given})

    def whole(self, body):
        self.run(body, {})
        for object in range(len(self.store)):
            self.settle(object)
        return "".join(f"s{o} = {' '.join(map(str, cells))}\n" for o, cells in enumerate(self.store))


def outcomes(sizes, body):
    """All texts that some choice of orders gives."""
    found, choices, tried = set(), [], 0
    while choices is not None:
        meaning = Meaning(sizes, choices)
        found.add(meaning.whole(body))
        tried += 1
        if tried > MOST_ORDERS:
            raise TooMany
        choices = following(choices, meaning.counts)
    return found


def following(choices, counts):
    """The next choice of orders, if there is one."""
    full = choices + [0] * (len(counts) - len(choices))
    for place in range(len(counts) - 1, -1, -1):
        if full[place] + 1 < counts[place]:
            return full[:place] + [full[place] + 1]
    return None


def made(number, seed):
    """A program with all texts that it may write; where there are too many, the next one that is made."""
    for attempt in range(1000):
        maker = Maker(number + 2 * attempt * 1_000_003, seed)
        body = maker.program()
        serial = Meaning(maker.sizes, None).whole(body)
        if maker.free:
            return maker, body, serial, {serial}
        try:
            return maker, body, serial, outcomes(maker.sizes, body)
        except TooMany:
            continue
    raise SystemExit("soak_commuting: no program is small enough")


def main():
    count = int(sys.argv[1]) if len(sys.argv) > 1 else 300
    seed = int(sys.argv[2]) if len(sys.argv) > 2 else 1
    jade = sys.argv[3] if len(sys.argv) > 3 else built()
    open_ended, others = 0, 0
    for number in range(count):
        maker, body, serial, wanted = made(number, seed)
        text = text_of(maker.sizes, body)
        workers = str(number % 8 + 1)
        first, got = (run([jade, *words, LIMIT], text, seconds=60).answer for words in (["serial"], ["run", workers]))
        open_ended += len(wanted) > 1
        others += got != first
        if first != (0, serial) or got[0] != 0 or got[1] not in wanted:
            print(text)
            print(f"serial: {first}, by the meaning: {serial!r}")
            print(f"run {workers}: {got}, of {len(wanted)} that may be: {sorted(wanted)[:8]}")
            print(f"soak_commuting: program {number} of seed {seed} differs")
            return 1
    print(f"soak_commuting: {count} programs, seed {seed}, on 1 to 8 workers: each wrote what some order gives;")
    print(f"{open_ended} of them have several answers, and {others} wrote another one than `serial`")
    return 0


if __name__ == "__main__":
    sys.exit(main())
