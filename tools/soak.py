#!/usr/bin/env python3
"""Runs made-up programs on workers and serially, and compares what they write.

    tools/soak.py [PROGRAMS] [SEED] [JADE]

Each program is made from its number and the seed alone: objects and families, nested tasks with immediate
and deferred rights, changes of rights, loops and branches. Three programs in ten are careless: now and then a
task of theirs touches what it did not declare, goes past the end of an object or divides by what may be zero,
and a limit stops some of them; the others end well. Each is run by `serial` and by `run` with 1 to 8 workers;
text and status must be the same. The first program that
differs is printed with both answers, and the script ends with 1.
"""
import random
import sys

from programs import built, run


class Maker:
    """Makes one program."""

    def __init__(self, number, seed):
        self.random = random.Random(f"{seed} {number}")
        self.careless = self.random.random() < 0.3
        self.lines = []
        self.budget = 40

    def put(self, depth, line):
        self.lines.append("    " * depth + line)

    def errs(self, chance):
        """Whether the program does something wrong here."""
        return self.careless and self.random.random() < chance

    def limit(self):
        return str(self.random.choice([12, 60, 1000, 100000]) if self.careless else 100000)

    def program(self):
        pick = self.random
        self.objects = []
        for k in range(pick.randint(1, 4)):
            size = pick.randint(1, 3)
            self.put(0, f"object s{k} : {size};")
            self.objects.append((f"s{k}", size))
        if pick.random() < 0.6:
            count, size = pick.randint(2, 4), pick.randint(1, 2)
            self.put(0, f"objects f[{count}] : {size};")
            self.objects += [(f"f[{i}]", size) for i in range(count)]
        self.put(0, "main {")
        self.body(1, 0, {name: "both" for name, _ in self.objects}, {}, [])
        self.put(0, "}")
        return "\n".join(self.lines) + "\n"

    def size(self, name):
        return dict(self.objects)[name]

    def cell(self, name):
        size = self.size(name)
        if self.errs(0.01):
            return f"{name}[{size}]"
        return f"{name}[{self.random.randrange(size)}]"

    def read(self, now):
        """A cell that may be read, or now and then any."""
        if self.errs(0.01):
            return self.cell(self.random.choice(self.objects)[0])
        mine = [n for n, r in now.items() if r in ("both", "read")]
        return self.cell(self.random.choice(mine)) if mine else str(self.random.randint(0, 9))

    def value(self, now, names, depth=0):
        pick = self.random.random()
        if depth > 2 or pick < 0.25:
            return str(self.random.randint(0, 9))
        if pick < 0.4 and names:
            return self.random.choice(names)
        if pick < 0.7:
            return self.read(now)
        left, right = self.value(now, names, depth + 1), self.value(now, names, depth + 1)
        if self.errs(0.05):
            return f"({left} {self.random.choice('/%')} {right})"
        if self.random.random() < 0.05:
            return f"({left} {self.random.choice('/%')} {self.random.randint(2, 9)})"
        return f"({left} {self.random.choice('+-*+-')} {right})"

    def store(self, at, now, names):
        mine = [n for n, r in now.items() if r in ("both", "write")]
        if self.errs(0.015):
            mine = [n for n, _ in self.objects]
        if not mine:
            self.put(at, f"int v{len(self.lines)} = {self.value(now, names)};")
            return
        value = f"({self.value(now, names)}) % 1000"
        self.put(at, f"{self.cell(self.random.choice(mine))} = {value};")

    def body(self, at, depth, now, later, names):
        """The statements of a body: `now` are the immediate rights by object, `later` the deferred ones."""
        names = list(names)
        for _ in range(self.random.randint(1, 5 if depth == 0 else 3)):
            self.budget -= 1
            pick = self.random.random()
            if self.budget > 0 and depth < 3 and pick < 0.5:
                self.task(at, depth, now, later, names)
            elif pick < 0.7 or self.budget <= 0:
                self.store(at, now, names)
            elif pick < 0.78:
                name = f"v{len(self.lines)}"
                self.put(at, f"int {name} = {self.value(now, names)};")
                names.append(name)
            elif pick < 0.86:
                self.put(at, f"if {self.value(now, names)} < {self.value(now, names)} {{")
                self.store(at + 1, now, names)
                self.put(at, "} else {")
                self.store(at + 1, now, names)
                self.put(at, "}")
            elif pick < 0.93:
                self.loop(at, depth, now, later, names)
            elif later or now:
                self.change(at, now, later)

    def loop(self, at, depth, now, later, names):
        name = f"i{len(self.lines)}"
        self.put(at, f"for {name} in 0 .. {self.random.randint(1, 4)} {{")
        if self.budget > 0 and depth < 2 and self.random.random() < 0.6:
            self.task(at + 1, depth, now, later, names + [name])
        else:
            self.store(at + 1, now, names + [name])
        self.put(at, "}")

    def task(self, at, depth, now, later, names):
        """A task with a part of its creator's rights."""
        words, mine, deferred = [], {}, {}
        have = {n: "both" for n, _ in self.objects} if self.errs(0.02) else {**later, **now}
        for name, right in have.items():
            if self.random.random() < 0.45:
                continue
            kinds = {"both": ["read", "write", "both"], "read": ["read"], "write": ["write"]}[right]
            kind = self.random.choice(kinds)
            word = {"read": "rd", "write": "wr", "both": "rd_wr"}[kind]
            if name in now and name not in later and self.random.random() < 0.75:
                mine[name] = kind
            else:
                deferred[name] = kind
                word = "df_" + word
            words.append(f"{word}({name});")
        given = self.random.sample(names, min(len(names), self.random.randint(0, 2)))
        self.put(at, f"withonly {{ {' '.join(words)} }} do ({', '.join(given)}) {{")
        self.body(at + 1, depth + 1, mine, deferred, given)
        self.put(at, "}")

    def change(self, at, now, later):
        words = []
        for name in list(later):
            if self.random.random() < 0.5:
                kind = later.pop(name)
                now[name] = kind
                words.append({"read": "rd", "write": "wr", "both": "rd_wr"}[kind] + f"({name});")
        for name in list(now):
            if self.random.random() < 0.2:
                kind = now.pop(name)
                later.pop(name, None)
                words.append({"read": "no_rd", "write": "no_wr", "both": "no_rd_wr"}[kind] + f"({name});")
        if words:
            self.put(at, f"with {{ {' '.join(words)} }} cont;")


def answer(jade, words, text):
    return run([jade, *words], text, seconds=60, is_quiet=True).answer


def main():
    count = int(sys.argv[1]) if len(sys.argv) > 1 else 300
    seed = int(sys.argv[2]) if len(sys.argv) > 2 else 1
    jade = sys.argv[3] if len(sys.argv) > 3 else built()
    ends, refused = {}, 0
    for number in range(count):
        maker = Maker(number, seed)
        text, limit = maker.program(), maker.limit()
        wanted = answer(jade, ["serial", limit], text)
        ends[wanted[0]] = ends.get(wanted[0], 0) + 1
        workers = str(number % 8 + 1)
        got = answer(jade, ["run", workers, limit], text)
        if got != wanted:
            print(text)
            print(f"serial {limit}: {wanted}")
            print(f"run {workers} {limit}: {got}")
            print(f"soak: program {number} of seed {seed} differs")
            return 1
    told = ", ".join(f"{many} ended with {end}" for end, many in sorted(ends.items()))
    print(f"soak: {count} programs, seed {seed}: {told}; the same on 1 to 8 workers")
    return 0


if __name__ == "__main__":
    sys.exit(main())
