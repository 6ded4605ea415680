#!/usr/bin/env python3
"""Writes made-up programs with procedures without these, and runs both.

    tools/soak_expand.py [TEXTS] [SEED] [JADE]
    tools/soak_expand.py [TEXTS] [SEED] --plain

Each text is made from its number and the seed alone. Its procedures nest, double and share names with items, locals,
parameters and each other; calls stand in bodies, sections and loops; some procedures are called nowhere and have any tokens
between their braces. Half of the texts are broken then, by tokens that are left out, doubled, exchanged or put in, or are
heaps of pieces of heads and calls. What `expand` writes must be what tools/expander.py does, byte for byte. Where that is
no refusal, `show`, `check`, `serial` and `run` must do with the text as with the expanded text, each place in what they
write traced back to the source; and a recording of the text must be replayed as `same`. At last come a text whose
expansion has one byte less than the most, just the most, and one more, and one with 30,000 calls in one another.
The first text that differs is printed, and the script ends with 1. With `--plain` nothing is run but the plain expander.
"""
import random
import re
import sys
import time

import expander
from explain import inputs_of
from programs import built, run

NAMES = ("a", "b", "c", "f", "g", "h", "n", "s", "t", "v0", "v1", "v3")
ITEMS = {"n": "input n ;", "s": "object s : 2 ;", "t": "object t : 1 ;", "m": "objects m [ 2 ] : 1 ;"}
# The cells that programs touch, and the objects with these.
CELLS = {"s": ("s [ 0 ]", "s [ 1 ]"), "t": ("t [ 0 ]",), "m": ("m [ 0 ] [ 0 ]", "m [ 1 ] [ 0 ]")}
OBJECTS = {"s": ("s",), "t": ("t",), "m": ("m [ 0 ]", "m [ 1 ]")}

# What a text is broken with, and what heaps are made of.
ODD = "( ) [ ] { } ; , else proc main int bool f g a s v0 1 = # 007 object".split()
PIECES = (
    *ODD, "proc f ( ) { }", "proc g ( int a ) { a = v0 ; }", "proc f ( int a , bool b ) { s [ 0 ] = a ; }", "proc h ( ) { f ( ) ; g ( 1 ) ; }",
    "proc g ( int a , int a ) {", "proc f ( int", "proc f ( ) {", "proc f ( int f (", "f ( ) ;", "g ( 1 ) ;", "f ( 1 , a < 2 ) ;", "; f ( 1 , 2 )",
    "g ( 1 , ) ;", "g ( , ) ;", "g ( ( a , a ) ) ;", "{ f ( [ 1 ] ) ;", "g ( { ; } ) ;", "f ( ) ; else { }", "f ( ]", "object s : 1 ;", "input a ;", "main {",
    "main { f ( ) ; g ( 1 ) ; }",
)  # fmt: skip

# How much of a text or an answer that differs is printed.
SHOWN = 4000


class Maker:
    """Makes one text."""

    def __init__(self, number, seed):
        self.random = random.Random(f"expand {seed} {number}")
        self.number, self.careless, self.budget = number, 0.02 if number % 3 else 0, 60
        # The procedures so far: their names, the kinds of their parameters, and where they may be called.
        self.procedures = []

    def text(self):
        if self.number % 4 == 3:
            words = " ".join(self.random.choices(PIECES, k=self.random.randint(1, 14))).split(" ")
        else:
            words = self.program().split()
        for _ in range(self.random.randint(1, 2) if self.number % 4 == 2 else 0):
            words = self.broken(words)
        return "".join(word + self.random.choice((" ", " ", " ", "\n", "\t", "  ", " // proc f ( a\n")) for word in words).encode()

    def limit(self):
        return self.random.choice(("5", "40", "20000"))

    def errs(self):
        return self.random.random() < self.careless

    def broken(self, words):
        """Some words with one change."""
        place, other = self.random.randrange(len(words)), self.random.randrange(len(words))
        kind = self.random.choice(("leave out", "double", "exchange", "put in", "put in"))
        words = [*words, "main"]
        if kind == "exchange":
            words[place], words[other] = words[other], words[place]
        elif kind == "leave out":
            del words[place]
        else:
            words[place:place] = [words[place]] if kind == "double" else self.random.choice(PIECES).split(" ")
        return words[:-1] or ["main"]

    def program(self):
        self.items = [name for name in ITEMS if name == "s" or self.random.random() < 0.6]
        items, parts = [ITEMS[name] for name in self.items], []
        for _ in range(self.random.randint(1, 6)):
            parts.append(self.nonsense() if self.random.random() < 0.15 else self.procedure())
        while items:
            parts.insert(self.random.randint(0, len(parts)), items.pop())
        scope = {"n": "input"} if "n" in self.items else {}
        return " ".join([*parts, "main {", *self.body(scope, 0, "body"), "}"])

    def nonsense(self):
        """A procedure that nothing calls."""
        words = self.random.choices("if else 1 = a s ; , + object proc main rd in ..".split(), k=self.random.randint(0, 8))
        for brackets in self.random.sample(("( )", "[ ]", "{ }"), self.random.randint(0, 2)):
            place = self.random.randint(0, len(words))
            words[place:place] = ["+", *brackets.split()]
        return " ".join(("proc", f"u{self.random.randint(0, 99)}", "( ) {", *words, "}"))

    def procedure(self):
        known = [name for name, _, _ in self.procedures]
        name = self.random.choice([name for name in NAMES if name not in known or self.errs()])
        where = self.random.choice(("body", "body", "section", "both"))
        params = self.random.sample(NAMES, self.random.randint(0, 3)) if self.errs() else self.random.sample(self.free({}), self.random.randint(0, 3))
        scope = {param: self.random.choice(("int", "bool")) for param in params}
        head = " , ".join(f"{scope[param]} {self.random.choice(params) if self.errs() else param}" for param in params)
        body = self.body(dict(scope), 1, where)
        self.procedures.append((name, list(scope.values()), where))
        return " ".join(("proc", name, "(", head, ") {", *body, "}"))

    def free(self, scope):
        """Names that may be declared."""
        return [name for name in NAMES if name not in scope and name not in self.items or self.errs()] or ["x"]

    def body(self, scope, depth, where):
        """Statements, which add to the names in scope."""
        return [self.statement(scope, depth, where) for _ in range(self.random.randint(0 if depth else 1, 4))]

    def inner(self, scope, depth, where):
        return " ".join(("{", *self.body(dict(scope), depth + 1, where), "}"))

    def statement(self, scope, depth, where):
        """A statement of a body, of a section, or one that may stand in both."""
        self.budget -= 1
        pick = self.random.random()
        fitting = [it for it in self.procedures if it[2] in (where, "both") or self.errs()]
        variables = [name for name, kind in scope.items() if kind in ("int", "bool")]
        if fitting and pick < 0.4:
            return self.call(self.random.choice(fitting[-3:]), scope)
        if variables and pick < 0.5:
            name = self.random.choice(variables)
            return f"{name} = {self.value(scope, scope[name])} ;"
        if pick < 0.7 or depth > 2 or self.budget < 0:
            return self.local(scope) if where == "both" or pick < 0.57 else self.touch(scope, where)
        if pick < 0.78:
            other = self.random.choice(("", f"else {self.inner(scope, depth, where)}"))
            return f"if {self.value(scope, 'bool')} {self.inner(scope, depth, where)} {other}"
        if pick < 0.84 or where != "body":
            name = self.random.choice(self.free(scope))
            return f"for {name} in 0 .. {self.random.randint(0, 3)} {self.inner({**scope, name: 'loop'}, depth, where)}"
        return self.task(scope, depth) if pick < 0.96 else f"with {self.inner(scope, depth, 'section')} cont ;"

    def touch(self, scope, where):
        """A declaration, or a store."""
        if where == "section":
            return f"rd_wr ( {self.random.choice(self.objects())} ) ;"
        return f"{self.cell(scope)} = {self.value(scope, 'int')} ;"

    def call(self, procedure, scope):
        name, kinds, _ = procedure
        kinds = kinds[1:] if self.errs() else kinds
        return f"{name} ( {' , '.join(self.value(scope, kind) for kind in kinds)} ) ;"

    def local(self, scope):
        name, kind = self.random.choice(self.free(scope)), self.random.choice(("int", "bool"))
        value = self.value(scope, kind)
        scope[name] = kind
        return f"{kind} {name} = {value} ;"

    def task(self, scope, depth):
        rights = [f"rd_wr ( {name} ) ;" for name in self.objects() if self.random.random() < 0.9]
        variables = [name for name, kind in scope.items() if kind != "input"]
        given = self.random.sample(variables, self.random.randint(0, len(variables)))
        inside = {name: "bool" if scope[name] == "bool" else "int" for name in given}
        inside.update({name: kind for name, kind in scope.items() if kind == "input"})
        section = " ".join(("{", *rights, *self.body(dict(scope), depth + 1, "section"), "}"))
        return f"withonly {section} do ( {' , '.join(given)} ) {self.inner(inside, depth, 'body')}"

    def objects(self):
        return [name for item in self.items for name in OBJECTS.get(item, ())]

    def cell(self, scope, depth=0):
        if self.random.random() < 0.15:
            return f"s [ {self.value(scope, 'int', depth + 1)} % 3 ]"
        return self.random.choice([cell for item in self.items for cell in CELLS.get(item, ())])

    def value(self, scope, kind, depth=0):
        if self.errs():
            return self.random.choice((*NAMES, "1", "true"))
        names = [name for name, it in scope.items() if (it == "bool") == (kind == "bool")]
        pick = self.random.random()
        if names and pick < 0.4:
            return self.random.choice(names)
        if kind == "bool" and pick < 0.6:
            return self.random.choice(("true", "false"))
        if depth > 1 or kind == "int" and pick < 0.6:
            return str(self.random.randint(0, 9)) if kind == "int" else "true"
        if kind == "int" and pick < 0.75:
            return self.cell(scope, depth)
        left, right = self.value(scope, "int", depth + 1), self.value(scope, "int", depth + 1)
        return f"( {left} {self.random.choice('+-*/%' if kind == 'int' else ('<', '=='))} {right} )"


def doubling(levels):
    """A text whose calls come to as many times two."""
    parts = ["object s : 1 ; proc p0 ( int a ) { s [ 0 ] = a ; }"]
    parts += [f"proc p{level} ( int a ) {{ p{level - 1} ( a ) ; p{level - 1} ( 2 ) ; }}" for level in range(1, levels)]
    return "\n".join([*parts, f"main {{ p{levels - 1} ( 1 ) ; }}\n"]).encode()


def as_long(length):
    """A text whose expansion has so many bytes."""
    calls = length // 26 - 20
    head, tail = "object s : 1;\nproc f() { s[0] = 1; }\nmain {\n", "f();\n" * calls + "}\n"
    expanded = len("object s : 1 ; main { }\n") + 26 * calls
    pieces = []
    while expanded < length:
        # A local takes 11 bytes and those of its name; the last takes what is left.
        name = 50 if length - expanded >= 76 else length - expanded - 11
        pieces.append(f"int {'a' * (name - 3)}{len(pieces):03} = 1;\n")
        expanded += 11 + name
    return (head + "".join(pieces) + tail).encode()


def in_one_another(calls):
    """A text with so many procedures, each of which calls the one before."""
    parts = [f"proc p{number}() {{ p{number - 1}(); }}\n" for number in range(1, calls)]
    return f"proc p0() {{ }}\n{''.join(parts)}main {{ p{calls - 1}(); }}\n".encode()


def expected(text):
    """What `expand` must do with a text, and the expanded text, if there is one."""
    try:
        expanded = expander.expand(text)
    except expander.Refusal as refusal:
        return (2, f"{refusal}\n".encode()), None
    return (0, expanded.text), expanded


def answer(jade, words, text):
    ran = run([jade, *words], text, seconds=120, is_quiet=True)
    return ran.status, ran.written


def traced(expanded, answer):
    """An answer to an expanded text with its place traced back to the source."""
    status, written = answer
    found = re.match(rb"(refused|fault) ([0-9]+):([0-9]+) ", written)
    if not found:
        return answer
    line, column = expanded.origin((int(found[2]), int(found[3])))
    return status, b"%s %d:%d %s" % (found[1], line, column, written[found.end() :])


def answers(jade, text, commands, found):
    """What a text comes to: the words of each command, what came, and what was wanted. The words of what was wanted are counted."""
    wanted, expanded = expected(text)
    count(found, "expand", wanted)
    if jade is None:
        return
    yield ["expand"], answer(jade, ["expand"], text), wanted
    for words in commands if expanded else ():
        wanted = traced(expanded, answer(jade, words, expanded.text))
        count(found, words[0], wanted)
        yield words, answer(jade, words, text), wanted


def count(found, command, answer):
    """Counts an answer by the word of its fault or refusal, or by its status."""
    status, written = answer
    word = re.match(rb"(?:refused|fault) (?:[0-9:]+ )?([a-z]+)", written)
    kind = word[1].decode() if word else f"status {status}"
    kinds = found.setdefault(command, {})
    kinds[kind] = kinds.get(kind, 0) + 1


def is_right(jade, text, commands, found):
    for words, came, wanted in answers(jade, text, commands, found):
        if came != wanted:
            print(f"{text[:SHOWN].decode('latin-1')}\n{' '.join(words)}: {str(came)[:SHOWN]}\nwanted: {str(wanted)[:SHOWN]}")
            return False
    return True


def is_replayed(jade, text, words):
    """Whether a recording of a text, if there is one, is replayed as right."""
    status, recording = answer(jade, ["record", "3", *words], text)
    if status or answer(jade, ["replay"], recording) == (0, b"same\n"):
        return True
    print(f"{text.decode('latin-1')}\nreplay: {answer(jade, ['replay'], recording)}")
    return False


def large():
    """Large texts, by what they are."""
    most = expander.LONGEST
    yield from ((f"an expansion of {length} bytes", as_long(length)) for length in (most - 1, most, most + 1))
    yield "30,000 calls in one another", in_one_another(30_000)
    yield from ((f"calls that double {levels} times", doubling(levels)) for levels in (12, 40))


def main():
    texts = int(sys.argv[1]) if len(sys.argv) > 1 else 300
    seed = int(sys.argv[2]) if len(sys.argv) > 2 else 1
    jade = sys.argv[3] if len(sys.argv) > 3 else built()
    jade = None if jade == "--plain" else jade
    found = {}
    for number in range(texts):
        maker = Maker(number, seed)
        text = maker.text()
        words = [maker.limit(), *("7" for _ in inputs_of(text))]
        commands = (["show"], ["check"], ["serial", *words], ["run", "3", *words])
        if not is_right(jade, text, commands, found) or jade and not is_replayed(jade, text, words):
            print(f"soak_expand: text {number} of seed {seed} differs")
            return 1
    for command, kinds in found.items():
        print(f"soak_expand: {texts} texts, seed {seed}: {command}: " + ", ".join(f"{many} {kind}" for kind, many in sorted(kinds.items())))
    for name, text in large():
        begun, found = time.monotonic(), {}
        if not is_right(jade, text, (["check"],), found):
            print(f"soak_expand: {name}: differs")
            return 1
        told = ", ".join(f"{command} {kind}" for command, kinds in found.items() for kind in kinds)
        print(f"soak_expand: {name}: {told}, in {time.monotonic() - begun:.1f} s")
    return 0


if __name__ == "__main__":
    sys.exit(main())
