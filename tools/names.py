"""What is said of a text that is refused at a place as `name`, `twice`, `kind`, `assign` or `size`.

The text is read from its begin with what is in scope, up to the place. There a finding tells the mistake; where none is
made there, nothing is told.
"""
import difflib

from expander import tokens_of_program
from jade_text import COMPARISONS, Parser, Refused, first_token

# The limits of an item's number, and the most of all items.
MEMBERS, CELLS, OBJECTS, ALL_CELLS, INPUTS = 4096, 65536, 4096, 1048576, 64


ITEMS = ("input", "object", "family")


class Name:
    """What a name stands for, and where it was declared."""

    def __init__(self, kind, token, count=0, size=0):
        self.kind, self.token, self.count, self.size = kind, token, count, size

    def told(self):
        name = self.token.spelled
        return {
            "input": f"`{name}` is an input",
            "int": f"`{name}` is an int",
            "bool": f"`{name}` is a bool",
            "loop": f"`{name}` is the variable of a loop",
            "object": f"`{name}` is an object of {self.size} cell{'s' * (self.size != 1)}",
            "family": f"`{name}` is a family of {self.count} object{'s' * (self.count != 1)}",
        }[self.kind]

    def where(self):
        return f"as {self.token.made}" if self.token.made else f"in {self.token.line}:{self.token.column}"


class Found(Exception):
    """What is told of a place."""


class Reader:
    """Reads a program with what is in scope; it stops at the place with what it finds there."""

    def __init__(self, word, place):
        self.word, self.place = word, place
        # What is in scope; what the body of a task does not see of its creators; what is out of scope by now; and which
        # local is about to get its value.
        self.scope, self.hidden, self.gone, self.own = {}, {}, {}, None
        self.objects, self.cells, self.inputs = 0, 0, 0

    def is_at(self, word, token):
        return self.word == word and self.place == token.place

    def program(self, tree):
        for item in tree.items:
            self.item(item)
        self.block(tree.body)

    def item(self, item):
        self.number(item.count, MEMBERS, "A family has 1 to 4,096 members")
        self.number(item.size, CELLS, "An object has 1 to 65,536 cells")
        count = item.count.text if item.count else "1"
        size = item.size.text if item.size else "0"
        count, size = int(count[:9]), int(size[:9])
        self.declare(Name({"objects": "family"}.get(item.kind, item.kind), item.token, count, size))
        if item.kind == "input":
            self.inputs += 1
        elif 0 < count <= MEMBERS and 0 < size <= CELLS:
            self.objects, self.cells = self.objects + count, self.cells + count * size
        if self.is_at("size", item.token):
            raise Found(
                f"With it the program has {self.objects} objects of 4,096 at most, {self.cells} cells of 1,048,576 at most, "
                f"and {self.inputs} inputs of 64 at most."
            )

    def number(self, token, most, told):
        if token and self.is_at("size", token):
            raise Found(f"{told}, and this says {token.text[:30]}.")

    def declare(self, name):
        earlier = self.scope.get(name.token.text)
        if earlier and self.is_at("twice", name.token):
            here = f"Here {name.token.made} is declared: " if name.token.made else ""
            raise Found(f"{here}{earlier.told()}, declared {earlier.where()}.")
        self.scope[name.token.text] = name

    def use(self, token):
        """What a name stands for; None where it is not in scope."""
        if token.text not in self.scope and self.is_at("name", token):
            raise Found(self.not_here(token))
        return self.scope.get(token.text)

    def not_here(self, token):
        text, name = token.text, token.spelled
        if text in self.hidden:
            return f"{self.hidden[text].told()} of a creator of this task, declared {self.hidden[text].where()}; the names after `do` are what the task gets of these."
        if text == self.own:
            return f"`{name}` is in scope only after the statement that declares it, and not in its own value."
        if text in self.gone:
            return f"A `{name}` was declared {self.gone[text].where()}, in a block that has ended."
        # By their spelling, the names of this body, and those of the bodies and of `main` that call it.
        seen = {it.token.spelled: it for it in self.scope.values() if it.token.call is token.call or it.kind in ITEMS}
        callers = [*(call.call for call in token.calls())]
        theirs = next((it for it in self.scope.values() if it.token.spelled == name and it.token.call in callers), None)
        if theirs:
            return f"{theirs.told()} of what calls `{token.call.text}`, declared {theirs.where()}."
        near = difflib.get_close_matches(name, seen, 1)
        return f"No `{name}` is declared before this" + (f"; there is a `{near[0]}`, declared {seen[near[0]].where()}." if near else ".")

    def block(self, block):
        before = dict(self.scope)
        for statement in block.statements:
            getattr(self, "read_" + statement.kind)(statement)
        self.gone.update({name: it for name, it in self.scope.items() if name not in before})
        self.scope = before

    def needs(self, node, wanted):
        """An expression where an int or a bool is needed."""
        kind = self.kind_of(node)
        if kind and kind != wanted and self.is_at("kind", first_token(node)):
            many = {"int": "an int, a number,", "bool": "a bool, as `a < b`,"}
            raise Found(f"Here {many[wanted]} is needed, and this is {'a bool' if kind == 'bool' else 'an int'}.")

    def kind_of(self, node):
        """Whether an expression is an int or a bool; None where it has a mistake of its own."""
        if node.kind in ("number", "bool"):
            return "int" if node.kind == "number" else "bool"
        if node.kind == "group":
            return self.kind_of(node.inner)
        if node.kind == "unary":
            kind = "bool" if node.token.text == "!" else "int"
            self.needs(node.operand, kind)
            return kind
        if node.kind == "binary":
            operands = "bool" if node.token.text in ("&&", "||") else "int"
            self.needs(node.left, operands)
            self.needs(node.right, operands)
            return "bool" if operands == "bool" or node.token.text in COMPARISONS else "int"
        name = self.use(node.token)
        if node.kind == "cell":
            self.cell(name, node.token, node.indexes)
            return "int"
        if name and name.kind in ("object", "family"):
            self.other_use(name, node.token)
            return None
        return name and ("bool" if name.kind == "bool" else "int")

    def cell(self, name, token, indexes):
        """A cell, by one index or two."""
        if name and len(indexes) != {"object": 1, "family": 2}.get(name.kind):
            self.other_use(name, token)
        for index in indexes:
            self.needs(index, "int")

    def other_use(self, name, token):
        """A name that stands for something else than its use needs."""
        if self.is_at("kind", token):
            more = {
                "object": f"a cell of it is `{token.text}[0]`, and its rights are declared by `rd({token.text});`",
                "family": f"a member of it is `{token.text}[0]`, of which a right is declared by `rd({token.text}[0]);`, and a cell is `{token.text}[0][0]`",
            }.get(name.kind, "it has no cells and needs no right")
            raise Found(f"{name.told()}: {more}.")

    def read_local(self, it):
        self.own = it.name.text
        self.needs(it.value, it.token.text)
        self.own = None
        self.declare(Name(it.token.text, it.name))

    def read_assign(self, it):
        name = self.use(it.token)
        if name and name.kind in ("object", "family"):
            self.other_use(name, it.token)
        if name and name.kind in ("input", "loop") and self.is_at("assign", it.token):
            raise Found(f"{name.told()}, declared {name.where()}: give its value to a local, as in `int a = {it.token.spelled};`, and change that.")
        self.needs(it.value, "bool" if name and name.kind == "bool" else "int")

    def read_store(self, it):
        self.cell(self.use(it.token), it.token, it.indexes)
        self.needs(it.value, "int")

    def read_declare(self, it):
        name = self.use(it.name)
        if name and (name.kind, bool(it.index)) not in (("object", False), ("family", True)):
            self.other_use(name, it.name)
        if it.index:
            self.needs(it.index, "int")

    def read_if(self, it):
        self.needs(it.test, "bool")
        self.block(it.body)
        if it.other:
            self.block(it.other)

    def read_for(self, it):
        self.needs(it.low, "int")
        self.needs(it.high, "int")
        before = dict(self.scope)
        self.declare(Name("loop", it.name))
        self.block(it.body)
        self.scope = before

    def read_withonly(self, it):
        self.block(it.section)
        items = {name: found for name, found in self.scope.items() if found.kind in ITEMS}
        given, before, hidden = {}, self.scope, self.hidden
        for token in it.names:
            name = self.use(token)
            if name and token.text in items and self.is_at("kind", token):
                raise Found(f"{name.told()}, which each task sees anyway: after `do` stand locals and loop variables alone.")
            if token.text in given and self.is_at("twice", token):
                raise Found("Each name stands after `do` once.")
            if name:
                given[token.text] = Name("bool" if name.kind == "bool" else "int", name.token)
        self.scope, self.hidden = {**items, **given}, {**hidden, **{name: it for name, it in before.items() if name not in items and name not in given}}
        self.block(it.body)
        self.scope, self.hidden = before, hidden

    def read_with(self, it):
        self.block(it.section)


def of_place(text, word, line, column):
    """What is said of a place that is refused with one of these words, or nothing."""
    try:
        reader = Reader(word, (line, column))
        reader.program(Parser(tokens_of_program(text)).program())
    except Refused:
        return None
    except Found as found:
        return str(found)
    return None
