"""Reads a text as docs/LANGUAGE.md says: its tokens, and its tree or what is expected at the first refused token.

It serves to say more of what the proved program has answered. It decides nothing: what is refused, and where, is the
program's answer.
"""
import re

ITEM_WORDS = ("input", "object", "objects")
WITHONLY_WORDS = ("rd", "wr", "rd_wr", "df_rd", "df_wr", "df_rd_wr", "cm")
WITH_WORDS = ("rd", "wr", "rd_wr", "no_rd", "no_wr", "no_rd_wr")
WORDS = frozenset(ITEM_WORDS + WITHONLY_WORDS + WITH_WORDS) | frozenset(
    "main int bool true false if else for in withonly do with cont proc".split()
)
COMPARISONS = ("==", "!=", "<", "<=", ">", ">=")
BINARY = ("||", "&&", *COMPARISONS, "+", "-", "*", "/", "%")

TOKEN = re.compile(
    r"(?P<space>[ \t\r\n]+|//[^\n]*)|(?P<name>[A-Za-z_][A-Za-z0-9_]*)|(?P<number>[0-9]+)"
    r"|(?P<symbol>==|!=|<=|>=|&&|\|\||\.\.|[{}()\[\];:,=<>+\-*/%!])"
)


class Token:
    """A token: what it is (a name, a word, a number, a symbol, the end, or a byte that begins none), its text, and where
    it begins. One that was written for a call of a procedure (expander.py) has its place in the source: it is `spelled`
    there otherwise, where its name was replaced; it is `made`, where the source has no such token, and this says what it
    stands for; and `call` is the name of the call in whose body it stands."""

    __slots__ = ("kind", "text", "line", "column", "spelled", "made", "call")

    def __init__(self, kind, text, line, column, spelled=None, made="", call=None):
        self.kind, self.text, self.line, self.column = kind, text, line, column
        self.spelled, self.made, self.call = spelled or text, made, call

    @property
    def place(self):
        return self.line, self.column

    def told(self):
        return self.made or ("the end of the text" if self.kind == "end" else f"`{self.spelled}`")

    def calls(self):
        """The names of the calls in whose bodies it stands, the innermost first."""
        call = self.call
        while call:
            yield call
            call = call.call

    def told_calls(self):
        """The same in words: the first three."""
        calls = [f"`{call.text}` in {call.line}:{call.column}" for call in self.calls()]
        more = f" within {len(calls) - 3} more" if len(calls) > 3 else ""
        return ", in the call of " + " within that of ".join(calls[:3]) + more if calls else ""


def tokens_of(text):
    """The tokens of a text of bytes; the last is the end, or the first byte that begins none."""
    text, found, at, line, begin = text.decode("latin-1"), [], 0, 1, 0
    while at < len(text):
        match = TOKEN.match(text, at)
        if not match:
            return [*found, Token("byte", text[at], line, at - begin + 1)]
        kind, piece = match.lastgroup, match.group()
        if kind != "space":
            kind = "word" if piece in WORDS else kind
            found.append(Token(kind, piece, line, at - begin + 1))
        elif "\n" in piece:
            line, begin = line + piece.count("\n"), at + piece.rindex("\n") + 1
        at = match.end()
    found.append(Token("end", "", line, at - begin + 1))
    return found


class Node:
    """A part of a program: what it is, the token that tells its place, and its parts by their names."""

    def __init__(self, kind, token, **parts):
        self.kind, self.token = kind, token
        self.__dict__.update(parts)


class Refused(Exception):
    """The first token with which no program goes on, by its number; what could stand there; and the rules that were
    begun, each with its first token."""

    def __init__(self, at, expected, rules):
        super().__init__()
        self.at, self.expected, self.rules = at, expected, rules


class Parser:
    """Reads tokens by the grammar, one function for each rule."""

    def __init__(self, tokens):
        self.tokens, self.at, self.expected, self.rules = tokens, 0, set(), []

    @property
    def token(self):
        return self.tokens[min(self.at, len(self.tokens) - 1)]

    def is_next(self, *kinds):
        """Whether one of these stands here: `name`, `number`, `end`, or a text."""
        self.expected.update(kinds)
        token = self.token
        return (token.kind if token.kind in ("name", "number", "end") else token.text) in kinds

    def take(self, *kinds):
        """The token here, where it is one of these."""
        if not self.is_next(*kinds):
            raise Refused(self.at, self.expected, [*self.rules])
        return self.step()

    def step(self):
        token = self.token
        self.at, self.expected = self.at + 1, set()
        return token

    def maybe(self, *kinds):
        return self.step() if self.is_next(*kinds) else None

    def inside(self, rule, read, *given):
        """What a function reads, as a part of a rule."""
        self.rules.append((rule, self.token))
        found = read(*given)
        self.rules.pop()
        return found

    def program(self):
        items = []
        while self.is_next(*ITEM_WORDS):
            items.append(self.inside("item", self.item))
        main = self.take("main")
        body = self.inside("main", self.block, "body")
        self.take("end")
        return Node("program", main, items=items, body=body)

    def item(self):
        word, name, count, size = self.step(), self.take("name"), None, None
        if word.text == "objects":
            self.take("[")
            count = self.take("number")
            self.take("]")
        if word.text != "input":
            self.take(":")
            size = self.take("number")
        self.take(";")
        return Node(word.text, name, count=count, size=size)

    def block(self, where):
        """Statements in braces: of a body, or of the section of a `withonly` or of a `with`."""
        begin, found = self.take("{"), []
        while not self.is_next("}"):
            found.append(self.inside("statement of a " + where, self.statement, where))
        return Node("block", begin, statements=found, end=self.step())

    def statement(self, where):
        if self.is_next("int", "bool"):
            return self.inside("local", self.local)
        if self.is_next("if"):
            return self.inside("if", self.choice, where)
        if self.is_next("for"):
            return self.inside("for", self.loop, where)
        if where == "body" and self.is_next("withonly"):
            return self.inside("withonly", self.withonly)
        if where == "body" and self.is_next("with"):
            return self.inside("with", self.change)
        words = {"body": (), "withonly": WITHONLY_WORDS, "with": WITH_WORDS}[where]
        if words and self.is_next(*words):
            return self.inside("declaration", self.declaration, where)
        return self.inside("assignment", self.assignment, where)

    def local(self):
        kind, name = self.step(), self.take("name")
        self.take("=")
        value = self.expression()
        self.take(";")
        return Node("local", kind, name=name, value=value)

    def assignment(self, where):
        name, indexes = self.take("name"), []
        while where == "body" and len(indexes) < 2 and self.maybe("["):
            indexes.append(self.expression())
            self.take("]")
        self.take("=")
        value = self.expression()
        self.take(";")
        return Node("store" if indexes else "assign", name, indexes=indexes, value=value)

    def declaration(self, where):
        word = self.step()
        self.take("(")
        name, index = self.take("name"), None
        if self.maybe("["):
            index = self.expression()
            self.take("]")
        self.take(")")
        self.take(";")
        return Node("declare", word, name=name, index=index, where=where)

    def choice(self, where):
        word, test, body, other = self.step(), self.expression(), self.block(where), None
        if self.maybe("else"):
            other = self.inside("else", self.block, where)
        return Node("if", word, test=test, body=body, other=other)

    def loop(self, where):
        word, name = self.step(), self.take("name")
        self.take("in")
        low = self.expression()
        self.take("..")
        return Node("for", word, name=name, low=low, high=self.expression(), body=self.block(where))

    def withonly(self):
        word, section, names = self.step(), self.block("withonly"), []
        self.take("do")
        self.take("(")
        if not self.maybe(")"):
            names.append(self.take("name"))
            while not self.maybe(")"):
                self.take(",")
                names.append(self.take("name"))
        return Node("withonly", word, section=section, names=names, body=self.block("body"))

    def change(self):
        word, section = self.step(), self.block("with")
        self.take("cont")
        self.take(";")
        return Node("with", word, section=section)

    def expression(self):
        return self.inside("expression", self.joined)

    def joined(self):
        return self.chain(("||",), lambda: self.chain(("&&",), self.comparison))

    def comparison(self):
        left = self.sum()
        sign = self.maybe(*COMPARISONS)
        return Node("binary", sign, left=left, right=self.sum()) if sign else left

    def sum(self):
        return self.chain(("+", "-"), lambda: self.chain(("*", "/", "%"), self.unary))

    def chain(self, signs, operand):
        left = operand()
        while self.is_next(*signs):
            sign = self.step()
            left = Node("binary", sign, left=left, right=operand())
        return left

    def unary(self):
        if self.is_next("-", "!"):
            sign = self.step()
            return Node("unary", sign, operand=self.unary())
        return self.atom()

    def atom(self):
        token = self.take("number", "true", "false", "(", "name")
        if token.text == "(":
            inner = self.joined()
            self.take(")")
            return Node("group", token, inner=inner)
        if token.kind == "number":
            return Node("number", token, value=int(token.text))
        if token.kind == "word":
            return Node("bool", token, value=token.text == "true")
        indexes = []
        while len(indexes) < 2 and self.maybe("["):
            indexes.append(self.joined())
            self.take("]")
        return Node("cell" if indexes else "name", token, indexes=indexes)


def first_token(node):
    """The token with which an expression begins."""
    while node.kind == "binary":
        node = node.left
    return node.token


def brackets_open(tokens, at):
    """The brackets that are open before a token."""
    found = []
    for token in tokens[:at]:
        if token.text in ("(", "[", "{"):
            found.append(token)
        elif token.text in (")", "]", "}") and found:
            found.pop()
    return found
