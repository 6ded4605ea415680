"""What is said of a text that is refused at a place as `token`, `byte` or `number`.

Each function below knows one usual mistake: it gets the place, and tells it, or nothing where it is another one. The
first that tells anything is taken. Where none does, it is only told what stands there and what could.
"""
import re

from expander import tokens_of_program
from jade_text import BINARY, COMPARISONS, ITEM_WORDS, WITH_WORDS, WITHONLY_WORDS, Parser, Refused, brackets_open

# What could stand at a place, by groups: where all of the first could, the second is said.
GROUPS = (
    (("name", "number", "true", "("), ("name", "number", "true", "false", "(", "-", "!"), "an expression"),
    (("withonly", "int"), ("int", "bool", "name", "if", "for", "withonly", "with"), "a statement"),
    (("df_rd", "int"), ("int", "bool", "name", "if", "for", *WITHONLY_WORDS), "a declaration, a local, an assignment, `if` or `for`"),
    (("no_rd", "int"), ("int", "bool", "name", "if", "for", *WITH_WORDS), "a change of a right, a local, an assignment, `if` or `for`"),
    (("+", "*"), BINARY, "an operator"),
    (("input", "object"), ITEM_WORDS, "an item"),
)
PLAIN = {"name": "a name", "number": "a number", "end": "the end of the text"}

# Words of other languages at the begin of a statement.
FOREIGN = {
    **dict.fromkeys(("while", "until", "loop", "repeat", "foreach"), "The only loop is `for i in low .. high { }`; a `while` becomes one with an `if` in it."),
    **dict.fromkeys(("let", "var", "const", "auto", "mut", "static"), "A local begins with its kind and has a value: `int a = 0;` or `bool b = true;`."),
    **dict.fromkeys(("float", "double", "real", "string", "str", "String", "char", "long", "short", "unsigned", "i64", "u64"), "Values are ints of 64 bits and bools, and there are no others."),
    **dict.fromkeys(("return", "break", "continue", "goto"), "A body runs to its end: there is no `return`, `break` or `continue`."),
    **dict.fromkeys(("print", "printf", "println", "echo", "puts", "write"), "A program prints nothing: its answer is what its objects have in the end."),
    **dict.fromkeys(("fn", "def", "func", "function", "void", "procedure"), "A procedure is written `proc f(int a) { }`, stands before `main`, and gives no value."),
    **dict.fromkeys(("elif", "elsif", "elseif"), "The `else` of an `if` has braces, and a second `if` stands in them: `else { if .. { } }`."),
    **dict.fromkeys(("switch", "case", "match"), "Cases are told apart by `if` and `else`."),
}

# Operators that other languages spell as words.
SPELLED_OUT = {
    **dict.fromkeys(("and", "or", "not"), "`and` is written `&&`, `or` is written `||`, and `not` is written `!`."),
    **dict.fromkeys(("mod", "rem", "div"), "The quotient is `a / b`, rounded towards zero, and what remains is `a % b`."),
    **dict.fromkeys(("xor", "shl", "shr"), "There are no operators on bits."),
}


class Place:
    """A refused token, with what stands before it and what could stand there."""

    def __init__(self, tokens, refused):
        self.tokens, self.at, self.expected = tokens, refused.at, refused.expected
        self.found, self.rules = tokens[refused.at], [rule for rule, _ in refused.rules]
        self.before = tokens[self.at - 1] if self.at else None
        self.after = tokens[self.at + 1] if self.at + 1 < len(tokens) else None
        self.begun = refused.rules[-1][1] if refused.rules else None
        # An argument of a call is read as the value of a local, and ends otherwise.
        self.is_argument = any(rule == "local" and token.made for rule, token in refused.rules)
        if self.is_argument and ";" in self.expected:
            self.expected = self.expected - {";"} | {",", ")"}

    def follows(self, *texts):
        return self.before is not None and self.before.text in texts

    def follows_a_name(self):
        return self.before is not None and self.before.kind == "name"

    def is_found(self, *texts):
        return self.found.kind != "end" and self.found.text in texts

    def rule(self):
        """The innermost rule, but that of an expression."""
        return next((rule for rule in reversed(self.rules) if rule != "expression"), "")

    def begins_a_statement(self):
        return self.rule() == "assignment" and self.found is self.begun or self.rule().startswith("statement of")

    def body(self):
        """In what kind of block it stands: a body, or the section of a `withonly` or of a `with`."""
        rules = [rule.removeprefix("statement of a ") for rule in self.rules if rule.startswith("statement of a ")]
        return rules[-1] if rules else ""


def at(token):
    return f"{token.line}:{token.column}"


def else_if(place):
    if place.follows("else") and place.is_found("if"):
        return "There is no `else if`: the second `if` stands in the braces of the `else`, as in `else { if .. { } }`."


def odd_closing(place):
    """The first brace that begins its line and stands in another column than the line of the brace that it closes."""
    columns, opened = {}, []
    for token in (it for it in place.tokens if not it.call and not it.made):
        is_first = token.line not in columns
        columns.setdefault(token.line, token.column)
        if token.text == "{":
            opened.append(token)
        elif token.text == "}" and opened:
            begin = opened.pop()
            if is_first and token.column != columns[begin.line]:
                return f"; the `}}` of {at(token)} closes the `{{` of {at(begin)}, and stands in another column than that line begins in"
    return ""


def open_at_end(place):
    opened = brackets_open(place.tokens, place.at)
    if place.found.kind == "end" and opened:
        return f"The text ends, and the `{opened[-1].text}` of {at(opened[-1])} is not closed{odd_closing(place)}."
    if place.found.kind == "end" and "main" in place.expected:
        return "The text ends before its `main { }`."


def after_main(place):
    if place.expected == {"end"} and place.is_found(*ITEM_WORDS, "proc"):
        return "Inputs, objects and procedures stand before `main`, and nothing after its `}`."
    if place.expected == {"end"}:
        return f"Nothing stands after `main`, which the `}}` of {at(place.before)} closes: perhaps one `}}` is too many."


def before_main(place):
    if {"main", "input"} <= place.expected:
        return "A text has its inputs, objects and procedures and then `main { }`: locals and all that is done stand in `main`, or in a procedure."
    if place.follows("main") and place.is_found("("):
        return "`main` has no brackets: `main { }`; what is given to a program are its inputs, as in `input n;`."


def item_in_main(place):
    if place.is_found(*ITEM_WORDS) and place.begins_a_statement():
        return f"Inputs and objects are declared before `main`, not in a body: this `{place.found.text}` belongs to the begin of the text."


def declaration_elsewhere(place):
    if place.is_found(*WITHONLY_WORDS, *WITH_WORDS) and place.begins_a_statement():
        word = place.found.text
        if place.body() == "body":
            return f"`{word}` declares an access, and stands in the section of a `withonly` or of a `with`, before its body or its `cont`."
        if place.body() == "with":
            return f"The section of a `with` has `rd`, `wr`, `rd_wr`, which make a right immediate, and `no_rd`, `no_wr`, `no_rd_wr`: `{word}` stands in that of a `withonly`."
        return f"Rights are given up by a `with`: `{word}` stands in its section, and not in that of a `withonly`."


def body_in_section(place):
    if place.body() in ("withonly", "with"):
        if place.is_found("withonly", "with") and place.begins_a_statement():
            return "A section creates no task and changes no right: it says what the task may touch, and what it does stands in its body."
        if place.rule() == "assignment" and place.is_found("["):
            return "A section stores in no cell: it says what the task may touch, and what it stores stands in its body."


def local_without_value(place):
    if place.rule() == "local" and place.follows_a_name() and "=" in place.expected:
        if place.is_found(";", ","):
            return f"A local has a value from the begin, as in `int {place.before.spelled} = 0;`, and each has a statement of its own."
        if place.is_found("["):
            return "A local is one value; what has many cells is an object, which is declared before `main`."


def equal_sign(place):
    if place.is_found("==") and "=" in place.expected:
        return "`==` asks whether two numbers are equal; a value is given by `=`."
    opened = brackets_open(place.tokens, place.at)
    if place.is_found("=") and "+" in place.expected and opened[-1].text != "[":
        if place.rule() in ("if", "for"):
            return "`=` gives a value; whether two numbers are equal is asked by `==`."
        return "An assignment is a statement and no value, so none stands in an expression; whether two numbers are equal is asked by `==`."


def change_in_place(place):
    signs = ("+", "-", "*", "/", "%")
    if place.is_found(*signs) and "=" in place.expected and place.after is not None and place.after.text in ("=", place.found.text):
        return f"There is no `{place.found.text}{place.after.text}`: the whole is written, as in `a = a {place.found.text} 1;`."
    if place.is_found("=", ";", ")") and place.follows(*signs):
        earlier = place.tokens[place.at - 2].text
        more = f": there is no `{place.before.text * 2}`" if earlier == place.before.text else ""
        return f"An operand is missing after `{place.before.text}`{more}."


def comment(place):
    if place.is_found("*") and place.follows("/") or place.is_found("/") and place.begins_a_statement():
        return "A comment begins with `//` and goes to the end of its line."


def foreign_word(place):
    statement = place.rule() == "assignment" and place.before is place.begun and place.follows_a_name()
    if statement and place.before.spelled in FOREIGN and not place.is_found("["):
        return FOREIGN[place.before.spelled]
    if place.is_found("do") and place.begins_a_statement():
        return "`do` stands after the section of a `withonly`; the only loop is `for i in low .. high { }`."
    if place.found.spelled in SPELLED_OUT and "+" in place.expected:
        return SPELLED_OUT[place.found.spelled]


def procedure(place):
    if place.is_found("proc") and ";" not in place.expected:
        return "A procedure stands before `main` and outside of brackets, as `proc f(int a) { }`."
    if place.found.made and place.is_found("if"):
        return "A call is a statement: it stands in `main`, in a procedure, or in a section."


def call(place):
    if place.is_found("(") and place.follows_a_name() and place.rule() not in ("for", "item"):
        name = place.before.spelled
        return f"`{name}(` would be a call: that is a statement of its own, `{name}(..);`, of a procedure that stands before it, as `proc {name}(..) {{ }}`, and has no value."


def loop(place):
    if place.rule() == "for" and (place.expected & {"in", ".."} or (place.follows("for") and "name" in place.expected)):
        return "A loop is written `for i in 0 .. 10 { }`, without brackets: `i` goes from the first bound up to the second, which it does not reach."


def size(place):
    if place.rule() == "item" and "number" in place.expected:
        if place.is_found("-", "+"):
            return "A size is a number from 1 on, without a sign."
        return "A size is written as a number: no name and no expression can stand there."


def item_form(place):
    if place.rule() == "item" and place.expected & {":", "["} and place.follows_a_name():
        form = "objects f[4] : 3;" if "[" in place.expected else "object s : 3;"
        many = ", a family its members and then those of each" if "[" in place.expected else ""
        return f"An object tells how many cells it has{many}: `{form}`."


def one_object(place):
    if place.rule() == "declaration" and place.is_found(","):
        return f"A declaration names one object: write one for each, as in `{place.begun.text}(a); {place.begun.text}(b);`."
    if place.rule() == "declaration" and "(" in place.expected:
        return f"The object of a declaration stands in brackets, as in `{place.begun.text}(s);`."
    if place.rule() == "declaration" and place.is_found("[") and place.follows("]"):
        return "Rights are on whole objects: a declaration names an object or a member of a family, and no cell."


def task_form(place):
    if place.expected == {"do"}:
        return "After the section of a `withonly` comes `do`, then the names that the task gets, and its body: `withonly { .. } do (i) { .. }`."
    if place.follows("do") and place.expected == {"("}:
        return "After `do` the names that the task gets stand in brackets, also where there are none: `do () { }`."
    if place.rule() == "withonly" and place.expected & {",", ")"} and place.before.kind in ("name", "symbol"):
        return "The brackets after `do` have names of locals alone, with a comma between them; their values go to the task."
    if place.expected == {"cont"}:
        return "A `with` ends with `cont;` after its section: `with { .. } cont;`."


def reserved(place):
    if place.found.kind == "word" and "name" in place.expected and not place.begins_a_statement() and place.rule() in ("item", "local", "for", "withonly", "declaration"):
        return f"`{place.found.text}` is a word of the language, and can't be a name."


def one_too_many(place):
    if place.is_found(";") and place.begins_a_statement():
        return "No `;` stands after a `}`, and no statement is empty."
    if place.is_found(*COMPARISONS) and "&&" in place.expected and "+" in place.expected:
        return "A comparison is not compared again: join two of them by `&&`."


def unclosed(place):
    opened = brackets_open(place.tokens, place.at)
    closing = {"(": ")", "[": "]"}
    if opened and closing.get(opened[-1].text) in place.expected and place.is_found(";", "{", "}", ")", "]", "..", "="):
        return f"The `{opened[-1].text}` of {at(opened[-1])} is not closed."
    if place.is_found(")", "]") and (not opened or closing.get(opened[-1].text) != place.found.text):
        return f"This `{place.found.text}` closes no bracket that is open."


def body_without_braces(place):
    if "{" in place.expected and place.rule() in ("if", "for", "else", "withonly"):
        return f"What `{place.rule()}` does stands in braces, also where it is one statement: the `{{` is missing."


def semicolon(place):
    sign = "," if place.is_argument else ";"
    if sign in place.expected and (place.found.line > place.before.line or place.is_found("}") or place.found.kind in ("word", "name")):
        return f"It seems that a `{sign}` is missing after {place.before.told()} in {at(place.before)}."


MISTAKES = (
    else_if, open_at_end, before_main, after_main, item_in_main, declaration_elsewhere, body_in_section, local_without_value, equal_sign,
    comment, foreign_word, procedure, call, loop, size, item_form, one_object, task_form, reserved, one_too_many, change_in_place, unclosed,
    body_without_braces, semicolon,
)  # fmt: skip


def listed(words):
    """Words with commas, and `or` before the last."""
    return " or ".join([", ".join(words[:-1]), words[-1]] if len(words) > 1 else words)


def could_stand(expected):
    """What could stand at a place, in words."""
    left, told = set(expected), []
    for marks, members, name in GROUPS:
        if left.issuperset(marks):
            left -= set(members)
            told.append(name)
    return listed(told + [PLAIN.get(it, f"`{it}`") for it in sorted(left)])


def refused_in(text):
    """The place at which the grammar stops in a text, or none."""
    parser = Parser(tokens_of_program(text))
    try:
        parser.program()
    except Refused as refused:
        return Place(parser.tokens, refused)
    return None


def of_token(text, line, column):
    """What is said of a refused token, or nothing where that is another than the grammar of this folder finds."""
    place = refused_in(text)
    if place is None or place.found.place != (line, column):
        return None
    told = next(filter(None, (mistake(place) for mistake in MISTAKES)), "")
    here = "Here the text ends" if place.found.kind == "end" else f"Here stands {place.found.told()}"
    return f"{here}; what could stand is {could_stand(place.expected)}. {told}".rstrip()


# What is said of a byte that begins no token, and of the two bytes that are one half of an operator.
BYTES = {
    **dict.fromkeys("\"'`", "There are no texts: values are ints and bools."),
    **dict.fromkeys("#", "A comment begins with `//` and goes to the end of its line."),
    **dict.fromkeys("&|", "`and` is written `&&` and `or` is written `||`; there are no operators on bits."),
    **dict.fromkeys("^~", "There are no operators on bits, and no powers."),
    **dict.fromkeys("?", "There is no `? :`: give a local one value, and by an `if` the other."),
}


def of_byte(text, at):
    """What is said of a refused byte, by its number."""
    line = text[:at].split(b"\n")[-1].decode("latin-1")
    byte, after = chr(text[at]), text[at + 1 : at + 2].decode("latin-1")
    if re.search(r"[A-Za-z_][A-Za-z0-9_]{63}$", line) and re.match(r"[A-Za-z0-9_]", byte):
        return "This word goes on past its 64th byte, and none has more."
    if byte == "." and (re.search(r"[0-9]$", line) or after.isdigit()):
        return "There are no fractions: a number is whole, and `/` rounds towards zero."
    if byte == ".":
        return "One `.` stands nowhere: between the bounds of a loop stand two, and an object has cells, as in `s[0]`, and no fields."
    if ord(byte) > 126 or ord(byte) < 32:
        return "Outside of comments a text has the letters, digits and signs of ASCII, spaces, tabs and ends of lines."
    return BYTES.get(byte, f"`{byte}` begins nothing.")


def of_number(text, at):
    """What is said of a refused run of digits."""
    word = re.match(rb"[0-9]+[A-Za-z_0-9]*", text[at:])[0].decode()
    if re.match(r"0[xXbBoO]", word):
        return "Numbers are written in decimal alone."
    if re.match(r"[0-9]+_", word):
        return "No `_` stands in a number."
    if re.search(r"[A-Za-z_]", word):
        return f"`{word}` is neither a number nor a name, which begins with a letter or `_`."
    if word.startswith("0"):
        return "A number does not begin with a 0 that it does not need."
    return "It is greater than 9223372036854775807, the greatest int."
