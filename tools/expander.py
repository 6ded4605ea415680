#!/usr/bin/env python3
"""Writes a program with procedures without them: each call as the statements that it stands for.

    expander.py < FILE

It writes what `./jade expand` writes, and ends with its status. It is plain, and goes by the definitions in
crates/proc_expand/specs: what is refused and where is worked out from all tokens before anything is written.
tools/soak_expand.py compares the two. The other tools take from here the tokens of the program that a text stands for,
each with its place in the text (`tokens_of_program`).

A place is the number of a token; that of the end is the number of all.
"""
import functools
import itertools
import sys

from jade_text import Token, tokens_of

OPENING = {"(": ")", "[": "]", "{": "}"}
CLOSING = frozenset(OPENING.values())
ITEM_WORDS = ("input", "object", "objects")

# The most bytes of a text and of a word, open brackets, and the greatest number.
LONGEST, WORD, DEEPEST, GREATEST = 1_048_576, 64, 64, 2**63 - 1


class Refusal(Exception):
    """Where and with which word a text is refused, and what more there is to tell."""

    def __init__(self, place, word, told=""):
        super().__init__(f"refused {place[0]}:{place[1]} {word}")
        self.place, self.word, self.told = place, word, told


class Expanded:
    """An expanded text: its tokens, of which the last is its end, each with its place in the source; and its bytes."""

    def __init__(self, tokens, text=None):
        self.tokens, self.is_source = tokens, text is not None
        self.text = text if self.is_source else (" ".join(token.text for token in tokens[:-1]) + "\n").encode()

    def origins(self):
        """Where the tokens of the text come from: their places there and in the source. All others come from its end."""
        starts = itertools.accumulate((len(token.text) + 1 for token in self.tokens[:-1]), initial=1)
        return {(1, start): token.place for start, token in zip(starts, self.tokens[:-1])}

    def origin(self, place):
        return place if self.is_source else self.origins().get(place, self.tokens[-1].place)


def check_bytes(tokens):
    """Refuses the first byte that begins no token or is a word's 65th, number that is none, or bracket that is too deep."""
    depth = 0
    for token, after in zip(tokens, [*tokens[1:], None]):
        length = len(token.text)
        if token.kind == "byte":
            raise Refusal(token.place, "byte")
        if token.kind in ("name", "word") and length > WORD:
            raise Refusal((token.line, token.column + WORD), "byte")
        if token.kind == "number":
            is_joined = after.kind in ("name", "word") and after.place == (token.line, token.column + length)
            if is_joined or length > len(str(GREATEST)) or token.text != str(int(token.text)) or int(token.text) > GREATEST:
                raise Refusal(token.place, "number")
        if token.text in OPENING and depth == DEEPEST:
            whose = f"It is that of {token.made}" if token.made else "It stands"
            raise Refusal(token.place, "deep", f"{whose}{token.told_calls()}." if token.made or token.call else "")
        depth += 1 if token.text in OPENING else -1 if token.text in CLOSING and depth else 0


class Fault:
    """A place at which procedures or calls are refused, with what there is to tell, or what tells it. Of several at one place
    the first of the words is the answer."""

    WORDS = ("proc", "noproc", "count", "twice")

    def __init__(self, place, word, tell, *given):
        self.place, self.word, self.tell, self.given = place, word, tell, given
        self.order = place, self.WORDS.index(word)

    def told(self):
        return self.tell(*self.given) if self.given else self.tell


class Procedure:
    """A procedure: the place of its `proc`, and of its head the places of the parameters' names and where it stops: at its
    `{`, where it fits, and else at the first token that does not. Where it fits, `end` is how and where its body is closed."""

    def __init__(self, place, params, stop, fits, end):
        self.place, self.params, self.stop, self.fits, self.end = place, params, stop, fits, end

    @property
    def body(self):
        return range(self.stop + 1, self.end[1])


class Source:
    """A text with procedures: what its tokens are to procedures and calls."""

    def __init__(self, tokens):
        *self.tokens, self.end = tokens
        self.size = len(self.tokens)
        self.words = [token.text for token in self.tokens]
        self.closings = self.find_closings()
        self.procedures = [self.procedure(place) for place in self.find_begins()]
        # By name the first procedure of that name.
        self.named = {}
        for procedure in self.procedures:
            if self.is_name(procedure.place + 1):
                self.named.setdefault(self.words[procedure.place + 1], procedure)

    def word(self, place):
        return self.words[place] if 0 <= place < self.size else None

    def is_name(self, place):
        return place < self.size and self.tokens[place].kind == "name"

    def at(self, place):
        token = self.tokens[place] if place < self.size else self.end
        return f"{token.line}:{token.column}"

    def find_closings(self):
        """By the place of an opening bracket, whether it is `closed`, met by a closing bracket that is `wrong`, or `never`
        closed, and where. A wrong one is so to all brackets that are open, and is none to later ones."""
        found, opened = {}, []
        for place, word in enumerate(self.words):
            if word in OPENING:
                opened.append(place)
            elif word in CLOSING and opened and OPENING[self.words[opened[-1]]] == word:
                found[opened.pop()] = ("closed", place)
            elif word in CLOSING:
                found.update(dict.fromkeys(opened, ("wrong", place)))
                opened = []
        return {**found, **dict.fromkeys(opened, ("never", self.size))}

    def find_begins(self):
        """Where procedures begin: outside of brackets, before a `main` there, first of all or after a `;` or a `}`."""
        depth = 0
        for place, word in enumerate(self.words):
            if depth == 0 and word == "main":
                return
            if depth == 0 and word == "proc" and (place == 0 or self.words[place - 1] in (";", "}")):
                yield place
            depth += 1 if word in OPENING else -1 if word in CLOSING and depth else 0

    def procedure(self, place):
        params, stop, fits = [], place, True
        for wanted in self.head(place, params):
            stop += 1
            fits = self.word(stop) in wanted if wanted else self.is_name(stop)
            if not fits:
                break
        return Procedure(place, params, stop, fits, self.closings[stop] if fits else ("never", self.size))

    def head(self, place, params):
        """What may stand at each place after a `proc`, as long as what stands before fits; nothing for a name. It adds the
        places of the parameters' names."""
        yield ()
        yield ("(",)
        place += 3
        while self.word(place - 1) != ")":
            if self.word(place) == ")" and not params:
                yield (")",)
                break
            yield ("int", "bool")
            yield ()
            params.append(place + 1)
            yield (",", ")")
            place += 3
        yield ("{",)

    def is_call(self, place):
        return self.is_name(place) and self.word(place + 1) == "(" and self.word(place - 1) != "proc"

    def calls(self):
        return (place for place in range(self.size) if self.is_call(place))

    def commas(self, call):
        """The places of the commas between the arguments of a call, up to where its brackets end or go wrong."""
        place, found = call + 2, []
        while place < self.size and self.words[place] not in CLOSING:
            if self.words[place] in OPENING:
                how, end = self.closings[place]
                if how != "closed":
                    break
                place = end
            elif self.words[place] == ",":
                found.append(place)
            place += 1
        return found

    def arguments(self, call):
        """The places of each argument of a call whose brackets are closed."""
        end = self.closings[call + 1][1]
        if end == call + 2:
            return []
        cuts = [call + 1, *self.commas(call), end]
        return [range(before + 1, after) for before, after in zip(cuts, cuts[1:])]

    def meant(self, call):
        """The procedure that a call means, or none: the first of that name, where its body is closed before the call."""
        procedure = self.named.get(self.words[call])
        return procedure if procedure and procedure.end[0] == "closed" and procedure.end[1] < call else None

    # ---- what is refused

    def first_fault(self):
        faults = itertools.chain(self.faults_of_procedures(), self.faults_of_calls(), self.faults_in_calls())
        return min(faults, key=lambda fault: fault.order, default=None)

    def faults_of_procedures(self):
        for it in self.procedures:
            if not it.fits:
                yield Fault(it.stop, "proc", self.told_of_head(it))
            elif it.end[0] != "closed":
                yield Fault(it.end[1], "proc", self.told_of_bracket, it.stop, f"the body of `{self.words[it.place + 1]}`")
            name, params = self.word(it.place + 1), {}
            if self.named.get(name, it) is not it:
                yield Fault(it.place + 1, "twice", f"A procedure `{name}` stands in {self.at(self.named[name].place)} already.")
            for param in it.params:
                first = params.setdefault(self.words[param], param)
                if first != param:
                    yield Fault(param, "twice", f"`{self.words[param]}` is a parameter of this procedure already, in {self.at(first)}.")

    def faults_of_calls(self):
        for call in self.calls():
            name, (how, end), procedure = self.words[call], self.closings[call + 1], self.meant(call)
            if self.word(call - 1) not in (";", "{", "}"):
                yield Fault(call, "proc", self.told_of_misplaced(call))
            if not procedure:
                yield Fault(call, "noproc", self.told_of_unknown, call)
            elif how == "closed" and len(self.arguments(call)) != len(procedure.params):
                wanted, given = len(procedure.params), len(self.arguments(call))
                yield Fault(call, "count", f"`{name}` of {self.at(procedure.place)} takes {counted(wanted)}, and {counted(given)} {'is' if given == 1 else 'are'} given.")
            if how != "closed":
                yield Fault(end, "proc", self.told_of_bracket, call + 1, f"the call of `{name}`")
            elif self.word(end + 1) != ";":
                yield Fault(end + 1, "proc", f"A call is a statement and ends with a `;`: it is missing after the `)` of {self.at(end)}; a call has no value.")
            elif self.word(end + 2) == "else":
                yield Fault(end + 2, "proc", f"This `else` has no `if`: the call of `{name}` is a statement of its own.")
            ends = [*self.commas(call), *([end] if how == "closed" and end > call + 2 else [])]
            for before, after in zip([call + 1, *ends], ends):
                if after == before + 1:
                    yield Fault(after, "proc", f"An argument of `{name}` is empty: it ends here and has no token.")

    def faults_in_calls(self):
        """A `;` within the brackets of a call."""
        until, name = 0, None
        for place in range(self.size):
            if self.words[place] == ";" and place < until:
                yield Fault(place, "proc", f"This `;` stands in the brackets of the call of `{name}`, whose arguments are expressions: perhaps a `)` is missing before it.")
            if self.is_call(place) and self.closings[place + 1][1] > until:
                until, name = self.closings[place + 1][1], self.words[place]

    def told_of_head(self, it):
        where = "the text ends" if it.stop == self.size else f"`{self.words[it.stop]}` stands"
        reserved = it.stop < self.size and self.tokens[it.stop].kind == "word" and self.words[it.stop - 1] in ("proc", "int", "bool")
        more = f" `{self.words[it.stop]}` is a word of the language, and can't be a name." if reserved else ""
        return f"The head of a procedure is `proc f(int a, bool b) {{`, with any number of parameters, and here {where}.{more}"

    def told_of_bracket(self, opening, whose):
        """What is told of brackets that are not closed, or not by their own kind."""
        how, end = self.closings[opening]
        if how == "never":
            return f"The text ends, and {whose}, which the `{self.words[opening]}` of {self.at(opening)} opens, is not closed."
        inner = [place for place in range(opening, end) if self.closings.get(place) == ("wrong", end)][-1]
        return f"This `{self.words[end]}` in {whose} would close the `{self.words[inner]}` of {self.at(inner)}: `{OPENING[self.words[inner]]}` is missing, or this is one too many."

    def told_of_misplaced(self, call):
        before = self.word(call - 1)
        where = f"directly after `{before}`" if before else "at the begin of the text"
        return f"A call is a statement, which stands after a `;`, `{{` or `}}` and has no value; this one stands {where}."

    def told_of_unknown(self, call):
        name = self.words[call]
        procedure = self.named.get(name)
        if not procedure:
            is_item = any(word in ITEM_WORDS and self.word(place + 1) == name for place, word in enumerate(self.words))
            return f"No procedure is called `{name}`{': it is an item, and its cells stand in `[ ]`' if is_item else ''}."
        if procedure.place > call:
            return f"The procedure `{name}` stands later, in {self.at(procedure.place)}: put it before what calls it."
        if procedure.end[0] != "closed":
            return f"The body of `{name}` of {self.at(procedure.place)} is not closed before this call."
        return f"The procedure `{name}` of {self.at(procedure.place)} calls itself: a procedure calls only those that stand before it."

    # ---- what is written

    def expanded(self):
        """The tokens of the expanded text, before its end; `grown`, where they are too many."""
        taken = set(itertools.chain.from_iterable(range(it.place, it.end[1] + 1) for it in self.procedures))
        items = {self.words[place + 1] for place in range(self.size) if self.words[place] in ITEM_WORDS and place not in taken and self.is_name(place + 1)}
        names = {word for place, word in enumerate(self.words) if self.is_name(place)}
        fresh = (f"v{number}" for number in itertools.count() if f"v{number}" not in names)
        outer = [place for place in range(self.size) if place not in taken]
        return Writer(self, items, fresh).written(outer)

    def is_variable(self, place):
        return self.is_name(place) and not self.is_call(place)


class Frame:
    """The places that are written of a body or of the text, with the names that are replaced in them and the call's name."""

    def __init__(self, places, names, call):
        self.places, self.names, self.call, self.at = places, names, call, 0


class Writer:
    """Writes the tokens of an expanded text. What is being written stands on a stack of its own, however deep calls go."""

    def __init__(self, source, items, fresh):
        self.source, self.items, self.fresh = source, items, fresh
        self.found, self.length = [], 0
        # By procedure, the names that a call replaces, the parameters' first.
        self.replaced = {}

    def put(self, kind, text, origin, **more):
        self.found.append(Token(kind, text, origin.line, origin.column, **more))
        self.length += len(text) + 1
        if self.length > LONGEST:
            raise Refusal((1, 1), "grown")

    def copy(self, place, frame):
        """Writes the token of a place, with another name where its name is replaced."""
        token = self.source.tokens[place]
        text = frame.names.get(token.text, token.text) if self.source.is_variable(place) else token.text
        self.put(token.kind, text, token, spelled=token.text, call=frame.call)

    def written(self, places):
        """Writes what stands at some places, with calls as what they stand for."""
        stack = [Frame(places, {}, None)]
        while stack:
            frame = stack[-1]
            if frame.at == len(frame.places):
                stack.pop()
                if stack:
                    self.put("symbol", "}", frame.call, made=f"the end of the body of `{frame.call.text}`", call=frame.call)
                continue
            place = frame.places[frame.at]
            if self.source.is_call(place):
                # Its `)` and its `;` are passed.
                frame.at += self.source.closings[place + 1][1] + 2 - place
                stack.append(self.begin_call(place, frame))
            else:
                frame.at += 1
                self.copy(place, frame)
        return self.found

    def begin_call(self, place, frame):
        """Writes a call up to its body, which comes next."""
        source, token, call = self.source, self.source.tokens[place], frame.call
        procedure = source.meant(place)
        own = Token("name", token.text, token.line, token.column, call=call)
        names = dict(zip(self.replaced_by(procedure), self.fresh))
        for kind, text in (("word", "if"), ("word", "true"), ("symbol", "{")):
            self.put(kind, text, own, made=f"the call of `{own.text}`", call=call)
        for param, argument in zip(procedure.params, source.arguments(place)):
            name, made = source.words[param], f"the parameter `{source.words[param]}` of `{own.text}`"
            self.put("word", source.words[param - 1], own, made=made, call=call)
            self.put("name", names.get(name, name), own, spelled=name, made=made, call=own)
            self.put("symbol", "=", own, made=made, call=call)
            for it in argument:
                self.copy(it, frame)
            self.put("symbol", ";", own, made=f"the end of the argument for `{name}` of `{own.text}`", call=call)
        return Frame(procedure.body, names, own)

    def replaced_by(self, procedure):
        if procedure not in self.replaced:
            places = [*procedure.params, *filter(self.source.is_variable, procedure.body)]
            found = dict.fromkeys(self.source.words[place] for place in places)
            self.replaced[procedure] = [name for name in found if name not in self.items]
        return self.replaced[procedure]


def counted(number):
    return f"{number or 'no'} argument{'s' * (number != 1)}"


def has_proc(tokens):
    return any(token.text == "proc" for token in tokens)


def expand(text):
    """A text without its procedures; a refusal is raised. A text that has no `proc` is as it is."""
    if len(text) > LONGEST:
        raise Refusal((1, 1), "text")
    tokens = tokens_of(text)
    check_bytes(tokens)
    if not has_proc(tokens):
        return Expanded(tokens, text)
    source = Source(tokens)
    fault = source.first_fault()
    if fault:
        raise Refusal(tokens[fault.place].place, fault.word, fault.told())
    return Expanded([*source.expanded(), source.end])


def refusal_of(text):
    """The refusal of a text, or else of the bytes of its expansion, or none."""
    try:
        check_bytes(expand(text).tokens)
    except Refusal as refusal:
        return refusal
    return None


@functools.lru_cache(1)
def tokens_of_program(text):
    """The tokens of the program that a text stands for, each with its place in the text; of a text that is refused, its own."""
    try:
        return expand(text).tokens
    except Refusal:
        return tokens_of(text)


def main():
    try:
        sys.stdout.buffer.write(expand(sys.stdin.buffer.read()).text)
    except Refusal as refusal:
        print(refusal)
        return 2
    return 0


if __name__ == "__main__":
    sys.exit(main())
