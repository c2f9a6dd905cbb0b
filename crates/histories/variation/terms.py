"""The antt that the history statement and its histories are written in: read, and shown again.

A term is a tuple: ('num', n), ('var', name), ('app', function, arguments), ('op', sign, left, right), ('field', term, name),
('lam', variable, body) or ('rec', [(field, term)]). A type is a name, ('List', type) or ('→', type, type).
"""
import os
import re

ROOT = os.path.abspath(os.path.join(os.path.dirname(__file__), "..", "..", ".."))
HISTORY = "crates/rules/specs/History.antt"
PROOFS = "crates/histories/proofs"

LEVELS = [["||"], ["&&"], ["∷", "++"], ["+"], ["/", "%"]]
TO_THE_RIGHT = {"||", "&&", "∷", "++"}
TOKEN = re.compile(r"\s*(\|\||&&|∷|\+\+|\[\]|→|λ|[(){};=+/%]|\.[A-Za-z]\w*|[^\s(){};=+/%.→]+|\.)")


class Reader:
    def __init__(self, text):
        self.tokens, self.at = TOKEN.findall(text), 0

    def peek(self):
        return self.tokens[self.at] if self.at < len(self.tokens) else None

    def next(self, wanted=None):
        token = self.peek()
        assert token is not None and wanted in (None, token), f"{wanted or 'more'} expected in {' '.join(self.tokens)}"
        self.at += 1
        return token

    def term(self, level=0):
        if self.peek() == "λ":
            self.next()
            x = self.next()
            self.next(".")
            return ("lam", x, self.term())
        if level == len(LEVELS):
            return self.application()
        left = self.term(level + 1)
        while self.peek() in LEVELS[level]:
            sign = self.next()
            left = ("op", sign, left, self.term(level if sign in TO_THE_RIGHT else level + 1))
        return left

    def application(self):
        head, arguments = self.atom(), []
        while True:
            token = self.peek()
            if token in (None, ")", "}", ";", "=") or any(token in signs for signs in LEVELS):
                return ("app", head, arguments) if arguments else head
            arguments.append(self.atom())

    def atom(self):
        """A term that may be handed over as it stands, with the fields that are taken of it."""
        term = self.whole()
        while (self.peek() or "").startswith(".") and len(self.peek()) > 1:
            term = ("field", term, self.next()[1:])
        return term

    def whole(self):
        token = self.next()
        if token == "(":
            inner = self.term()
            self.next(")")
            return inner
        if token == "record":
            self.next("{")
            fields = []
            while self.peek() != "}":
                name = self.next()
                self.next("=")
                fields.append((name, self.term()))
                if self.peek() == ";":
                    self.next()
            self.next()
            return ("rec", fields)
        return ("num", int(token)) if token.isdigit() else ("var", token)

    def type(self):
        left = self.type_atom()
        if left == "List":
            left = ("List", self.type_atom())
        if self.peek() != "→":
            return left
        self.next()
        return ("→", left, self.type())

    def type_atom(self):
        if self.peek() != "(":
            return self.next()
        self.next()
        inner = self.type()
        self.next(")")
        return inner


class Definition:
    """A name, its type, whether it is shut (`unfoldable`), and its rules: the patterns on the left, the term on the right."""

    def __init__(self, name, type, shut):
        self.name, self.type, self.shut, self.rules = name, type, shut, []


def text_of(path):
    with open(os.path.join(ROOT, path), encoding="utf-8") as file:
        return file.read()


def read(path):
    """The public definitions of a file, by name, in its order."""
    found = {}
    for item in re.split(r"\n(?=\w)", re.sub(r"--.*", "", text_of(path))):
        item = " ".join(item.split())
        signature = re.match(r"(unfoldable|abbrev) pub (\S+) : (.*)", item)
        if signature:
            found[signature[2]] = Definition(signature[2], Reader(signature[3]).type(), signature[1] == "unfoldable")
        elif item.split(" ")[0] in found:
            left, right = item.split(" = ", 1)
            reader, patterns = Reader(left), []
            name = reader.next()
            while reader.peek():
                patterns.append(reader.atom())
            found[name].rules.append((patterns, Reader(right).term()))
    return found


def topics():
    """The files of histories: those that Verdicts takes its tables from."""
    return re.findall(r"^use Rattle\.histories\.proofs\.(\w+)$", text_of(f"{PROOFS}/Verdicts.antt"), re.M)


def show(term, inner=False):
    if term[0] == "num":
        return str(term[1])
    if term[0] == "var":
        return term[1]
    if term[0] == "rec":
        return "record { " + "; ".join(f"{f} = {show(x)}" for f, x in term[1]) + " }"
    if term[0] == "field":
        return f"{show(term[1], True)}.{term[2]}"
    if term[0] == "app":
        s = " ".join(show(x, True) for x in [term[1]] + term[2])
    elif term[0] == "op":
        left, right = (show(x, x[0] in ("op", "lam")) for x in term[2:])
        s = f"{left} {term[1]} {right}"
    else:
        s = f"λ {term[1]}. {show(term[2])}"
    return f"({s})" if inner else s


def show_type(type):
    if type[0] == "→":
        left = show_type(type[1])
        return (f"({left})" if type[1][0] == "→" else left) + " → " + show_type(type[2])
    return f"List {type[1]}" if type[0] == "List" else type


def chain(term, sign):
    """The members of `a && (b && c)`."""
    return [term[2]] + chain(term[3], sign) if term[:2] == ("op", sign) else [term]


def chained(sign, members):
    return members[0] if len(members) == 1 else ("op", sign, members[0], chained(sign, members[1:]))


def parts(term):
    """The parts of a term, each with a function that puts another in its place."""
    if term[0] == "app":
        _, f, xs = term
        return [(x, lambda y, i=i: ("app", f, xs[:i] + [y] + xs[i + 1:])) for i, x in enumerate(xs)]
    if term[0] == "op" and term[1] in ("&&", "||"):
        xs = chain(term, term[1])
        return [(x, lambda y, i=i: chained(term[1], xs[:i] + [y] + xs[i + 1:])) for i, x in enumerate(xs)]
    if term[0] == "op":
        return [(term[2], lambda y: ("op", term[1], y, term[3])), (term[3], lambda y: ("op", term[1], term[2], y))]
    if term[0] == "lam":
        return [(term[2], lambda y: ("lam", term[1], y))]
    if term[0] == "rec":
        xs = term[1]
        return [(x, lambda y, i=i, f=f: ("rec", xs[:i] + [(f, y)] + xs[i + 1:])) for i, (f, x) in enumerate(xs)]
    return []
