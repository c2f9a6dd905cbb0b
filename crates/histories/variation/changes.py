"""The variants of a definition: one clause dropped, one test negated, one number changed, or one name exchanged for another of its type."""
from .terms import chain, chained, parts, show

NAT, BOOL, EVENT, EVENTS = "ℕ", "Bool", "Event", ("List", "Event")
BUILT_IN = {
    "eqb": [NAT, NAT, BOOL], "leb": [NAT, NAT, BOOL], "max": [NAT, NAT, NAT], "not": [BOOL, BOOL], "beq": [BOOL, BOOL, BOOL],
    "true": [BOOL], "false": [BOOL], "[]": [EVENTS],
}
# the fields that the statement reads; each is exchanged for the others of its record
FIELDS = {"call": ["clock", "party", "kind", "a", "b"], "answer": ["value", "event", "tx"]}
ALIKE = {"accepted": "past21", "past21": "accepted", "replied": "accepted", "with_value": "with_event", "with_event": "with_value"}
OTHER_SIGN = {"&&": "||", "||": "&&"}


def parameters(type):
    """The types of a function's parameters, and of its result."""
    return [type[1]] + parameters(type[2]) if type[0] == "→" else [type]


def bind(pattern, type, scope):
    """The variables of a pattern, with their types."""
    if pattern[0] == "op":
        bind(pattern[2], type[1], scope)
        bind(pattern[3], type, scope)
    elif pattern[0] == "app":
        bind(pattern[2][0], NAT, scope)
    elif pattern[1] not in ("[]", "zero"):
        scope[pattern[1]] = type


def negation(term):
    return term[2][0] if term[0] == "app" and term[1][1] == "not" else ("app", ("var", "not"), [term])


class Changes:
    def __init__(self, history, definition):
        self.history, self.definition = history, definition

    def type_of(self, term, scope):
        """Its type if it is a number, a Bool, an event or a list of events, else something that is none of these."""
        if term[0] == "num":
            return NAT
        if term[0] == "op":
            return BOOL if term[1] in OTHER_SIGN else EVENTS if term[1] == "∷" else NAT
        if term[0] == "field":
            return NAT if term[2] not in ("call", "answer", "code") else None
        if term[0] not in ("var", "app"):
            return None
        f, count = (term[1], 0) if term[0] == "var" else (term[1][1], len(term[2]))
        if f == "cond":
            return self.type_of(term[2][1], scope)
        known = scope.get(f) or (self.history[f].type if f in self.history else None)
        types = parameters(known) if known else BUILT_IN.get(f, [])
        return types[-1] if len(types) == count + 1 else None

    def here(self, term, scope, under):
        """The term changed as a whole, and how to say that if not as old → new. under: what it is handed to."""
        type, shown = self.type_of(term, scope), f"`{show(term)}`"
        kind, name = term[0], term[1]
        if term in (("var", "true"), ("var", "false")):
            yield ("var", "false" if name == "true" else "true"), None
        elif type == BOOL and under != "not":
            yield negation(term), f"{shown} negated"
        if kind == "op" and name in OTHER_SIGN:
            xs = chain(term, name)
            for i, x in enumerate(xs):
                yield chained(name, xs[:i] + xs[i + 1:]), f"without `{show(x)}`"
            yield chained(OTHER_SIGN[name], xs), f"`{OTHER_SIGN[name]}` for `{name}` in {shown}"
        elif kind == "op" and name == "+":
            yield from ((x, None) for x in term[2:])
        elif kind == "op" and name == "∷":
            yield term[3], None
        elif kind == "num":
            yield from ((("num", n), None) for n in (name + 1, name - 1) if n >= 0)
        elif kind == "field" and type == NAT:
            yield from ((("field", name, f), None) for f in FIELDS[name[2]] if f != term[2])
        elif kind == "app":
            yield from ((x, None) for x in self.call(name, term[2]))
        # another variable of its type; the list that a recursive call goes down is left alone
        if kind == "var" and (type in (NAT, EVENT) or type == EVENTS and under not in (self.definition.name, "∷")):
            yield from ((("var", v), None) for v, t in scope.items() if t == type and v != name)
            if type == EVENTS and name in scope:
                yield from ((("op", "++", term, ("var", v)), None) for v, t in scope.items() if t == EVENTS and v != name)
                yield from ((("op", "∷", ("var", v), term), None) for v in self.events)
                yield ("var", "[]"), None

    def call(self, f, xs):
        name = f[1]
        if name == "cond":
            yield from xs[1:]
        elif name == "max":
            yield from xs
        elif name == "leb":
            yield ("app", f, [xs[1], xs[0]])
            yield ("app", f, [("op", "+", ("num", 1), xs[0]), xs[1]])
        elif name == "beq":
            yield ("op", "||", negation(xs[0]), xs[1])
            yield ("op", "||", xs[0], negation(xs[1]))
        elif name == "negsuc":
            yield ("app", ("var", "pos"), [("num", xs[0][1] + 1)])
        elif name == "pos" and xs[0] == ("num", 0):
            yield ("app", ("var", "negsuc"), xs)
        elif name in ALIKE:
            yield ("app", ("var", ALIKE[name]), xs)

    def changes(self, term, scope, under=None):
        """The terms that differ in one place, each with what to say of it: a text, or the part before and after."""
        for new, said in self.here(term, scope, under):
            yield new, said or (term, new)
        if term[0] == "lam":
            scope = {**scope, term[1]: EVENT}
        f = term[1][1] if term[0] == "app" else term[1] if term[0] == "op" else None
        small = f not in (None, "cond", "&&", "||") and len(show(term)) <= 60
        for part, put in parts(term):
            for new, said in self.changes(part, scope, f):
                new = put(new)
                yield new, (term, new) if small and not isinstance(said, str) else said

    def all(self):
        """Each variant's rules, and what was changed."""
        rules, seen = self.definition.rules, {}
        for i, (patterns, body) in enumerate(rules):
            scope = {}
            for p, t in zip(patterns, parameters(self.definition.type)):
                bind(p, t, scope)
            self.events = [v for v, t in scope.items() if t == EVENT]
            for new, said in self.changes(body, scope):
                if not isinstance(said, str):
                    said = f"`{show(said[0])}` → `{show(said[1])}`"
                if len(rules) > 1:
                    said += f" at `{' '.join(show(p, True) for p in patterns)}`"
                seen[said] = seen.get(said, 0) + 1
                yield rules[:i] + [(patterns, new)] + rules[i + 1:], said + (f" (place {seen[said]})" if seen[said] > 1 else "")
