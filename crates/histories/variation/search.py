"""The search for histories that tell a variant. It runs the definitions as Python: a list is () or (head, tail), a record a dict."""
from .changes import Changes
from .terms import PROOFS, chain, read, show, topics

FOUND = 3  # as many histories are looked for


def append(xs, ys):
    return (xs[0], append(xs[1], ys)) if xs else ys


def place(xs, i, default):
    return default if not xs else xs[0] if i == 0 else place(xs[1], i - 1, default)


def drop(n, xs):
    return xs if n == 0 or not xs else drop(n - 1, xs[1])


def take(n, xs):
    return () if n == 0 or not xs else (xs[0], take(n - 1, xs[1]))


def replace(xs, i, x):
    return () if not xs else (x, xs[1]) if i == 0 else (xs[0], replace(xs[1], i - 1, x))


def length(xs):
    return 1 + length(xs[1]) if xs else 0


NAMES = {
    "eqb": "({} == {})", "leb": "({} <= {})", "max": "max({}, {})", "not": "(not {})", "beq": "({} == {})", "cond": "({1} if {0} else {2})",
    "pos": "{}", "negsuc": "(-1 - {})", "zero": "0", "true": "True", "false": "False", "sender": "0", "commit": "1", "alone": "2", "[]": "()",
    "get_or": "place({}, {}, {})", "drop": "drop({}, {})", "take": "take({}, {})", "set": "replace({}, {}, {})", "length": "length({})",
}
SIGNS = {"&&": "({} and {})", "||": "({} or {})", "∷": "({}, {})", "++": "append({}, {})", "+": "({} + {})", "/": "({} // {})", "%": "({} % {})"}


def python(term, definitions, scope):
    """The term as Python. A variable x is v_x, a definition f is d_f."""
    def go(x):
        return python(x, definitions, scope)
    if term[0] == "num":
        return str(term[1])
    if term[0] == "op":
        return SIGNS[term[1]].format(go(term[2]), go(term[3]))
    if term[0] == "field":
        return f"{go(term[1])}['{term[2]}']"
    if term[0] == "lam":
        return f"(lambda v_{term[1]}: {python(term[2], definitions, scope | {term[1]})})"
    if term[0] == "rec":
        return "{" + ", ".join(f"'{f}': {go(x)}" for f, x in term[1]) + "}"
    f, xs = (term[1], []) if term[0] == "var" else (term[1][1], [go(x) for x in term[2]])
    if f in scope:
        return f"v_{f}" + (f"({', '.join(xs)})" if xs else "")
    if f in NAMES:
        return NAMES[f].format(*xs)
    more = [f"x{i}" for i in range(len(definitions[f].rules[0][0]) - len(xs))]
    call = f"d_{f}({', '.join(xs + more)})"
    return f"(lambda {', '.join(more)}: {call})" if more else call


def match(pattern, x, tests, bound):
    """What the pattern asks of x, and what it binds."""
    if pattern[0] == "op":
        tests.append(x)
        match(pattern[2], x + "[0]", tests, bound)
        match(pattern[3], x + "[1]", tests, bound)
    elif pattern[0] == "app":
        test, inner = {"suc": ("{} > 0", "({} - 1)"), "pos": ("{} >= 0", "{}"), "negsuc": ("{} < 0", "(-1 - {})")}[pattern[1][1]]
        tests.append(test.format(x))
        match(pattern[2][0], inner.format(x), tests, bound)
    elif pattern[1] in ("[]", "zero"):
        tests.append(f"not {x}")
    else:
        bound.append((pattern[1], x))


def define(environment, definitions, name, rules):
    xs = [f"x{i}" for i in range(len(rules[0][0]))]
    lines = [f"def d_{name}({', '.join(xs)}):"]
    for patterns, body in rules:
        tests, bound = [], []
        for p, x in zip(patterns, xs):
            match(p, x, tests, bound)
        lines.append(f"    if {' and '.join(tests) or 'True'}:")
        lines += [f"        v_{v} = {x}" for v, x in bound]
        lines.append(f"        return {python(body, definitions, {v for v, _ in bound})}")
    exec("\n".join(lines), environment)


def environment_of(definitions):
    environment = dict(globals())
    for d in definitions.values():
        define(environment, definitions, d.name, d.rules)
    return environment


class Entry:
    """A history of the tables, as it is written; right says whether the statement holds of it."""

    def __init__(self, topic, table, place, term, value):
        self.right = table != "spoilt"
        self.name = show(term if self.right else term[2][1])
        self.rows = value if self.right else value["rows"]
        self.antt = f"get_or {topic}.{table} {place} []" if self.right else f"(get_or {topic}.{table} {place} (breaks commit [])).rows"


def entries(history):
    rows = read(f"{PROOFS}/Rows.antt")
    for topic in topics():
        own = read(f"{PROOFS}/{topic}.antt")
        environment = environment_of({**history, **rows, **own})
        for table in (t for t in ("real", "spoilt", "harmless") if t in own):
            values = environment[f"d_{table}"]()
            for i, term in enumerate(chain(own[table].rules[0][1], "∷")[:-1]):
                yield Entry(topic, table, i, term, place(values, i, None))


class Variant:
    def __init__(self, number, definition, rules, said, tellers):
        self.number, self.definition, self.rules, self.said, self.tellers = number, definition, rules, said, tellers


def search(history, histories):
    """Every variant, with histories that tell it."""
    environment = environment_of({**history, **read(f"{PROOFS}/Rows.antt")})

    def is_told(entry):
        return environment["d_holds"](environment["d_events_of"](entry.rows)) != entry.right
    assert not any(is_told(e) for e in histories), "the search does not compute the statement"
    number = 0
    for d in history.values():
        for rules, said in Changes(history, d).all():
            define(environment, history, d.name, rules)
            tellers = []
            for e in histories:
                if len(tellers) < FOUND and is_told(e):
                    tellers.append(e)
            yield Variant(number, d.name, rules, said, tellers)
            number += 1
        define(environment, history, d.name, d.rules)
