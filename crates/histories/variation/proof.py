"""The proof: a repository of its own, in which antt computes the histories that were found under each variant.

A variant is written as the changed definition and all that rest on it, with names that end in its number.
"""
import os
import re
import subprocess
import tempfile

from .terms import HISTORY, PROOFS, parts, read, show, show_type, text_of, topics

USES = """use Rattle.std.specs.Prelude.{◌≡◌, refl, List, [], ◌∷◌, ◌++◌, Bool, true, false, cond, not, ◌&&◌, ◌||◌, ℕ, zero, suc, ◌+◌, ◌/◌, ◌%◌, max}
use Rattle.std.specs.Prelude.{eqb, leb, ℤ, pos, negsuc, get_or, take, drop, length}
use Rattle.std.specs.Bool.{beq}
use Rattle.rules.specs.declared.Answer.{Answer}
use Rattle.rules.specs.declared.Call.{Call}
"""


def names_in(term):
    if term[0] == "var":
        return {term[1]}
    inner = [term[1]] if term[0] in ("app", "field") else []
    return set().union(*(names_in(x) for x in inner + [x for x, _ in parts(term)]))


def renamed(term, rename):
    if term[0] == "var":
        return ("var", rename(term[1]))
    if term[0] == "field":
        return ("field", renamed(term[1], rename), term[2])
    if term[0] == "app":
        term = ("app", renamed(term[1], rename), term[2])
    for i in range(len(parts(term))):
        part, put = parts(term)[i]
        term = put(renamed(part, rename))
    return term


def above(definitions, names):
    """The definitions that rest on the named ones, and these."""
    found = set(names)
    for d in definitions.values():
        if any(names_in(body) & found for _, body in d.rules):
            found.add(d.name)
    return found


def module(history, rows, changed, cases):
    """For each case, a number, the rules of some definitions and histories with a verdict: those definitions and the changed ones, and the verdicts."""
    definitions = {**history, **rows}
    kept = [n for n in definitions if n not in changed]
    shut = [n for n in kept if definitions[n].shut]
    lines = [USES]
    lines.append("use Rattle.rules.specs.History.{" + ", ".join(["Event"] + [n for n in kept if n in history]) + "}")
    lines.append("use Rattle.histories.proofs.Rows.{" + ", ".join(["Row", "commit", "breaks"] + [n for n in kept if n in rows]) + "}")
    lines += [f"use Rattle.histories.proofs.{t}" for t in topics()]
    for number, rules, verdicts in cases:
        def rename(name):
            return f"{name}·{number}" if name in changed else name
        for d in definitions.values():
            if d.name in changed:
                lines.append(f"abbrev {rename(d.name)} : {show_type(d.type)}")
                for patterns, body in rules.get(d.name, d.rules):
                    left = [rename(d.name)] + [show(p, True) for p in patterns]
                    lines.append(f"{' '.join(left)} = {show(renamed(body, rename))}")
        for i, (entry, verdict) in enumerate(verdicts):
            lines.append(f"verdict·{number}·{i} : {rename('holds')} ({rename('events_of')} ({entry.antt})) ≡ {'true' if verdict else 'false'}")
            lines += ["unfolding " + " ".join(shut)] * bool(shut) + [f"verdict·{number}·{i} = refl"]
    return "\n".join(lines) + "\n"


def modules(history, histories, variants):
    rows = read(f"{PROOFS}/Rows.antt")
    rows = {n: rows[n] for n in ("numbers_of", "places_of", "then_rows", "events_of")}
    # the definitions as they were read and are written: each history has the verdict of its table
    yield "Unchanged", module(history, rows, {*history, *rows}, [(0, {}, [(e, e.right) for e in histories])])
    for d in history:
        cases = [(v.number, {d: v.rules}, [(e, not e.right) for e in v.tellers]) for v in variants if v.definition == d and v.tellers]
        yield f"Variants·{d}", module(history, rows, above({**history, **rows}, [d]), cases)


def prove(history, histories, variants):
    """What antt says against it; nothing if all is proved."""
    with tempfile.TemporaryDirectory() as folder:
        def write(path, text):
            path = os.path.join(folder, path)
            os.makedirs(os.path.dirname(path), exist_ok=True)
            with open(path, "w", encoding="utf-8") as file:
                file.write(text)
        structs = re.findall(r"^pub struct (?:Call|Answer) \{.*?^\}\n", text_of("crates/rules/src/lib.rt"), re.S | re.M)
        write("crates.txt", "rules:\nhistories: rules\n")
        write("crates/rules/src/lib.rt", "\n".join(structs))
        write("crates/rules/specs/Lib.antt", "pub mod History\n")
        write(HISTORY, text_of(HISTORY))
        write("crates/histories/src/lib.rt", text_of("crates/histories/src/lib.rt"))
        files = {name: text_of(f"{PROOFS}/{name}.antt") for name in ["Rows"] + topics()}
        files.update(modules(history, histories, variants))
        files["Lib"] = "".join(f"pub mod {name}\n" for name in files)
        for name, text in files.items():
            write(f"{PROOFS}/{name}.antt", text)
        ran = subprocess.run(["rt", "check"], cwd=os.path.join(folder, "crates/histories"), stdout=subprocess.PIPE, stderr=subprocess.STDOUT, text=True)
    return "" if ran.returncode == 0 else ran.stdout
