#!/usr/bin/env python3
"""Brings the names of this repository's own definitions and lemmas to snake case.

usage: python3 tools/respell.py        at the top of the repository, once, after the port.py of the kit

A name is one that a file of specs/, or a file of lemmas in proofs/, defines, or a field or a constructor there; types and modules keep
their capitals. Such a name with a dash or an inner capital is turned wherever it stands: in .antt and .rt files (strings aside), in the
must-fail edits and, between backticks, in the pages. A name that a file imports from a library of the kit stays in that file.
A lemma that would have a definition's name gets `_lem`; LEMMAS has those that port.py had turned before. It stops, and changes nothing,
where two names would fall together in a file. A definition may have the name of the function of src/ that is proved equal to it.
"""
import collections
import os
import re
import sys

TOKEN = re.compile(r"[^\s(){}\[\],;.`\"]+")
LEMMAS = {
    "crates/monitor/proofs/Lists.antt": {"live_at": "live_at_lem"},
    "crates/monitor/proofs/Laws.antt": {"live_at": "live_at_lem"},
    "crates/number/proofs/Marked.antt": {"same_bytes": "same_bytes_lem"},
    "crates/number/proofs/Reading.antt": {"read_number": "read_number_lem"},
    "crates/rules/proofs/AnswerCodes.antt": {"same_code": "same_code_lem"},
    "crates/rules/proofs/Marked.antt": {"same_code": "same_code_lem"},
    "crates/rules/proofs/Tables.antt": {"same_code": "same_code_lem"},
    "crates/histories/proofs/Answers.antt": {"same_code": "same_code_lem"},
    "crates/rules/proofs/Refusals.antt": {"go_on": "go_on_lem"},
    "crates/wire/proofs/RoundTrip.antt": {"as_written": "as_written_lem"},
}
OWN = re.compile(r"^Rattle\.(?!std\b|core\b|logic\b)")


def walk(root, wanted):
    for folder, folders, files in os.walk(root):
        folders[:] = sorted(f for f in folders if f not in ("out", ".git", "target"))
        for name in sorted(files):
            if wanted(name):
                yield os.path.join(folder, name)


def defined(text):
    """The names that a file of definitions or lemmas defines, those of its inner modules too."""
    inside, depth = False, 0
    for line in text.split("\n"):
        if not line.strip() or line.lstrip().startswith("--"):
            continue
        indent = len(line) - len(line.lstrip())
        depth = min(depth, indent)
        line = line[depth:]
        if re.match(r"(pub )?module ", line):
            depth, inside = depth + 2, False
        elif not line[0].isspace():
            head = re.match(r"((?:(?:pub|unfoldable|abbrev|data|record|ruleset) +)*)([^\s(){}\[\],;.]+)(.*)$", line)
            if not head or head[2] in ("use", "mod", "unfolding", "where", "open"):
                continue
            inside = "record" in head[1] or "data" in head[1]
            if head[1].strip() or re.match(r" *(\{[^}]*\} *|\([^)]*\) *)*:", head[3]):
                yield head[2]
        elif inside:
            head = re.match(r"  (?:pub )?([^\s(){}\[\],;.]+) *:( |$)", line)
            if head:
                yield head[1]


def snake(name):
    return re.sub(r"(?<=[a-z0-9])([A-Z])", lambda m: "_" + m[1].lower(), name).replace("-", "_")


def is_turned(name):
    return name[0].islower() and ("-" in name or re.search(r"[a-z0-9][A-Z]", name))


def imported(text):
    """The names that a file imports from a library of the kit."""
    names = set()
    for line in re.findall(r"^(?:pub\s+|ghost\s+)*use ([^;\n]*)", text, re.M):
        if not OWN.match(line):
            names |= set(TOKEN.findall(line.split("{", 1)[-1])) if "{" in line else set()
    return names


def turned(text, names, held):
    return TOKEN.sub(lambda m: names.get(m[0], m[0]) if m[0] not in held else m[0], text)


def turned_code(text, names, held):
    """The code of a .rt file: what stands in strings stays."""
    parts = re.split(r'("(?:[^"\\\n]|\\.)*")', text)
    return "".join(part if i % 2 else turned(part, names, held) for i, part in enumerate(parts))


def turned_page(text, names):
    return re.sub(r"`[^`\n]*`", lambda m: turned(m[0], names, set()), text)


def main():
    if not os.path.isdir("crates"):
        sys.exit(__doc__)
    definitions = [p for p in walk("crates", lambda n: n.endswith(".antt") and n not in ("Proof.antt", "Lib.antt"))]
    own = {name for path in definitions for name in defined(open(path, encoding="utf-8").read())}
    words = {snake(name) for name in own if "-" not in name}
    names = {name: snake(name) + ("_lem" if "-" in name and snake(name) in words else "") for name in own if is_turned(name)}
    amiss, writes = [], []
    for path in walk(".", lambda n: n.endswith((".antt", ".rt", ".edit", ".md"))):
        text = open(path, encoding="utf-8").read()
        if path.endswith(".md"):
            writes.append((path, text, turned_page(text, names)))
            continue
        held = imported(text)
        here = names | LEMMAS.get(path.removeprefix("./"), {})
        code = "\n".join(line for line in text.split("\n") if not line.lstrip().startswith(("--", "//", "#")))
        tokens = set(TOKEN.findall(code))
        found = collections.defaultdict(set)
        for name in tokens:
            found[here.get(name, name) if name not in held else name].add(name)
        if path.endswith(".antt") and not path.endswith("Proof.antt"):
            amiss += [f"{path}: {', '.join(sorted(olds))} fall together" for olds in found.values() if len(olds) > 1]
        writes.append((path, text, (turned_code if path.endswith(".rt") else turned)(text, here, held)))
    if amiss:
        sys.exit("\n".join(amiss))
    for path, old, new in writes:
        if old != new:
            with open(path, "w", encoding="utf-8") as f:
                f.write(new)
    print(f"{len(names)} names in snake case, {sum(old != new for _, old, new in writes)} files changed")


if __name__ == "__main__":
    main()
