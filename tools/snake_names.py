#!/usr/bin/env python3
"""Turns the repository's own names in definitions, lemmas and contracts to snake case: modeOfCode to mode_of_code, can-be-sent to can_be_sent.

usage: python3 tools/snake_names.py [--list]      at the top of the repository, once, after the kit's port.py; --list writes nothing

Own names are those that files of specs/ and of proofs/ declare; a name of another library, a type, a module and a name that Rattle
makes (those of the needs of a proof and of their steps) stay. Names of the same kind that fall together with another are left and listed.
"""

import os
import re
import sys

DELIMITERS = r"\s(){}\[\].,;:«»\"`⌜⌝|⟦⟧"
TOKEN = re.compile(rf"[^{DELIMITERS}]+")
DECLARED = re.compile(r"^\s*(?:(?:abbrev|unfoldable|pub|data|record|ruleset)\s+)*([^\s:{}();.«»]+)\s*(?:[({].*[)}]\s*)?:(?:\s|$)")
CONSTRUCTOR = re.compile(r"^\s+(?:pub\s+)?([^\s:{}();.«»]+)\s*:(?:\s|$)")
# Lemmas in snake case already, each of which a definition would fall together with.
LEMMAS = {"first_step": "encoder_bit_demand", "row_number": ""}


def files(root, ends):
    for folder, dirs, names in os.walk(root):
        dirs[:] = sorted(d for d in dirs if d not in ("out", ".git", "target"))
        for n in sorted(names):
            if n.endswith(ends):
                yield os.path.join(folder, n)


def is_lemma_file(path):
    parts = path.split(os.sep)
    if "specs" in parts:
        return True
    return "proofs" in parts and parts[-1] not in ("Proof.antt", "Answers.antt", "Invariants.antt") or "proofs" in parts and parts.index("proofs") == len(parts) - 2


def snake(name):
    words = re.sub(r"(?<=[a-z0-9])([A-Z])", lambda m: "_" + m.group(1).lower(), name)
    return words.replace("-", "_")


def own_names(root):
    found = set()
    for p in files(os.path.join(root, "crates"), ".antt"):
        if not is_lemma_file(p):
            continue
        for line in open(p, encoding="utf-8"):
            m = DECLARED.match(line.split(" -- ")[0])
            if m and not line.lstrip().startswith(("use ", "pub use", "--", "module", "let ", "in ", "λ", "|")):
                found.add(m.group(1))
    return found


def wants(name):
    return name[0].islower() and (re.search(r"[a-z0-9][A-Z]", name) or "-" in name.strip("-")) and not name.startswith("-")


def table(root):
    """From each own name to its new spelling. A lemma that would have a definition's name gets `_lem`."""
    own = own_names(root)
    turned = {n: snake(n) for n in own if wants(n)}
    definitions = {to for n, to in turned.items() if "-" not in n} | own
    for n, to in turned.items():
        if "-" in n and to in definitions:
            turned[n] = to + "_lem"
    return turned


def turn(line, turned, whole, lemmas=()):
    def one(m):
        name = m.group(0)
        # A field or a step of a proof.
        if line[: m.start()].endswith(".") and name in turned and "-" in name:
            return snake(name)
        return name + "_lem" if name in lemmas and not line[: m.start()].endswith(".") else turned.get(name, name)

    if whole:
        return TOKEN.sub(one, line)
    # Prose: names in backticks, and names that no prose has.
    line = re.sub(r"`[^`\n]*`", lambda m: TOKEN.sub(lambda n: turned.get(n.group(0), n.group(0)), m.group(0)), line)
    return TOKEN.sub(lambda m: turned.get(m.group(0), m.group(0)) if re.search(r"[a-z0-9][A-Z]", m.group(0)) else m.group(0), line)


def main(argv):
    turned = table(".")
    if argv:
        for n, to in sorted(turned.items()):
            print(n, to)
        return 0
    for p in files("crates", (".antt", ".rt", ".edit")):
        text = open(p, encoding="utf-8").read().split("\n")
        lemmas = {n for n, crate in LEMMAS.items() if f"crates/{crate}" in p}
        out = []
        for line in text:
            if p.endswith(".antt"):
                code, dash, prose = line.partition("--") if line.lstrip().startswith("--") else line.partition(" -- ")
                out.append(turn(code, turned, True, lemmas) + dash + turn(prose, turned, False))
            elif p.endswith(".edit"):
                out.append(turn(line, turned, line.startswith(("old: ", "new: "))))
            else:
                out.append(turn_rt(line, turned))
        if out != text:
            open(p, "w", encoding="utf-8").write("\n".join(out))
    return 0


def turn_rt(line, turned):
    code, dash, prose = line.partition("//")
    if re.match(r"\s*(ghost use|ensures|requires|ghost)", code):
        return turn(code, turned, True) + dash + turn(prose, turned, False)
    return turn(code, turned, False) + dash + turn(prose, turned, False)


raise SystemExit(main(sys.argv[1:]))
