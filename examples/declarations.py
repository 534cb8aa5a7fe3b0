#!/usr/bin/env python3
"""Holds the declarations of include/folgrist_mp2.h against the functions that crates/folgrist_mp2_c exports, and against those of crates/folgrist_mp2
that these call: names, parameters in their order, types and what is returned. Prints nothing where they are the same, else the first that differs, with exit
status 1."""

import pathlib
import re
import sys

ROOT = pathlib.Path(__file__).resolve().parents[1]
NUMBERS = {"uint8_t": "u8", "uint32_t": "u32", "uint64_t": "u64", "int64_t": "i64", "double": "f64"}


def in_rust(parameters):
    """C's parameters as Rattle has them: an array and its length are a slice."""
    found = []
    for parameter in parameters:
        words = parameter.replace("*", " * ").split()
        name, kind = words[-1], words[:-1]
        if kind == ["size_t"] and found and name == found[-1][0] + "_len" and found[-1][1].startswith("pointer"):
            constant, number = found[-1][1].split()[1:]
            found[-1] = (found[-1][0], f"&{'' if constant == 'const' else 'mut '}[{number}]")
        elif kind[-1] == "*":
            found.append((name, f"pointer {'const' if kind[0] == 'const' else 'mut'} {NUMBERS[kind[-2]]}"))
        else:
            found.append((name, NUMBERS[kind[0]]))
    return found


def declared():
    text = re.sub(r"/\*.*?\*/", " ", (ROOT / "include/folgrist_mp2.h").read_text(), flags=re.S)
    functions = {}
    for result, name, inside in re.findall(r"(\w+)\s+(folgrist_\w+)\(([^()]*)\);", text):
        parameters = [] if inside.strip() == "void" else [" ".join(p.split()) for p in inside.split(",")]
        functions[name] = (in_rust(parameters), NUMBERS[result])
    return functions


def in_source(crate, head):
    functions = {}
    for file in sorted((ROOT / "crates" / crate / "src").glob("*.rt")):
        for name, inside, result in re.findall(head + r" (folgrist_\w+)\(([^()]*)\)\s*->\s*(\w+)", file.read_text()):
            parameters = [p.split(":") for p in inside.split(",") if p.strip()]
            functions[name] = ([(n.strip(), " ".join(t.split())) for n, t in parameters], result)
    return functions


def main():
    header = declared()
    for crate, head in (("folgrist_mp2_c", 'pub extern "C" fn'), ("folgrist_mp2", "pub fn")):
        source = in_source(crate, head)
        for name in sorted(set(header) | set(source)):
            if header.get(name) != source.get(name):
                print(f"{name}: the header declares {header.get(name)}, {crate} has {source.get(name)}", file=sys.stderr)
                return 1
    return 0


sys.exit(main())
