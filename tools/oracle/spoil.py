#!/usr/bin/env python3
"""Sees that the replay finds a wrong answer of every kind: takes one line of each kind of crates/replay/stdin, changes each of its answers, one at a
time, runs the built program on the line, and compares what it prints with what it has to print.

    python3 tools/oracle/spoil.py [PROGRAM [INPUT [OUTPUT]]]

PROGRAM is crates/replay/out/replay (`rt run </dev/null` in crates/replay builds it), INPUT crates/replay/stdin, OUTPUT crates/replay/stdout.
One line is printed for each kind; the exit status is 1 where a change goes unnoticed."""

import pathlib
import random
import subprocess
import sys

ROOT = pathlib.Path(__file__).resolve().parents[2]

# How many answers stand at the end of a line, where it is not one: the comments at the head of INPUT describe them.
ANSWERS = {3: 2, 4: 2, 8: 2, 9: 2, 10: 2, 11: 6, 19: 96, 20: 9, 22: 2, 23: 6, 25: 2, 26: 9, 27: 2, 28: 2, 29: 69, 33: 24, 34: 92, 35: 3, 36: 24}


def lines_by_kind(lines):
    """The lines of each kind, by its number."""
    found = {}
    for line in lines:
        if line and not line.startswith("#"):
            found.setdefault(int(line.split(" ", 1)[0]), []).append(line)
    return found


def spoiled(line, place):
    """The line with one number, counted from its end, one less, or 1 in place of 0."""
    numbers = line.split(" ")
    number = int(numbers[-place])
    numbers[-place] = str(number - 1 if number > 0 else 1)
    return " ".join(numbers)


def expected(names, kind, agreed):
    """What the program has to print of one line alone."""
    rows = [f"{name}: {agreed if at == kind else 0} of {1 if at == kind else 0} agree" for at, name in enumerate(names, 1)]
    return rows + ["unread: 0"] + ([] if agreed else ["first at line 1"])


def run(program, lines):
    text = "\n".join(lines) + "\n"
    done = subprocess.run([program], input=text, capture_output=True, text=True, check=True)
    return done.stdout.splitlines()


def main(words):
    files = [ROOT / "crates/replay/out/replay", ROOT / "crates/replay/stdin", ROOT / "crates/replay/stdout"]
    program, source, wanted = [pathlib.Path(word) for word in words] + files[len(words):]
    lines = source.read_text().splitlines()
    output = wanted.read_text().splitlines()
    if run(program, lines) != output:
        print("spoil: the unchanged input does not give the stored output")
        return 1
    names = [row.split(":")[0] for row in output if not row.startswith("unread")]
    kinds = lines_by_kind(lines)
    choice = random.Random(1)
    unnoticed = 0
    for kind, name in enumerate(names, 1):
        line = choice.choice(kinds[kind])
        answers = ANSWERS.get(kind, 1)
        missed = [] if run(program, [line]) == expected(names, kind, 1) else [0]
        missed += [p for p in range(1, answers + 1) if run(program, [spoiled(line, p)]) != expected(names, kind, 0)]
        unnoticed += len(missed)
        print(f"{kind:2} {name}: {answers} changed, {answers - len(missed)} found")
    print(f"{unnoticed} changes went unnoticed")
    return 1 if unnoticed else 0


if __name__ == "__main__":
    sys.exit(main(sys.argv[1:]))
