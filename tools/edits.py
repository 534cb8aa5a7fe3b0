#!/usr/bin/env python3
"""Tells in a second which edits of must-fail/ no longer apply: `python3 tools/edits.py`, from the top.

Each `old:` text has to stand once in its file, in which the pairs before it are carried out. It proves nothing: `rt must-fail` does.
"""
import glob
import os
import sys


def faults(edit):
    crate = edit.split("/must-fail/")[0]
    texts, file, old = {}, None, None
    with open(edit, encoding="utf-8") as f:
        lines = f.read().split("\n")
    for line in lines:
        if line.startswith("file: "):
            file = f"{crate}/{line[6:].strip()}"
            if file not in texts:
                if not os.path.exists(file):
                    yield f"{edit}: there is no {file}"
                    return
                with open(file, encoding="utf-8") as f:
                    texts[file] = f.read()
        elif line.startswith("old: "):
            old = line[5:]
        elif line.startswith("new:"):
            times = texts[file].count(old)
            if times == 1:
                texts[file] = texts[file].replace(old, line[5:])
            else:
                yield f"{edit}: {times} times: {old}"


def main():
    found = [fault for edit in sorted(glob.glob("crates/*/must-fail/*.edit")) for fault in faults(edit)]
    print("\n".join(found) if found else "every edit applies")
    return 1 if found else 0


if __name__ == "__main__":
    sys.exit(main())
