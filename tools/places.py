#!/usr/bin/env python3
"""Lists places of a commit's src/ that may have a form of an older language: `python3 tools/places.py [COMMIT]`, from the top.

For each point a rule over the text, so that two runs list the same; what a rule lists is a candidate, and docs/DESIGN-PASS.md says
which of them are places. With no COMMIT the files of the work tree are read. `--list` prints the candidates, else their numbers.
A candidate counts as kept where a line `// Kept: ` with the reason stands beside it: above the item or in it, or, for parameters and
arrays that belong together, in the comment at the file's head. `--open` lists those without such a line.
"""
import collections
import re
import subprocess
import sys


def sources(commit):
    if commit:
        names = subprocess.run(["git", "ls-tree", "-r", "--name-only", commit], capture_output=True, text=True, check=True).stdout.split("\n")
    else:
        names = subprocess.run(["git", "ls-files", "-co", "--exclude-standard"], capture_output=True, text=True, check=True).stdout.split("\n")
    for name in sorted(n for n in names if re.fullmatch(r"crates/[^/]+/src/.*\.rt", n)):
        if commit:
            text = subprocess.run(["git", "show", f"{commit}:{name}"], capture_output=True, text=True, check=True).stdout
        else:
            with open(name, encoding="utf-8") as f:
                text = f.read()
        yield name.removeprefix("crates/").replace("/src/", "/"), text


def bare(text):
    """The text without comments."""
    return re.sub(r"//[^\n]*", "", text)


def closing(text, start):
    """The place behind the bracket that closes the one at `start`."""
    depth = 0
    for i in range(start, len(text)):
        if text[i] in "{([":
            depth += 1
        elif text[i] in "})]":
            depth -= 1
            if depth == 0:
                return i + 1
    return len(text)


class Function:
    def __init__(self, file, name, head, body):
        self.file, self.name, self.head, self.body = file, name, head, body
        parameters = head[head.index("("):closing(head, head.index("("))][1:-1]
        self.parameters = [p.strip() for p in split_commas(parameters) if p.strip()]
        rest = head[closing(head, head.index("(")):]
        self.result = re.split(r"\b(?:requires|ensures|where)\b", rest)[0].replace("->", "").strip()
        self.clauses = []
        for m in re.finditer(r"\b(requires|ensures)\b[^{]*\{", rest):
            end = closing(rest, m.end() - 1)
            self.clauses.append((m.group(1), " ".join(rest[m.end():end - 1].split())))

    def where(self):
        return f"{self.file} {self.name}"


def split_commas(text):
    parts, depth, last = [], 0, 0
    for i, ch in enumerate(text):
        if ch in "{([<":
            depth += 1
        elif ch in "})]>" and text[i - 1:i + 1] != "->":
            depth -= 1
        elif ch == "," and depth == 0:
            parts.append(text[last:i])
            last = i + 1
    return parts + [text[last:]]


def functions(file, text):
    found = []
    for m in re.finditer(r"\bfn (\w+)", text):
        at = text.index("(", m.end())
        at = closing(text, at)
        # Clauses stand in braces too: the body is the brace that no clause begins.
        while True:
            brace = text.find("{", at)
            semicolon = text.find(";", at)
            if brace < 0 or (0 <= semicolon < brace and not re.search(r"[\[{(]", text[at:semicolon])):
                break
            if re.search(r"\b(requires|ensures)\b[\s\w]*$", text[at:brace]):
                at = closing(text, brace)
                continue
            end = closing(text, brace)
            found.append(Function(file, m.group(1), text[m.start():brace], text[brace:end]))
            break
    return found


def enums(text):
    for m in re.finditer(r"\benum (\w+)[^{]*\{", text):
        body = text[m.end():closing(text, m.end() - 1) - 1]
        variants = [v.strip() for v in split_commas(body) if v.strip()]
        yield m.group(1), variants


def structs(text):
    for m in re.finditer(r"\bstruct (\w+)[^;{(]*\{", text):
        body = text[m.end():closing(text, m.end() - 1) - 1]
        fields = [re.sub(r"^(pub(\(crate\))? )", "", f.strip()) for f in split_commas(body) if f.strip()]
        yield m.group(1), [f for f in fields if not f.startswith("ghost")]


def shape(function):
    """The body with names, numbers and types taken out: twins have one shape."""
    text = re.sub(r"\b\d[\w.]*", "0", function.body)
    text = re.sub(r'b?"[^"]*"', "0", text)
    text = re.sub(r"\b(?!(?:if|else|let|mut|match|while|for|in|return|as|loop|break)\b)[A-Za-z_]\w*", "a", text)
    return " ".join(text.split())


def option_shapes(files):
    """Enums of the shape of Option or Result; structs with a number or a flag beside values; numbers for refusals."""
    for file, text in files:
        for name, variants in enums(text):
            holding = [v for v in variants if "(" in v]
            if len(variants) == 2 and holding:
                yield f"{file} enum {name}", [(file, name)]
        for name, fields in structs(text):
            names = [f.split(":")[0] for f in fields]
            types = {f.split(":")[0].strip(): f.split(":")[1].strip() for f in fields if ":" in f}
            if len(fields) > 1 and (names[0] in ("number", "answer", "there", "meant") or "section" in names):
                yield f"{file} struct {name}", [(file, name)]
            elif any(t == "bool" for t in types.values()) and any(n in types for n in ("half", "there", "comment")):
                yield f"{file} struct {name}", [(file, name)]
        for f in functions(file, text):
            if re.fullmatch(r"(\w+_)?(number|refusal|answer|kind|key_of)", f.name) and f.result in ("u8", "u32", "u64", "usize"):
                yield f"{f.where()} -> {f.result}", [(file, f.name)]
            elif re.search(r"\bnumber != 0\b|\bkey == 8\b|== 16\b|\bnumber == 0\b", f.body):
                yield f"{f.where()} tests a number", [(file, f.name)]


def twins(files):
    by_shape = collections.defaultdict(list)
    for file, text in files:
        for f in functions(file, text):
            if len(f.body.split()) > 12 and not file.startswith("folgrist_mp2_c/"):
                by_shape[shape(f)].append(f)
    for group in by_shape.values():
        if len(group) > 1:
            yield " = ".join(f.where() for f in group), [(f.file, f.name) for f in group]
    by_fields = collections.defaultdict(list)
    for file, text in files:
        for name, fields in structs(text):
            by_fields[tuple(sorted(fields))].append((file, name))
    for group in by_fields.values():
        if len(group) > 1:
            yield "struct " + " = ".join(" ".join(item) for item in group), group


def counted_loops(files):
    for file, text in files:
        for f in functions(file, text):
            for m in re.finditer(r"\bwhile\b([^{]*)\{", f.body):
                body = f.body[m.end():closing(f.body, m.end() - 1)]
                for name in re.findall(r"\b[a-z_]\w*\b", m.group(1)):
                    if re.search(rf"\b{name} = {name} [+-] 1;|\b{name} [+-]= 1;|\b{name} = \w+\(|\b{name} = {name} \+ \w+;|\b{name} = \w+;|\b{name} = [\w:]+\(", body):
                        yield f"{f.where()}: while{m.group(1).rstrip()}", [(file, f.name)]
                        break


BY_HAND = r"same|smaller|least|larger|considered|copy|put|put_bytes|put_samples|of_code|numbered|as_index|number|code|abs|max|min|above|half|half_of|wide|flag|capped|top_of|named|not_below_zero|(print_)?name(_of)?|\w+_name|scfsi_of|u32_of|i16_of|i64_of|low_word|double|bits_of|table_name|table_number"


def by_hand(files):
    for file, text in files:
        for f in functions(file, text):
            if re.fullmatch(BY_HAND, f.name) and not file.startswith("folgrist_mp2_c/"):
                yield f.where(), [(file, f.name)]


def together(files):
    facts = collections.defaultdict(list)
    lists = collections.defaultdict(list)
    for file, text in files:
        for f in functions(file, text):
            for kind, clause in f.clauses:
                if kind == "requires":
                    for part in re.split(r" × ", clause):
                        part = part.strip("() ")
                        key = (file.split("/")[0], part)
                        facts[key].append((file, f.name))
            names = [p for p in f.parameters if ":" in p]
            for size in (3, 4, 5, 6, 7):
                for at in range(len(names) - size + 1):
                    lists[tuple(" ".join(n.replace("mut ", "").split()) for n in names[at:at + size])].append((file, f.name))
    for (crate, part), items in sorted(facts.items()):
        if len(items) >= 3:
            yield f"{crate}: {len(items)} times requires {part}", items
    longest = {k: items for k, items in lists.items() if len(items) >= 3}
    for k, items in sorted(longest.items()):
        bigger = any(len(o) > len(k) and len(m) >= len(items) and any(o[i:i + len(k)] == k for i in range(len(o))) for o, m in longest.items())
        if not bigger:
            yield f"{len(items)} functions take {', '.join(k)}", items


def buffers(files):
    for file, text in files:
        for name, fields in structs(text):
            arrays = [f for f in fields if re.search(r":\s*\[", f)]
            sizes = [f for f in fields if re.match(r"(size|count|len|at|left|bits_used)\s*:", f)]
            if arrays and sizes:
                yield f"{file} struct {name}: length beside", [(file, name)]
            if len(arrays) > 1:
                yield f"{file} struct {name}: {len(arrays)} arrays", [(file, name)]
        for f in functions(file, text):
            if sum(bool(re.search(r":\s*&mut \[\w+; \d+\]", p)) for p in f.parameters) > 1:
                yield f"{f.where()}: arrays side by side", [(file, f.name)]
            elif re.search(r"\[\.\.\w+\]", f.body):
                yield f"{f.where()}: a part of a buffer", [(file, f.name)]


def switches(files):
    for file, text in files:
        for f in functions(file, text):
            flags = [p.split(":")[0].strip() for p in f.parameters if re.search(r":\s*bool$", p)]
            for flag in flags:
                if re.search(rf"\bif {flag} \{{[^}}]*\([^}}]*\}}", f.body):
                    yield f"{f.where()}: {flag}", [(file, f.name)]
            if len(re.findall(r"\b\d+ => [\w:]+\(", f.body)) > 3:
                yield f"{f.where()}: a table of functions", [(file, f.name)]


POINTS = [
    ("1 own enums, flags and numbers", option_shapes),
    ("2 twins", twins),
    ("3 counted loops", counted_loops),
    ("4 written by hand", by_hand),
    ("5 facts and parameters together", together),
    ("6 buffers and parallel arrays", buffers),
    ("7 switches on a step", switches),
]


def reasons(text):
    """By the name of a function, struct or enum: the reasons beside it; by the empty name those at the file's head.

    A reason above an `impl` is one of each function in it; one that begins with "here and below" is one of each item from there on.
    """
    found = collections.defaultdict(list)
    above, block, below, inside, head = [], [], [], "", True
    for line in text.split("\n"):
        said = line.strip()
        reason = re.match(r"// Kept: (.*)", said)
        item = re.match(r"(?:pub(?:\(crate\))? )?(?:const )?(?:fn|struct|enum|trait) (\w+)", said)
        if head and not said.startswith("//"):
            found[""] += above
            head, above = False, []
        if reason:
            above.append(reason.group(1))
            if inside:
                found[inside].append(reason.group(1))
        elif said.startswith("impl"):
            block, above = above, []
        elif item:
            inside, ends = item.group(1), line[: len(line) - len(line.lstrip())] + "}"
            below += [r for r in above if r.startswith("here and below")]
            found[inside] += above + block + below
            above = []
        elif said and not said.startswith(("//", "#[")):
            above = []
        if inside and line == ends:
            inside = ""
        if line == "}":
            block = []
    return found


def main():
    arguments = [a for a in sys.argv[1:] if not a.startswith("--")]
    raw = list(sources(arguments[0] if arguments else None))
    files = [(name, bare(text)) for name, text in raw]
    kept = {name: reasons(text) for name, text in raw}
    for title, rule in POINTS:
        places = dict(rule(files))
        why = {}
        for place, items in places.items():
            beside = [r for file, name in items for r in kept[file][name]]
            if title[0] in "56":
                beside += [r for file, name in items for r in kept[file][""]]
            why[place] = list(dict.fromkeys(beside))
        without = [p for p in places if not why[p]]
        print(f"{title}: {len(places)}, kept {len(places) - len(without)}, open {len(without)}")
        for p in places if "--list" in sys.argv else without if "--open" in sys.argv else []:
            print(f"    {p}" + "".join(f"\n        Kept: {r}" for r in why[p]))


if __name__ == "__main__":
    main()
