#!/usr/bin/env python3
"""Brings the names of this repository's definitions and lemmas to today's spelling, after the kit's port.py has turned the rest.

usage: tools/snake_names.py          in the repository: renames in every crate (once: a second run would rename again)
       tools/snake_names.py --list   prints what would be renamed, and names that fall together

A name that a file of specs/ or proofs/ declares, or gives by `as`, in camel case or with dashes is written in snake case wherever it
stands in specs/, proofs/ and the clauses of src/. Names of functions, types and modules, names that the check makes (as `returns` or
`loop-i-init`) and the library's names stay, these also where a file of this repository declares the same name. RENAMED gives a word
another name where its own would fall together with another word of the repository.
"""
import os
import re
import sys

TOP = os.path.join(os.path.dirname(os.path.realpath(__file__)), "..")
NAME = r"[^\s(){}\[\].,;:«»λ]+"
DECLARES = re.compile(r"^(\s*)(?:(?:abbrev|unfoldable|pub)\s+)*(" + NAME + r")\s+:(?=\s|$)")
CLAUSE = re.compile(r"^\s*(?:ghost\b|requires\b|ensures\b)")
IMPORT = re.compile(r"^\s*(?:ghost\s+)?use\s+([^\s{}]+)\.\{([^}]*)\}")
# a word of the library that is brought in under another of its words
UNMASKED = {"AllByRecursion as All": ("All", "AllByRecursion")}
# where snake case alone would fall together with another name, and a type
RENAMED = {
    "First-bits": "FirstBits",
    "Unit-and-rest": "UnitAndRest",
    "by-type": "by_type_lem",
    "by_field": "by_field_lem",
    "closed-bits": "closed_bits_lem",
    "countsOf": "all_counts_of",
    "from_place": "from_place_lem",
    "one-block": "one_block_lem",
    "singleError": "single_error_rule",
    "symbols-of": "symbol_list_of",
    "turn-to": "turn_to_lem",
    "written_from": "written_from_lem",
}


def snake(name):
    if name in RENAMED:
        return RENAMED[name]
    parts = []
    for part in name.replace("′", "'").split("-"):
        part = re.sub(r"(?<=[a-z0-9])(?=[A-Z])", "_", part)
        part = re.sub(r"(?<=[A-Z])(?=[A-Z][a-z])", "_", part)
        parts.append(part.lower())
    return "_".join(parts)


def files(end):
    for folder, dirs, names in os.walk(os.path.join(TOP, "crates")):
        dirs[:] = sorted(d for d in dirs if d != "out")
        for n in sorted(names):
            if n.endswith(end):
                yield os.path.join(folder, n)


def read(path):
    with open(path, encoding="utf-8") as f:
        return f.read()


def declared():
    """The words and the record fields that files of specs/ and proofs/ declare."""
    words, fields = {}, {}
    for path in files(".antt"):
        kind, depth_of_record = words, 0
        for line in read(path).split("\n"):
            depth = len(line) - len(line.lstrip())
            if re.match(r"\s*(pub\s+)?record\s", line):
                kind, depth_of_record = fields, depth
                if line.split("record ")[1].split()[0] in RENAMED:
                    words.setdefault(line.split("record ")[1].split()[0], set()).add(os.path.relpath(path, TOP))
                continue
            if kind is fields and line.strip() and not line.lstrip().startswith("--") and depth <= depth_of_record:
                kind = words
            place = os.path.relpath(path, TOP)
            for given in re.findall(r"\bas ([a-z]" + NAME + ")", line) if IMPORT.match(line) else []:
                words.setdefault(given, set()).add(place)
            m = DECLARES.match(line)
            if m and "goal." not in line and not line.lstrip().startswith(("--", "let ", "use ")):
                if re.match(r"[a-z]", m.group(2)):
                    kind.setdefault(m.group(2), set()).add(place)
    return words, fields


def ours():
    lines = [line.split("#")[0] for line in read(os.path.join(TOP, "crates.txt")).split("\n")]
    return {line.split(":")[0].strip() for line in lines if ":" in line}


def of_library(text, crates):
    """The names that a file takes from the library."""
    names = set()
    for line in text.split("\n"):
        m = IMPORT.match(line)
        if m and not (m.group(1).startswith("Rattle.") and m.group(1).split(".")[1] in crates):
            names |= {part.split(" as ")[-1].strip() for part in m.group(2).split(",")}
    return names


def turn(line, new, fields, kept):
    token = re.compile(r"(\.?)(?<![^\s(){}\[\].,;:«»λ])(" + NAME + ")")

    def one(m):
        dot, name = m.group(1), m.group(2)
        if name not in new or name in kept:
            return m.group(0)
        if dot and name not in fields and not re.search(r"\bRattle\.[\w.]*$", line[:m.start()]):
            return m.group(0)
        return dot + new[name]

    return token.sub(one, line)


def main():
    words, fields = declared()
    new = {}
    for group in (words, fields):
        for name in group:
            if snake(name) != name:
                new[name] = snake(name)
    if "--list" in sys.argv[1:]:
        listing(words, fields, new)
        return
    crates = ours()
    for end in (".antt", ".rt"):
        for path in files(end):
            old = read(path)
            text = old
            for what, (short, whole) in UNMASKED.items():
                if what in text:
                    text = re.sub(r"(?<![\w-])" + short + r"(?![\w-])", whole, text).replace(whole + " as " + whole, whole)
            kept = of_library(text, crates)
            lines = []
            for line in text.split("\n"):
                plain = line.lstrip().startswith("--") or (end == ".rt" and not CLAUSE.match(line))
                lines.append(line if plain else turn(line, new, fields, kept))
            text = "\n".join(lines)
            if text != old:
                with open(path, "w", encoding="utf-8") as f:
                    f.write(text)


def listing(words, fields, new):
    taken = {}
    for name in list(words) + list(fields):
        taken.setdefault(new.get(name, name), set()).add(name)
    for to, names in sorted(taken.items()):
        if len(names) > 1:
            print("fall together:", to, sorted(names))
    for name in sorted(new):
        print(name, "->", new[name], "in", ", ".join(sorted(words.get(name, set()) | fields.get(name, set()))))


if __name__ == "__main__":
    main()
