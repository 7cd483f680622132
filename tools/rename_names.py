#!/usr/bin/env python3
"""Brings the names of this repository's definitions and lemmas to one spelling: snake case, and camel case for
types and facts. Run once, at the top, right after the kit's port.py. Functions of src/, exported names, strings and
goals' names stay."""
import glob
import re
import sys

NAME = r"[A-Za-z_][A-Za-z0-9_'\-₀-₉]*"
HERE = r"(?<![A-Za-z0-9_'\-₀-₉«])"
END = r"(?![A-Za-z0-9_'\-₀-₉»])"
# names whose plain spelling is taken by a type or a module
SPECIAL = {
    "Side-by-side": "SideBySideReplies",
    "clause-adds": "added_by_clause",
    "clause-rules": "rules_of_clauses",
    "table-rules": "rules_of_tables",
    "Table-allows": "TableKeepsAllowed",
    "Clauses-allow": "ClausesKeepAllowed",
}


def files(*patterns):
    return sorted(p for pattern in patterns for p in glob.glob(pattern, recursive=True))


def read(path):
    with open(path, encoding="utf-8") as file:
        return file.read()


def declared():
    """The hyphened names that specs/ and proofs/ declare, without the answers to goals."""
    signature = re.compile(r"^\s*(?:(?:abbrev|unfoldable|pub)\s+)*(" + NAME + r")(?:\s+" + NAME + r")*\s*:\s*(.*)$")
    block = re.compile(r"^\s*(?:pub\s+)?(?:record|data|ruleset)\s+(?:pub\s+)?(" + NAME + r")")
    alias = re.compile(r"\bas (" + NAME + r")")
    names = set()
    for path in files("crates/*/specs/**/*.antt", "crates/*/proofs/**/*.antt", "crates/*/src/**/*.rt"):
        for line in read(path).splitlines():
            if "use " in line.split("--")[0][:12]:
                names.update(alias.findall(line))
            if not path.endswith(".antt"):
                continue
            found = block.match(line)
            if found:
                names.add(found.group(1))
                continue
            found = signature.match(line)
            if found and not re.match(r"(goal|given)\.", found.group(2)):
                names.update(re.findall(NAME, line.split(":")[0]))
    return {name for name in names if "-" in name.strip("-")}


def respelled(name):
    if name in SPECIAL:
        return SPECIAL[name]
    if name[0].isupper():
        return "".join(part[0].upper() + part[1:] for part in name.split("-"))
    return name.replace("-", "_")


def libraries():
    """Hyphened names that are taken from outside the repository, and goals' names."""
    own = {path.split("/")[1] for path in glob.glob("crates/*/")}
    taken = set()
    for path in files("crates/*/specs/**/*.antt", "crates/*/proofs/**/*.antt", "crates/*/src/**/*.rt"):
        text = read(path)
        for module, items in re.findall(r"use ([\w.·+']+)\.\{([^}]*)\}", text):
            parts = module.split(".")
            if not (parts[0] == "Rattle" and len(parts) > 1 and parts[1] in own):
                for item in items.split(","):
                    taken.add(item.strip().split(" as ")[0])
        taken.update(re.findall(r"\b(?:goal|given)\.(" + NAME + r")", text))
    return taken


def main():
    table = {name: respelled(name) for name in declared()}
    clash = sorted(set(table) & libraries())
    for name in clash:
        del table[name]
    texts = {p: read(p) for p in files("crates/*/specs/**/*.antt", "crates/*/proofs/**/*.antt", "crates/*/src/**/*.rt")}
    every = set()
    for text in texts.values():
        every.update(re.findall(NAME, text))
    taken = sorted((new, old) for old, new in table.items() if new in every)
    if "--list" in sys.argv:
        print("left, a library or a goal has them:", clash)
        print("spelled alike already somewhere:", taken)
        for old in sorted(table):
            print(old, table[old])
        return
    token = re.compile(HERE + "(" + "|".join(sorted(map(re.escape, table), key=len, reverse=True)) + ")" + END)
    for path, text in texts.items():
        new = token.sub(lambda m: table[m.group(1)], text)
        if new != text:
            with open(path, "w", encoding="utf-8") as file:
                file.write(new)
    quoted = re.compile(r"`[^`\n]*`")
    for path in files("README.md", "docs/*.md", "crates/*/must-fail/*.edit"):
        text = read(path)
        if path.endswith(".edit"):
            new = token.sub(lambda m: table[m.group(1)], text)
        else:
            new = quoted.sub(lambda q: token.sub(lambda m: table[m.group(1)], q.group(0)), text)
        if new != text:
            with open(path, "w", encoding="utf-8") as file:
                file.write(new)


main()
