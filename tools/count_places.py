#!/usr/bin/env python3
"""Lines of crates/*/src that may be places of a point of docs/DESIGN-PASS.md.

    tools/count_places.py [COMMIT]

Without a commit it reads the working tree. For each point it prints what it looks for, how many it found, and where.
What is found is read by a person: docs/DESIGN-PASS.md says which of it are places.
"""
import collections
import re
import subprocess
import sys

LINES = {
    "1 numbers and flags": [
        r"^ *(pub(\(crate\))? )?const [A-Z_]+: (u8|u16|u32|usize) = [0-9];",
        r"\b(kind|op|code)( [=!<>]|: (u8|u32|usize))",
        r"^ +[0-9]+( \| [0-9]+)* =>|=> [0-9]+,$",
        r"^ +(pub )?[a-z_]+: bool,",
        r"^ *(pub(\(crate\))? )?enum ",
    ],
    "3 loops": [
        r"\bwhile\b.*\{$",
        r"\bloop \{$",
        r"\+= 1;|wrapping_add\(1\)",
        r"\bfor [a-z_]+ in \(?0\.\.",
    ],
    "4 by hand": [
        r"^impl.* (PartialEq|Eq|PartialOrd|Ord|Clone|Copy|Default|Hash|Debug) for ",
        r"\bfn (number|name|code|describe|refuse|same_[a-z]+|(from|to|into|show|write)_[a-z0-9_]+)\b",
        r"\b256 \*",
        r" as (u8|u16|u32|u64|usize)\b",
    ],
    "6 buffers": [
        r"\[0(u8|u16|u32|u64)?; ",
        r"\bVec<|\bvec!",
        r"^ +(pub(\(crate\))? )?(first|second|third|fourth): ",
    ],
    "7 steps": [
        r"\bmatch (entry|next|self)\b",
        r"\bfn\(|\bdyn\b|\bimpl Fn",
    ],
}

KEYWORDS = set(
    "as break const else enum fn for if impl in let loop match mod mut pub return self Self struct trait true false "
    "type use where while ensures requires ghost u8 u16 u32 u64 usize bool str Some None Ok Err".split()
)


def run(*words):
    return subprocess.run(words, check=True, capture_output=True, text=True).stdout


def sources(commit):
    if commit:
        listed = run("git", "ls-tree", "-r", "--name-only", commit, "crates").split("\n")
    else:
        listed = run("git", "ls-files", "crates").split("\n")
    for path in listed:
        if "/src/" in path and path.endswith(".rt"):
            if commit:
                yield path, run("git", "show", f"{commit}:{path}").split("\n")
            else:
                yield path, open(path, encoding="utf-8").read().split("\n")


def items(lines):
    """Each function and struct: its kind, name, first line and lines, up to the brace that closes it."""
    for at, line in enumerate(lines):
        head = re.match(r"( *)(pub(\(crate\))? )?(unsafe )?(extern \"C\" )?(fn|struct) (\w+)", line)
        if not head:
            continue
        end = at
        while end < len(lines) and lines[end] != head.group(1) + "}" and not lines[end].rstrip().endswith(";"):
            end += 1
            if lines[end - 1].rstrip().endswith(("{}", "{ }")):
                break
        yield head.group(6), head.group(7), at + 1, lines[at : end + 1]


def code(lines):
    return [l.strip() for l in lines if l.strip() and not re.match(r"\s*(//|ensures|requires|ghost)", l)]


def shape(lines):
    text = re.sub(r"//.*", "", " ".join(code(lines)))
    words = re.findall(r"\w+|[^\w\s]", text)
    return " ".join(w if w in KEYWORDS or not re.match(r"\w", w) else "0" if w[0].isdigit() else "_" for w in words)


def parameters(lines):
    text = " ".join(lines)
    inside = re.search(r"fn \w+(<[^(]*>)?\((.*?)\)\s*(->|ensures|requires|\{|;)", text)
    return re.findall(r"(\w+): ", inside.group(2)) if inside else []


def main():
    commit = sys.argv[1] if len(sys.argv) > 1 else None
    files = list(sources(commit))
    for point, patterns in LINES.items():
        print(f"## {point}")
        for pattern in patterns:
            found = [
                f"{path}:{at}: {line.strip()}"
                for path, lines in files
                for at, line in enumerate(lines, 1)
                if re.search(pattern, line) and not re.match(r"\s*(//|ensures|requires|ghost)", line)
            ]
            print(f"{pattern}: {len(found)}")
            print("".join(f"    {line[:110]}\n" for line in found), end="")
    shapes = collections.defaultdict(list)
    clauses = collections.defaultdict(set)
    pairs = collections.defaultdict(set)
    for path, lines in files:
        for kind, name, at, text in items(lines):
            if len(code(text)) >= 4 and not any("#[test]" in l for l in lines[max(0, at - 2) : at]):
                shapes[shape(text)].append(f"{path}:{at} {name}")
            if kind == "fn":
                for clause in re.findall(r"(?:requires|ensures) (?:\w+ )?\{ (.*) \}$", "\n".join(text), re.M):
                    clauses[re.sub(r"\b(self|rules|below|draft)\b", "_", clause)].add(f"{path} {name}")
                names = parameters(text)
                for i, one in enumerate(names):
                    for other in names[i + 1 :]:
                        pairs[f"{one}, {other}"].add(f"{path} {name}")
    print("## 2 twins: functions and structs of one shape")
    twins = [places for places in shapes.values() if len(places) > 1]
    print(f"groups: {len(twins)}, members: {sum(map(len, twins))}")
    for places in twins:
        print("    " + "; ".join(places))
    for title, groups in (("clauses", clauses), ("parameters", pairs)):
        print(f"## 5 {title} in three or more functions")
        often = {what: where for what, where in groups.items() if len(where) >= 3}
        print(f"groups: {len(often)}")
        for what, where in sorted(often.items(), key=lambda pair: -len(pair[1])):
            print(f"    {len(where)}  {what[:110]}: " + "; ".join(sorted({w.split(' ')[1] for w in where})))


main()
