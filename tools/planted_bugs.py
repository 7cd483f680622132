#!/usr/bin/env python3
"""Plants bugs, one at a time, and compares what the check says of each with the verdict that the lists have.

    tools/planted_bugs.py [--write] [CRATE..]

The lists are tools/planted_bugs/CRATE. A list has a paragraph for each bug, with five lines: what the bug is, the file in the
crate, a text that stands in it once, what it becomes, and the verdict. The bugs are planted in a copy of the committed files.
With --write the verdicts are written into the lists. The status is 1 where a verdict is another one than the list has.

`refused` has the place that is not proved behind it. `passes` says that all is still proved. A bug that the check cannot try, as
where it does not compile, is `unfit`.
"""
import pathlib
import re
import subprocess
import sys
import tempfile

TOP = pathlib.Path(__file__).resolve().parent.parent
LISTS = TOP / "tools" / "planted_bugs"
FIELDS = ["bug", "file", "old", "new", "verdict"]


def read_list(crate):
    bugs = []
    for paragraph in (LISTS / crate).read_text().split("\n\n"):
        lines = [line for line in paragraph.split("\n") if line]
        if not lines:
            continue
        bug = dict(line.split(": ", 1) if ": " in line else (line.rstrip(":"), "") for line in lines)
        if list(bug) != FIELDS:
            sys.exit(f"{crate}: not a bug: {lines[0]}")
        bugs.append(bug)
    return bugs


def write_list(crate, bugs):
    paragraphs = ["".join(f"{field}: {bug[field]}".rstrip(" ") + "\n" for field in FIELDS) for bug in bugs]
    (LISTS / crate).write_text("\n".join(paragraphs))


def plant(copy, crate, bugs):
    edits = copy / "crates" / crate / "must-fail"
    edits.mkdir(exist_ok=True)
    for old in edits.iterdir():
        old.unlink()
    for number, bug in enumerate(bugs):
        text = "".join(f"{field}: {bug[field]}\n" for field in FIELDS[1:4])
        (edits / f"bug_{number:03}.edit").write_text(text)


def verdict_of(said):
    if said.startswith("refused"):
        place = re.search(r"((?:src|proofs|specs)/\S+?\.(?:rt|antt)):\d+", said)
        goal = re.search(r"\(`([^`]+)`\)", said)
        return "refused at " + (place.group(1) if place else "?") + (f", {goal.group(1)}" if goal else "")
    return "passes" if said.startswith("NOT REFUSED") else "unfit: " + said


def judge(copy, crates, lists):
    run = subprocess.run(["rt", "must-fail", *crates], cwd=copy, capture_output=True, text=True)
    said = dict(re.findall(r"rt: must-fail (\S+)\.edit: (.*)", run.stdout + run.stderr))
    for crate in crates:
        for number, bug in enumerate(lists[crate]):
            bug["now"] = verdict_of(said.get(f"{crate}/bug_{number:03}", "not tried"))


def main():
    words = [word for word in sys.argv[1:] if word != "--write"]
    crates = words or sorted(path.name for path in LISTS.iterdir())
    lists = {crate: read_list(crate) for crate in crates}
    with tempfile.TemporaryDirectory() as folder:
        copy = pathlib.Path(folder)
        archive = subprocess.run(["git", "archive", "HEAD"], cwd=TOP, capture_output=True, check=True)
        subprocess.run(["tar", "-x", "-C", folder], input=archive.stdout, check=True)
        for crate in crates:
            plant(copy, crate, lists[crate])
        judge(copy, crates, lists)
    other = 0
    for crate in crates:
        for bug in lists[crate]:
            same = bug["now"] == bug["verdict"]
            other += not same
            print(f"{crate}: {bug['bug']}: {bug['now']}" + ("" if same else f" (the list has: {bug['verdict']})"))
            bug["verdict"] = bug.pop("now")
        if "--write" in sys.argv[1:]:
            write_list(crate, lists[crate])
    verdicts = [bug["verdict"].split(" ")[0].rstrip(":") for crate in crates for bug in lists[crate]]
    print(", ".join(f"{verdicts.count(kind)} {kind}" for kind in ("refused", "passes", "unfit")), f"of {len(verdicts)}")
    sys.exit(1 if other else 0)


main()
