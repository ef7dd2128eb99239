#!/usr/bin/env python3
"""Tries the planted bugs, crates/NAME/planted/*.edit, and writes what became of each to the table of docs/BUGS.md.

python3 tools/bugs.py [NAME..] tries those of these crates, or all. The code is what is committed, in a clone that is thrown away; there
they stand in the place of the must-fail edits, and `rt must-fail NAME` tries them, over what `rt check` kept of the crate in any copy
on the machine. It ends with an error if a crate is still proved with a bug in it, or if a bug was not tried.
"""

import glob
import os
import re
import shutil
import subprocess
import sys
import tempfile

ROOT = os.path.dirname(os.path.dirname(os.path.abspath(__file__)))
PAGE = os.path.join(ROOT, "docs", "BUGS.md")
# What rt says of an edit, and what it says after a refusal: where, and which goal has no proof.
SAID = re.compile(r"(?:rt: )?must-fail ([a-z0-9_]+)/(\S+)\.edit: (.*)")
REFUSED = "refused, as it must be"
PLACE = re.compile(r"((?:src|specs|proofs)/[^\s:]+):(\d+):\d+: (.*)")
GOAL = re.compile(r"\(`([^`]+)`?|error: `([^`]+)`")
FUNCTION = re.compile(r"^\s*(?:pub(?:\([a-z]+\))? )?(?:extern \"C\" )?fn (\w+)")
# How a bug was refused, by words of what is said of it; docs/BUGS.md says what each means.
KINDS = [
    ("a limit of the prover", r" \(only by a limit"),
    ("only a name", r" \(only because a proof file"),
    ("false", r"; the facts known there allow"),
    ("at a limit", r"; `(search|grind)"),
    ("by hand", r": (?:\./)?proofs/"),
]


def function_at(folder, path, number):
    """The function that a goal is of: a proof file stands in its folder, and code in it. A bug moves no line of the file."""
    if not path.startswith("src/"):
        return os.path.basename(os.path.dirname(path))
    with open(os.path.join(folder, path), encoding="utf-8") as file:
        lines = file.read().split("\n")
    # A function begins at its attribute.
    while lines[number - 1].lstrip().startswith("#["):
        number += 1
    names = [found[1] for found in map(FUNCTION.match, lines[:number]) if found]
    return names[-1] if names else ""


def refused_at(folder, told):
    """Where a bug is refused: file, function and goal. No line number: each change above would move it."""
    place = PLACE.search(told)
    if not place:
        return "no place named"
    path, number, why = place[1], int(place[2]), place[3]
    name, goal = function_at(folder, path, number), GOAL.search(why)
    return f"{path}, `{name}`: " + (f"`{goal[1] or goal[2]}`" if goal else "no goal named")


def row_of(crate, name, said, folder):
    """The row of a bug."""
    told = said.removeprefix(REFUSED)
    verdict, where = said.partition(":")[0].upper(), ""
    if said.startswith(REFUSED):
        kind = next((kind for kind, words in KINDS if re.search(words, told)), "")
        verdict = "refused: " + kind if kind else "refused"
        where = refused_at(folder, told)
    cells = [crate, name.replace("-", " "), verdict, where]
    return "| " + " | ".join(it.replace("|", "\\|") for it in cells) + " |"


def try_crate(copy, crate):
    """Tries the bugs of a crate, and gives their rows."""
    folder = os.path.join(copy, "crates", crate)
    edits = os.path.join(folder, "must-fail")
    shutil.rmtree(edits, ignore_errors=True)
    shutil.copytree(os.path.join(folder, "planted"), edits)
    ran = subprocess.run(["rt", "must-fail", crate], cwd=copy, stdout=subprocess.PIPE, stderr=subprocess.STDOUT, text=True)
    said = {it[2]: it[3] for it in map(SAID.match, ran.stdout.split("\n")) if it and it[1] == crate}
    names = sorted(it.removesuffix(".edit") for it in os.listdir(edits))
    return [row_of(crate, it, said.get(it, "not tried"), folder) for it in names]


def renew(tried):
    """Writes the rows of the crates that were tried, by name, to the page, and counts all rows anew."""
    with open(PAGE, encoding="utf-8") as file:
        text, head, table = re.split(r"(\|---.*\n)", file.read())
    rows = [it for it in table.splitlines() if it.split(" | ")[0][2:] not in tried]
    rows = sorted(rows + sum(tried.values(), []))
    verdicts = [it.split(" | ")[2] for it in rows]
    counts = ", ".join(f"{verdicts.count(it)} {it}" for it in sorted(set(verdicts)))
    text = re.sub(r"(?m)^There are .*$", f"There are {len(rows)}: {counts}.", text)
    with open(PAGE, "w", encoding="utf-8") as file:
        file.write(text + head + "\n".join(rows) + "\n")


def main(asked):
    crates = sorted(it.split("/")[-2] for it in glob.glob(os.path.join(ROOT, "crates", "*", "planted")))
    lacking = [it for it in asked if it not in crates]
    if lacking:
        sys.exit(f"no bugs are planted in {lacking[0]}")
    tried = {}
    with tempfile.TemporaryDirectory(prefix="bugs-") as room:
        copy = os.path.join(room, "repo")
        subprocess.run(["git", "clone", "-q", ROOT, copy], check=True)
        for crate in asked or crates:
            tried[crate] = try_crate(copy, crate)
            print("\n".join(tried[crate]), flush=True)
    renew(tried)
    return 0 if all("| refused" in it for rows in tried.values() for it in rows) else 1


if __name__ == "__main__":
    sys.exit(main(sys.argv[1:]))
