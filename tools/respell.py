#!/usr/bin/env python3
"""Brings the names of this repository's definitions and lemmas to the library's spelling: facts and types in camel case, all
else in snake case, with a dash only where it joins two names. Run once at the top, after the kit's own script has turned the
files. Functions of src/, strings and comments on code keep their words; a name that would fall on another one stops the run."""

import glob
import os
import re
import subprocess
import sys

# The lemmas whose dash joins two names, as `bit` and `suc`, and those whose name says neither side as it is spelled.
NAMED = {
    "bit-and": "bit-bit_and",
    "bit-or": "bit-bit_or",
    "bit-pow": "bit-pow",
    "bit-shr": "bit-shr",
    "bit-suc": "bit-suc",
    "bit-zero": "bit-zero",
    "differ-false": "differ-false",
    "differ-not": "differ-not",
    "differ-true": "differ-true",
    "get_d_rows": "get_or-rows_in",
    "in-bytes-little": "in_bytes-little",
    "length-in-bytes": "length-in_bytes",
    "length-rows": "length-rows_in",
    "little-in-bytes": "little-in_bytes",
    "low-suc": "Low-suc",
    "ones-count": "ones-count",
    "row-suc": "row_at-suc",
    "row_zero": "row_at-zero",
    "rows-suc": "rows_in-suc",
}

NAME = re.compile(r"[A-Za-z_][A-Za-z0-9_']*(?:-[A-Za-z0-9_']+)*")
OURS = re.compile(r"^(?:Rattle\.(?:readings|sets|conflicts)\.(?:specs|proofs))\b")
USE = re.compile(r"^(?:ghost )?use ([\w.+'-]+)(?:\.\{(.*)\})?;?$")
DEFINED = re.compile(r"^\s*(?:(?:abbrev|unfoldable|pub|record|data) )*(" + NAME.pattern + r")(?: \([^)]*\))* :(?: |$)")


def texts():
    found = []
    for folder in ("specs", "proofs"):
        found += glob.glob(f"crates/*/{folder}/**/*.antt", recursive=True)
    return sorted(found), sorted(glob.glob("crates/*/src/**/*.rt", recursive=True))


def imported(lines):
    """The names that a file takes from elsewhere than this repository."""
    names = set()
    for line in lines:
        use = USE.match(line)
        if use and use[2] and not OURS.match(use[1]):
            names |= set(NAME.findall(use[2]))
    return names


def own_names(files):
    """The names with a dash that the lemmas and definitions of these files give, to anything."""
    names = set(NAMED)
    for path in files:
        generated = os.path.basename(path) in ("Answers.antt", "Invariants.antt")
        lines = open(path, encoding="utf-8").read().splitlines()
        for line in lines:
            if line.lstrip().startswith("--"):
                continue
            if not generated:
                at = DEFINED.match(line)
                if at:
                    names.add(at[1])
                names |= {name for name in re.findall(r"\bby (" + NAME.pattern + r") ", line)}
            names |= set(re.findall(r"\blet (" + NAME.pattern + r") ?[:=]", line))
            names |= set(re.findall(r"\b[a-z]+-is\b", line))
    return {name for name in names if "-" in name or name in NAMED}


def respelled(name):
    if name in NAMED:
        return NAMED[name]
    if name[0].isupper():
        return "".join(part[0].upper() + part[1:] for part in name.split("-"))
    return name.replace("-", "_")


def turn(text, table, is_source):
    lines = []
    for line in text.split("\n"):
        code = is_source and not re.match(r"^\s*(ghost|requires|ensures)\b", line)
        if not code:
            line = NAME.sub(lambda at: table.get(at[0], at[0]), line)
            line = re.sub(r"\((\w+ ≢ \w+)\) →", r"\1 →", line)
        lines.append(line)
    return "\n".join(lines)


def main():
    proofs, sources = texts()
    names = own_names(proofs)
    outside = set()
    words = set()
    for path in proofs + sources:
        text = open(path, encoding="utf-8").read()
        outside |= imported(text.split("\n"))
        words |= set(NAME.findall(text))
    table = {name: respelled(name) for name in sorted(names - outside) if respelled(name) != name}
    fallen = [f"{old} and {new}" for old, new in table.items() if new in words]
    fallen += [new for new in set(table.values()) if list(table.values()).count(new) > 1]
    if fallen:
        sys.exit("these names would fall together: " + ", ".join(fallen))
    for path in proofs + sources:
        text = open(path, encoding="utf-8").read()
        turned = turn(text, table, path.endswith(".rt"))
        if "/specs/" in path and path.endswith(".antt"):
            turned = re.sub(r"\bltb\b", "nat_lt", turned).replace("nat_lt, nat_lt", "nat_lt")
        if turned != text:
            open(path, "w", encoding="utf-8").write(turned)
    for old, new in table.items():
        print(f"{old} -> {new}")
    for crate in sorted(glob.glob("crates/*/")):
        subprocess.run(["rt", "fmt"], cwd=crate, check=False, stdout=subprocess.DEVNULL)


main()
