#!/usr/bin/env python3
"""Brings this repository's own definitions and lemmas to the spelling of today's Rattle: words in snake case, types and modules in camel case.

usage: python3 tools/respell.py [COMMIT]     at the top of the repository, once, after port.py of the kit

The names are those that the files of specs/ and proofs/ declare, or bring in under another name, in COMMIT (by default HEAD, as it was before port.py ran): a name that begins with a small letter and has a
capital (or ℤ, ℕ) inside it becomes snake case, in every part between dashes. Types, facts and modules keep their capitals, dashes stay where they join names, and names of
Rust's and of C's stay as they are. It goes through the crates' .antt and .rt files, the must-fail edits and the pages of the repository.
"""

import os
import re
import subprocess
import sys

# Lemmas whose name would fall together with a definition's: port.py has written their dashes as underscores.
LEMMAS = ["above_at", "answer_at", "ends_of", "held_in", "in_bounds", "map_read", "never_ends", "row_fits"]
# Definitions that need another name, since a field of records has the one that the rule gives, or since port.py has given a lemma's part another spelling.
OTHER = {"kindFits": "kind_number_fits", "getD": "get_or"}
DECLARES = re.compile(r"^[ \t]*(?:(?:pub|abbrev|unfoldable|package) )*([^\s(){}.,;:λ→=]+) :(?= )", re.M)
ALIAS = re.compile(r" as ([a-z][A-Za-z0-9]*)(?=[},])")
CAMEL = re.compile(r"[a-z][A-Za-z0-9']*?[a-z0-9][A-Zℤℕ][A-Za-z0-9'ℤℕ]*|[a-z]+[ℤℕ]")
WORD = r"[A-Za-z0-9_'ℤℕ]"


def git(*words):
    return subprocess.run(["git", *words], check=True, capture_output=True, text=True).stdout


def snake(name):
    name = re.sub(r"(?<=[a-z0-9])([A-Z])", lambda m: "_" + m.group(1).lower(), name)
    return re.sub(r"(?<=[a-z0-9])([ℤℕ])", r"_\1", name)


def declared(commit):
    """The parts of declared names that the rule changes."""
    parts = set()
    for path in git("ls-tree", "-r", "--name-only", commit, "--", "crates").splitlines():
        if path.endswith((".antt", ".rt")):
            text = git("show", f"{commit}:{path}")
            for name in ALIAS.findall(text) + (DECLARES.findall(text) if path.endswith(".antt") else []):
                parts |= {p for p in name.split("-") if CAMEL.fullmatch(p)}
    return parts


def main(argv):
    commit = argv[0] if argv else "HEAD"
    names = {n: OTHER.get(n, snake(n)) for n in declared(commit)}
    one = re.compile(rf"(?<!{WORD})({'|'.join(map(re.escape, sorted(names, key=len, reverse=True)))})(?!{WORD})")
    lemma = re.compile(rf"(?<![\w.'-])({'|'.join(LEMMAS)})(?![\w.'-])")
    changed = 0
    for path in git("ls-files").splitlines():
        antt, rt = path.endswith(".antt"), path.endswith(".rt")
        if not os.path.exists(path) or path.startswith("tools/") or not (antt or rt or path.endswith((".edit", ".md"))):
            continue
        with open(path, encoding="utf-8") as f:
            old = f.read()
        new = lemma.sub(r"\1_lem", old) if antt else old
        new = one.sub(lambda m: names[m.group(1)], new)
        if new != old:
            changed += 1
            with open(path, "w", encoding="utf-8") as f:
                f.write(new)
    print(f"{len(names)} names, {changed} files")


main(sys.argv[1:])
