#!/usr/bin/env python3
"""Spells the definitions and lemmas of this repository as today's Rattle does: words in snake case.

usage: python3 tools/spell.py            in the repository, once, after port.py

A dash in the name of a definition, a lemma, a field, a constructor, a local module or in the `as` of an import becomes an underscore; a name in
mixed case is parted by underscores, and a test whose name ends in a question mark gets a name with `is`. Functions, exported names, strings,
inputs and outputs keep their names, and so do names that Rattle makes and names of the library. In comments and pages a name stands between
backticks.
Nothing is written where two names would fall together.
"""

import os
import re
import sys

LETTERS = r"\w\-'?◌"
SIGNATURE = re.compile(r"^\s*(?:(?:pub|abbrev|unfoldable|record|data|module|ruleset)\s+)*([^\s:(){},.;\[\]]+)\s*(?:\([^)]*\)\s*|\{[^}]*\}\s*)*:(?:\s|$)")
MODULE = re.compile(r"^\s*(?:pub\s+)?module\s+([^\s:(){},.;\[\]]+)\s")
ALIAS = re.compile(r" as ([a-z][\w']*(?:-[\w']+)+)(?=[,}\s])")
USE = re.compile(r"^\s*(?:pub\s+)?(?:ghost\s+)?use\s+([^\s{;]+?)\.?\{([^}]*)\}")
TESTS = {"in?": "is_in", "set?": "is_set", "both?": "is_in_both", "holds?": "is_holding"}
KEYWORDS = {"where", "use", "module", "record", "data", "pub", "let", "in", "_", "--"}


def files(top, endings):
    for folder, dirs, names in os.walk(top):
        dirs[:] = sorted(d for d in dirs if d not in ("out", "target", ".git"))
        for name in sorted(names):
            if name.endswith(endings):
                yield os.path.join(folder, name)


def read(path):
    with open(path, encoding="utf-8") as file:
        return file.read()


def of_a_function(path):
    """Whether a file is the proof of one function: its own names are made by Rattle."""
    return bool(re.search(r"/proofs/.+/", path))


def spelled(name):
    new = re.sub(r"(?<=[a-z0-9])(?=[A-Z])", "_", name).lower() if re.match(r"^[a-z]+[A-Z]", name) else name
    new = TESTS.get(new, new)
    return new.replace("-", "_")


def declared():
    """The names that definitions and lemmas have, and those that imports give."""
    names = set()
    for path in files("crates", (".antt", ".rt")):
        if of_a_function(path):
            continue
        for line in read(path).split("\n"):
            if USE.match(line):
                names |= set(ALIAS.findall(line))
            for form in (SIGNATURE, MODULE) if path.endswith(".antt") else ():
                found = form.match(line)
                if found and not line.strip().startswith("--") and found.group(1) not in KEYWORDS:
                    names.add(found.group(1))
    return names


def foreign(text, crates):
    """The names that a text imports from the library."""
    names = set()
    for line in text.split("\n"):
        found = USE.match(line)
        if not found:
            continue
        parts = found.group(1).split(".")
        spec = parts[2:3] == ["specs"] and parts[3:4] != ["declared"]
        lemma = parts[2:3] == ["proofs"] and parts[3:4] != [] and parts[3][0].isupper()
        if parts[0] == "Rattle" and parts[1] in crates and (spec or lemma):
            continue
        names |= {it.strip().split(" as ")[0].strip() for it in found.group(2).split(",")}
    return names


def code(text, renamed, form):
    return form.sub(lambda found: renamed[found.group(0)], text)


def quoted(text, renamed, form):
    return re.sub(r"`[^`]*`", lambda found: code(found.group(0), renamed, form), text)


def turned(path, text, names, crates):
    renamed = {old: new for old, new in names.items() if old not in foreign(text, crates)}
    if not renamed:
        return text
    form = re.compile(r"(?<![" + LETTERS + r"])(?:" + "|".join(sorted(map(re.escape, renamed), key=len, reverse=True)) + r")(?![" + LETTERS + r"])")
    if path.endswith(".md"):
        parts = re.split(r"(?ms)(^```.*?^```)", text)
        return "".join(code(part, renamed, form) if i % 2 else quoted(part, renamed, form) for i, part in enumerate(parts))
    mark = {".antt": r"(^|\s)--(\s|$|-)", ".rt": r"(^|\s)//", ".edit": r"^#"}[os.path.splitext(path)[1]]
    lines = []
    for line in text.split("\n"):
        found = re.search(mark, line)
        at = found.start() if found else len(line)
        lines.append(code(line[:at], renamed, form) + quoted(line[at:], renamed, form))
    return "\n".join(lines)


def main():
    crates = {it for it in os.listdir("crates")}
    own = declared()
    names = {it: spelled(it) for it in own if spelled(it) != it}
    together = [(old, new) for old, new in names.items() if new in own or list(names.values()).count(new) > 1]
    if together:
        print("spell: names would fall together: " + ", ".join(f"{old} and {new}" for old, new in sorted(together)))
        return 1
    changed = 0
    # edits and pages still have what port.py has turned elsewhere
    turned_before = {it.replace("_", "-"): spelled(it) for it in own if "_" in it and it.replace("_", "-") not in own}
    for path in list(files("crates", (".antt", ".rt", ".edit"))) + list(files("docs", ".md")) + list(files("examples", ".md")) + ["README.md"]:
        text = read(path)
        new = turned(path, text, names if path.endswith((".antt", ".rt")) else turned_before | names, crates)
        if new != text:
            with open(path, "w", encoding="utf-8") as file:
                file.write(new)
            changed += 1
    print(f"spell: {len(names)} names, {changed} files")
    return 0


if __name__ == "__main__":
    sys.exit(main())
