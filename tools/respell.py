#!/usr/bin/env python3
"""Brings the repository's own specification names to one spelling; run once, at the top, after the toolchain's port script.

- a definition, a field and a lemma named by plain words: snake case (`book-of` becomes `book_of`, `valueOf` `value_of`)
- a definition whose value is a fact, and a record: upper camel case (`in-range` becomes `InRange`)
- a lemma on one word applied to another keeps its dash between the two (`picked-take`)

Names of the code, of goals, of the library, of files and folders stay, and so do comments, strings and edits.
A definition may have the name of the function that it specifies. The script refuses to write where two names would
fall together otherwise, or where a new name is in use already.
"""
import pathlib
import re
import sys

# Words of the library that a lemma's name may join by a dash.
LIBRARY = set("length take drop map append replicate set cond true false get pos All Contains".split())
NAME = r"[A-Za-z][A-Za-z0-9_'ℤℕ-]*"
DECLARED = re.compile(rf"^\s*(?:(?:pub|abbrev|unfoldable)\s+)*({NAME})\s*:\s(.*)$")
RECORD = re.compile(rf"^\s*(?:pub\s+)?(?:record|data)\s+({NAME})")
ALIAS = re.compile(rf"[\w'-]+ as ({NAME})")
TOKEN = re.compile(r"[A-Za-z_][A-Za-z0-9_'ℤℕ]*(?:-[A-Za-z0-9_'ℤℕ]+)*")
MADE = re.compile(r"^\s*(?:[\w.]*\.)?goal\.|^\s*goal\.")


def files():
    for p in sorted(pathlib.Path("crates").rglob("*")):
        if p.suffix in (".antt", ".rt") and "out" not in p.parts:
            yield p


def uncommented(line, antt):
    """The line's text and its comment."""
    at = line.find("-- ") if antt else line.find("//")
    return (line, "") if at < 0 else (line[:at], line[at:])


def own_names():
    """name -> whether it is a fact"""
    names = {}
    for p in files():
        antt = p.suffix == ".antt"
        for line in p.read_text().splitlines():
            text, _ = uncommented(line, antt)
            m = DECLARED.match(text) if antt else None
            if m and not MADE.match(m[2]) and " = " not in text.split(":")[0]:
                names[m[1]] = names.get(m[1], False) or m[2].rstrip().endswith("Type 0")
            m = RECORD.match(text) if antt else None
            if m:
                names[m[1]] = True
            if re.match(r"\s*(ghost )?use ", text):
                for a in ALIAS.findall(text):
                    names.setdefault(a, a[0].isupper())
    return names


def snake(name):
    name = re.sub(r"([a-z0-9])([A-Z])", lambda m: m[1] + "_" + m[2].lower(), name)
    return name.replace("-", "_")


def camel(name):
    return "".join(w[:1].upper() + w[1:] for w in re.split(r"[-_]", name))


def turned(name, fact, words):
    if "-" not in name and not re.search(r"[a-z][A-Z]", name):
        return name
    if fact:
        return camel(name) if "-" in name or name[0].islower() else name
    parts = name.split("-")
    for k in range(1, len(parts)):
        left, right = "-".join(parts[:k]), "-".join(parts[k:])
        if left in words and right in words and name not in words:
            return snake(left) + "-" + snake(right)
    if parts[0][0].isupper() and len(parts) > 1 and parts[0] in words | LIBRARY:
        return parts[0] + "-" + snake("_".join(parts[1:]))
    return snake(name) if name[0].islower() else name


def main():
    names = own_names()
    specs = set()
    for p in files():
        if p.suffix == ".antt" and "specs" in p.parts:
            for line in p.read_text().splitlines():
                m = DECLARED.match(uncommented(line, True)[0]) or RECORD.match(line)
                if m and not line.startswith(" "):
                    specs.add(m[1])
    words = (specs | LIBRARY) - {"at"}
    table = {}
    for n, fact in sorted(names.items()):
        t = turned(n, fact, set() if n in specs else words)
        if t != n:
            table[n] = t
    used, clash, functions = set(), [], set()
    for p in files():
        if p.suffix == ".rt":
            functions |= set(re.findall(r"\bfn (\w+)", p.read_text()))
        for line in p.read_text().splitlines():
            used |= set(TOKEN.findall(uncommented(line, p.suffix == ".antt")[0]))
    back = {}
    for n, t in table.items():
        if t in used - functions:
            clash.append(f"{n} -> {t}: in use already")
        if t in back:
            clash.append(f"{n} and {back[t]} -> {t}")
        back[t] = n
    if "--list" in sys.argv:
        print("\n".join(f"{n} {t}" for n, t in table.items()))
    if clash:
        print("\n".join(clash), file=sys.stderr)
        return 1
    if "--list" in sys.argv:
        return 0
    for p in files():
        antt = p.suffix == ".antt"
        out = []
        for line in p.read_text().splitlines(keepends=True):
            text, comment = uncommented(line, antt)
            parts = re.split(r'("(?:[^"\\]|\\.)*")', text)
            for k in range(0, len(parts), 2):
                parts[k] = TOKEN.sub(lambda m: table.get(m[0], m[0]), parts[k])
            out.append("".join(parts) + comment)
        p.write_text("".join(out))
    return 0


if __name__ == "__main__":
    sys.exit(main())
