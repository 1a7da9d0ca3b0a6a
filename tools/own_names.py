#!/usr/bin/env python3
"""Brings this repository's own definitions, lemmas, fields and constructors to snake case, once, after port.py.

A name is ours where a file of crates/*/specs or crates/*/proofs declares it: termDay becomes term_day, and so does term-day, but
where both stand the second is a lemma on the first and becomes term_day_lem. Types, modules, functions of src/, strings, inputs and
outputs keep their names; names of the library, which a file imports, stay as they are in that file. In comments the signs of
minutes, seconds and thirds, which port.py made apostrophes, come back. A must-fail edit gets the library's new words too.

    python3 tools/own_names.py            at the top of the repository
"""
import os
import re
import subprocess
import sys

DECLARED = re.compile(r"^\s*(?:pub |abbrev |unfoldable )*([^\s:(){}\[\],;.\"]+) :(?: |$)")
TOKEN = re.compile(r"[^\s(){}\[\],;.\"`]+")
IMPORT = re.compile(r"^(?:ghost )?use ([^{;\s]+?)(?:\.\{([^}]*)\})?(?: as \S+)?;?$")
OWN = set(sorted(os.listdir("crates")))
# what port.py writes for the library's words, in the edits, which it leaves alone
LIBRARY = {"getD": "get_or", "negℤ": "neg_ℤ", "natAbs": "nat_abs", "ltZ": "lt_z", "leZ": "le_z", "andThen": "and_then"}


def snake(name):
    spaced = re.sub(r"(?<=[a-z0-9])([A-Z])", lambda m: "_" + m.group(1).lower(), name)
    spaced = re.sub(r"(?<=[a-z0-9])([ℤℕΣ])", r"_\1", spaced)
    return spaced.replace("-", "_")


def files(*endings):
    for folder, dirs, names in os.walk("crates"):
        dirs[:] = sorted(d for d in dirs if d != "out")
        for name in sorted(names):
            if name.endswith(endings):
                yield os.path.join(folder, name)


def lines_of(path):
    with open(path, encoding="utf-8") as f:
        return f.read().split("\n")


def declared():
    """The names that our files declare, and that are not in snake case."""
    names, kept = set(), set()
    for path in files(".antt"):
        for line in lines_of(path):
            if line.lstrip().startswith("--"):
                continue
            found = DECLARED.match(line)
            if not found:
                continue
            name = found.group(1)
            if re.search(r"[^\w'-]", name) or name == "_" or "◌" in name:
                continue
            if name[0].isupper():
                continue
            kept.add(name)
            if snake(name) != name:
                names.add(name)
    return names, kept


def renamed():
    """Definitions first, which were in camel case; then what would fall together with one gets _lem, also what port.py turned."""
    names, kept = declared()
    to = {}
    for name in sorted(names, key=lambda n: ("-" in n, n)):
        new = snake(name)
        if "-" not in name and new in kept:
            to[new] = new + "_lem"
        elif new in kept or new in to.values():
            new += "_lem"
        if new + "_lem" in kept or new in [n for o, n in to.items() if o != name]:
            sys.exit(f"own_names: {name} would fall together with {new}")
        to[name] = new
    return to


def foreign(lines):
    """The names that a file takes from the library."""
    names = set()
    for line in lines:
        found = IMPORT.match(line.strip())
        if not found or not found.group(2):
            continue
        path = found.group(1).split(".")
        if path[0] == "Rattle" and len(path) > 1 and path[1] in OWN:
            continue
        for item in found.group(2).split(","):
            names.add(item.split(" as ")[-1].strip())
    return names


def signs(comment):
    comment = re.sub(r"(?<=\d)'''", "‴", comment)
    comment = re.sub(r"(?<=\d)''", "″", comment)
    comment = comment.replace("writes ' and °", "writes ′ and °")
    return re.sub(r"(?<=\d)'(?![A-Za-z_])", "′", comment)


def turned(text, to, skip):
    found = re.match(r"((?:pub )?use [^{\s]+)(.*)", text)
    if found:  # a path names modules, some of them for a function
        kept = {old: new for old, new in to.items() if "_" not in old}
        return turned_words(found.group(1), kept, skip) + turned_words(found.group(2), to, skip)
    return turned_words(text, to, skip)


def turned_words(text, to, skip):
    return TOKEN.sub(lambda m: to[m.group()] if m.group() in to and m.group() not in skip else m.group(), text)


def commented(comment, to):
    """In a comment only a name that can be no English word: in backquotes, or in camel case."""
    comment = signs(comment)
    comment = re.sub(r"`([^`]*)`", lambda m: "`" + turned(m.group(1), to, set()) + "`", comment)
    camel = {old: new for old, new in to.items() if "-" not in old}
    return turned(comment, camel, set())


def antt(path, to):
    lines = lines_of(path)
    skip = foreign(lines)
    out = []
    for line in lines:
        code, dashes, comment = line.partition("-- ")
        if line.startswith("--") or dashes:
            out.append(turned(code, to, skip) + dashes + commented(comment, to))
        else:
            out.append(turned(line, to, skip))
    return "\n".join(out)


def rt(path, to):
    """Rust's own names are in snake case already, and a dash there is a minus: only names in camel case turn, and imports."""
    camel = {old: new for old, new in to.items() if re.search("[a-z][A-Z]", old)}
    out = []
    lines = lines_of(path)
    skip = foreign(lines)
    for line in lines:
        if line.startswith("ghost use "):
            out.append(turned(line, to, skip))
            continue
        code, slashes, comment = line.partition("// ")
        pieces = re.split(r'("(?:[^"\\]|\\.)*")', code)
        pieces = [p if i % 2 else turned(p, camel, skip) for i, p in enumerate(pieces)]
        out.append("".join(pieces) + slashes + (commented(comment, to) if slashes else ""))
    return "\n".join(out)


def edit(path, to):
    words = {**LIBRARY, **to}
    out = []
    in_rt = False
    for line in lines_of(path):
        if line.startswith("file: "):
            in_rt = line.strip().endswith(".rt")
            out.append(line)
        else:
            out.append(turned(line, {o: n for o, n in words.items() if not (in_rt and "-" in o)}, set()))
    return "\n".join(out)


def main():
    to = renamed()
    for ending, turn in ((".antt", antt), (".rt", rt), (".edit", edit)):
        for path in files(ending):
            text = turn(path, to)
            with open(path, "w", encoding="utf-8") as f:
                f.write(text)
    for crate in sorted(OWN):
        subprocess.run(["rt", "fmt"], cwd=os.path.join("crates", crate), check=True, stdout=subprocess.DEVNULL)
    if "--list" in sys.argv:
        for old in sorted(to):
            print(old, to[old])


if __name__ == "__main__":
    main()
