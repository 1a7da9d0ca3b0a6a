"""Looks up what the documents cite, in the tree as it is: names each citation of which nothing is there, and exits 1 if there are any.

In every document: links, and in backticks paths, `File.statement` and `crate::function`. In PROMISES and ARCHITECTURE every other
name in backticks too: a definition, statement, function, type, crate, file or must-fail edit. A name in a list after a file, a crate
or a type is looked up there alone, unless it is a file itself; so are the names after a letter that PROMISES gives to a file.
"""

import fnmatch
import os
import re
import sys
from pathlib import Path

ROOT_FOLDER = Path(__file__).resolve().parent.parent
NOT_OURS = {"requires", "ensures", "result", "std"}  # words and crates of the language
NAMED_WHOLLY = ("PROMISES.md", "ARCHITECTURE.md")
FILE_KINDS = "antt|rt|edit|md|py|rs|c|h|svg|html|css|js|txt|in|out|err|given"
NAME = r"[A-Za-z][\w'-]*"


def tree():
    """Every file and folder, as paths from the root; what is built is none of them."""
    for folder, folders, files in os.walk(ROOT_FOLDER):
        folders[:] = [name for name in folders if name not in ("target", "out", ".git")]
        for name in folders + files:
            yield os.path.relpath(os.path.join(folder, name), ROOT_FOLDER)


TREE = list(tree())


def files_at(path):
    """The files that a document may mean by a path: from the root, from crates/ or from a crate. Capitals as in NAME stand for any name."""
    pattern = re.sub(r"\b[A-Z]{3,}\b", "*", path.rstrip("/"))
    return [file for file in TREE if fnmatch.fnmatch("/" + file, "*/" + pattern)]


def text_of(file):
    return (ROOT_FOLDER / file).read_text()


def stated_in(file, name):
    """Whether an antt file declares a name: as a statement or definition, a record or type, or a field or constructor of one."""
    words = r"(?:(?:pub|abbrev|unfoldable|record|data)\s+)*"
    return re.search(rf"^\s*{words}{re.escape(name)}(?:\s+[({{][^=]*)?\s+:\s", text_of(file), re.M)


def item_in(files, name):
    item = rf"\b(?:fn|struct|enum|const|mod)\s+{re.escape(name)}\b"
    return any(re.search(item, text_of(file)) for file in files if file.endswith(".rt"))


def field_of(struct, name):
    field = rf"\bstruct {struct}\b[^}}]*\b{re.escape(name)}:"
    return any(re.search(field, text_of(file)) for file in TREE if file.endswith(".rt"))


def sources_of(owner):
    """Where the items of a crate, of a module or of a type are."""
    crate = [file for file in TREE if fnmatch.fnmatch(file, f"crates/{owner}/src/*.rt")]
    types = [file for file in TREE if file.endswith(".rt") and re.search(rf"\bimpl {owner}\b", text_of(file))]
    return crate or files_at(f"{owner}.rt") or types


def edits_named(name):
    """`crate/edit`, `crate/must-fail/edit` or `edit` alone."""
    crate, _, edit = name.rpartition("/")
    return files_at(f"{crate.removesuffix('/must-fail') or '*'}/must-fail/{edit}.edit")


def is_file(name):
    """A crate, a proof or definition file by its bare name, or a file without an ending."""
    bare = [file for file in files_at(name) if file == f"crates/{name}" or (ROOT_FOLDER / file).is_file()]
    return bare or name[0].isupper() and files_at(f"{name}.antt")


def known(name):
    """Whether a name that stands alone is one of the project's."""
    antt = [file for file in TREE if file.endswith(".antt")]
    sources = [file for file in TREE if file.endswith(".rt")]
    return is_file(name) or edits_named(name) or item_in(sources, name) or any(stated_in(file, name) for file in antt)


def is_path(cited):
    return re.fullmatch(r"\.?[\w*-]+(?:[./][\w*-]+)*/?", cited) and ("/" in cited or re.search(rf"\.(?:{FILE_KINDS})$", cited))


def found_anywhere(cited):
    """Whether what is cited by itself is there; nothing is said of what is no citation."""
    if re.match(r"target/|crates/\w+/out/|std::", cited):  # what is built, and what is not ours
        return True
    if is_path(cited):
        return bool(files_at(cited) or edits_named(cited))
    statement = re.fullmatch(rf"([A-Z]\w*)\.({NAME})", cited)
    if statement:
        files = files_at(statement[1] + ".antt")
        return any(stated_in(file, statement[2]) for file in files) or field_of(statement[1], statement[2])
    item = re.match(r"(\w+)::(\w+)", cited)
    if item:
        return item_in(sources_of(item[1]), item[2])
    return all(files_at(word) for word in cited.split() if " " in cited and "/" in word and is_path(word))


def context_after(cited):
    """Where the names listed after a citation are looked up: a test of a name, or nothing."""
    item = re.match(r"(\w+)::\w+$", cited)
    if item:
        return lambda name: item_in(sources_of(item[1]), name)
    files = files_at(cited if cited.endswith(".antt") else f"{cited}.antt") if cited[0].isupper() or is_path(cited) else []
    return (lambda name: any(stated_in(file, name) for file in files)) if files else None


def missing_names(line, letters):
    """The names of a line that are not there, each looked up in the list that it stands in."""
    context, end = None, 0
    for token in re.finditer(r"`([^`]+)`", line):
        cited, between = token[1], line[end : token.start()]
        letter = re.search(r"(?:^|[ (])([A-Z]) $", between)
        if letter and letter[1] in letters:
            context = context_after(letters[letter[1]])
        elif between not in (" ", ", ", " (", " and ", ", and ", " to "):
            context = None
        end = token.end()
        if not re.fullmatch(NAME, cited) or cited in NOT_OURS:
            context = context_after(cited)
        elif is_file(cited):
            context = context_after(cited)
        elif not (context(cited) if context else known(cited)):
            yield cited


def missing_edits(line):
    """Must-fail edits said to be `in` crates: each is in each of them."""
    several = r"((?:`\w+`(?:, | and )?)+)"
    for edits, crates in re.findall(rf"{several} in {several}", line):
        for edit in re.findall(r"\w+", edits.replace(" and ", " ")):
            for crate in re.findall(r"\w+", crates.replace(" and ", " ")):
                if edits_named(edit) and not edits_named(f"{crate}/{edit}"):
                    yield f"{crate}/{edit}"


def missing_in(document):
    text = document.read_text()
    prose = re.sub(r"^    [^\n]*|^```.*?^```", "", text, flags=re.M | re.S)  # without what is shown as code
    for link in re.findall(r"\]\(([^)#]+)\)", prose):
        if "://" not in link and not (document.parent / link).exists():
            yield link
    yield from (cited for cited in re.findall(r"`([^`]+)`", prose) if not found_anywhere(cited))
    if document.name in NAMED_WHOLLY:
        letters = dict(re.findall(r"\*\*([A-Z])\*\* (?:is )?`([^`]+)`", text))
        for line in prose.splitlines():
            yield from missing_names(line, letters)
            yield from missing_edits(line)


def main():
    # what PORT.md names is of the repository before a change and after it
    documents = [ROOT_FOLDER / file for file in sorted(TREE) if re.fullmatch(r"(?:docs/|outside/)?\w+\.md", file) and file != "docs/PORT.md"]
    missing = [(document, cited) for document in documents for cited in dict.fromkeys(missing_in(document))]
    for document, cited in missing:
        print(f"cited: {document.relative_to(ROOT_FOLDER)} names {cited}, which is not there")
    sys.exit(1 if missing else 0)


if __name__ == "__main__":
    main()
