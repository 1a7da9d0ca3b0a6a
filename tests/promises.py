"""Lists what the library crates export, and fails if a public function promises nothing, asks something of its caller, or is not
held fast: has no theorem `.._held`, which says of its generated contract that any two answers it allows are equal. A conversion or a
printed text must be fixed by the ghost member of its trait.

    python3 tests/promises.py   from the sources alone: nothing is stored here but the exceptions below
"""

import re
import sys
from pathlib import Path

CRATES = Path(__file__).resolve().parent.parent / "crates"

# What a reader gives and whether a writer takes is their own, so two answers to one call may differ. These libraries do nothing but read
# and write, which their use of std's input and output shows; their functions have no such theorem. They promise all the same which bytes
# are read or written, and ask nothing.
READS_AND_WRITES = {"console"}

# It answers nothing, and what it is lent may take the words or not.
MAY_PROMISE_NOTHING = {"console.output.tell"}


def without_comments_and_literals(source):
    """The same text, its comments and quoted bytes blank, so that no brace or word in them is read as code."""
    quoted = r'//[^\n]*|b?"(?:\\.|[^"\\])*"|b\'(?:\\.|[^\'\\])+\''
    return re.sub(quoted, lambda match: re.sub(r"[^\n]", " ", match[0]), source)


def after_balanced(text, at):
    """The place after the bracket that closes the one at a place."""
    depth = 0
    for bracket in re.compile(r"[(){}\[\]]").finditer(text, at):
        depth += 1 if bracket[0] in "({[" else -1
        if depth == 0:
            return bracket.end()
    raise ValueError("a bracket is not closed")


def clauses_of(text, at):
    """The words that open the clauses of a function's contract, from the end of its name to the brace of its body."""
    at = after_balanced(text, text.index("(", at))
    found = []
    while True:
        brace = text.index("{", at)
        # `requires`, `ensures name`, `requires* name`
        word = re.search(r"\b(ghost|requires|ensures)\*?(?:\s+\w+)?\s*$", text[at:brace])
        if not word:
            return found
        found.append(word[1])
        at = after_balanced(text, brace)


def type_around(text, at):
    """The type whose `impl` a place stands in, or nothing."""
    for impl in re.finditer(r"\bimpl\s+(\w+)[^{]*", text):
        if impl.start() < at < after_balanced(text, impl.end()):
            return [impl[1]]
    return []


def public_functions(crate):
    """Each function that is `pub` to other crates: its place in the crate, as the proofs name it, and its clauses."""
    for file in sorted((crate / "src").rglob("*.rt")):
        text = without_comments_and_literals(file.read_text())
        module = [part for part in file.relative_to(crate / "src").with_suffix("").parts if part not in ("lib", "mod")]
        for function in re.finditer(r'\bpub\s+(?:extern\s+)?fn\s+(\w+)', text):
            place = [*module, *type_around(text, function.start()), function[1]]
            yield ".".join(place), clauses_of(text, function.end())


def held_functions(crate):
    """The places of the functions of which some file of the crate's proofs has a theorem `.._held`."""
    for file in (crate / "proofs").rglob("*.antt"):
        text = re.sub(r"--[^\n]*", "", file.read_text())
        text = re.sub(r"\n[ \t]+", " ", text)  # a statement on one line
        named = dict((alias, place) for place, alias in re.findall(rf"^use Rattle\.{crate.name}\.specs\.contracts\.(\S+) as (\S+)", text, re.M))
        theorem = r"^pub \S+_held : (?:Held|Seen) (\S+)\.ended\b.*\(λ M 𝓤\. (\S+)\.clauses \{M = M\} \{𝓤 = 𝓤\}\)$"
        for alias, again in re.findall(theorem, text, re.M):
            if alias == again and alias in named:
                yield named[alias]


# What says of a trait's function which answer it gives, where the trait's own promise leaves it open; and how it says so: a conversion by
# an equation of what comes out with what it is made of, a printed text by a text that is there.
SAYS_THE_ANSWER = {
    "From": r"\bghost\s+from_gives\s*=\s*\{\s*λ\s+(?P<of>[a-z]\w*)\s+(?P<out>\w+)\.\s*(?P=out)\s*≡\s*(?=[^}]*\b(?P=of)\b)(?![^}]*(?:\b(?P=out)\b|[⊎→×]))",
    "TryFrom": r"(?!)",  # there is none, and what it would have to say is not known here
    "Display": r"\bghost\s+output\s*=\s*\{\s*λ\s+(?P<of>[a-z]\w*)\.\s*Some\s*\((?=[^}]*\b(?P=of)\b)",
}

# A refusal's number goes out to C, so its conversion is held fast too, as a public function is.
HELD_TOO = {"units": ["refusal.U64FromRefusal.from"]}


def open_impls(crate):
    """The impls of such traits that do not say it."""
    for file in sorted((crate / "src").rglob("*.rt")):
        text = without_comments_and_literals(file.read_text())
        for impl in re.finditer(r"\bimpl\b[^{;]*?\b(From|TryFrom|Display)\b[^{;]*?\bfor\s+(\w+)[^{;]*(?=\{)", text):
            body = text[impl.end():after_balanced(text, impl.end())]
            if not re.search(SAYS_THE_ANSWER[impl[1]], body):
                yield f"{impl[1]} for {impl[2]}"


def exported_name(place):
    """As a caller writes it: `ArcSeconds::of` for seconds.ArcSeconds.of."""
    *around, name = place.split(".")
    return "::".join([*(part for part in around if part[0].isupper()), name])


def libraries():
    return [lib.parent.parent for lib in sorted(CRATES.glob("*/src/lib.rt"))]


def reads_or_writes(crate):
    sources = [without_comments_and_literals(file.read_text()) for file in (crate / "src").rglob("*.rt")]
    return any(re.search(r"\bstd::(?:io|fs)\b|\bHostRuntime\b|\be?print(?:ln)?!", source) for source in sources)


def complaints(crate, functions):
    is_excepted = crate.name in READS_AND_WRITES
    if is_excepted and not reads_or_writes(crate):
        yield f"{crate.name} neither reads nor writes, and is excepted"
    held = set(held_functions(crate))
    for place, clauses in functions:
        if "requires" in clauses:
            yield f"{crate.name}: {place} asks something of its caller"
        if ("ensures" in clauses) == (f"{crate.name}.{place}" in MAY_PROMISE_NOTHING):
            yield f"{crate.name}: {place} promises {'something, and is excepted' if 'ensures' in clauses else 'nothing'}"
        if place not in held and not is_excepted:
            yield f"{crate.name}: {place} has no theorem .._held"
    for place in HELD_TOO.get(crate.name, []):
        if place not in held:
            yield f"{crate.name}: {place} has no theorem .._held"
    for impl in open_impls(crate):
        yield f"{crate.name}: {impl} does not say its answer"


def main():
    found = []
    for crate in libraries():
        functions = list(public_functions(crate))
        if functions:
            print(f"{crate.name} exports {', '.join(exported_name(place) for place, _ in functions)}")
        found += complaints(crate, functions)
    for complaint in found:
        print(f"promises: {complaint}")
    sys.exit(1 if found else 0)


if __name__ == "__main__":
    main()
