"""Brings the names of specs/ and proofs/ to one spelling: definitions and lemmas in snake case.

usage: names.py [--list]          (at the top of the repository)

A name is renamed where it is defined in a file of crates/*/specs or crates/*/proofs, in what cites it there, in the clauses
of crates/*/src and in the must-fail edits. Names that the check makes itself (goals, invariants, measures), names of the
library, functions of src/ and texts stay as they are. --list prints the pairs and the places where two names fall together.
"""
import glob
import re
import sys

NAME = re.compile(r"(?<![\w'-])[A-Za-z][A-Za-z0-9_'-]*(?![\w'-])")
DEFINED = re.compile(
    r"^\s*(?:(?:pub|abbrev|unfoldable)\s+)*(?:(?:data|record)\s+)?(?:pub\s+)?([A-Za-z][A-Za-z0-9_'-]*)\s*:(?!=)"
)
# where the plain spelling is taken in a file that uses both
OTHER = {
    name: name.replace("-", "_") + "_lem"
    for name in (
        "line-of row-at line-at kind-of comma-in event-at from-line in-limits in-stage register-in taken-from shown-at touch-words"
    ).split()
}
# the lemma whose definition gets its name
LEMMAS = {"crates/printer/proofs/Back.antt": {"line_gives": "line_gives_lem"}}


def files():
    found = []
    for kind in ("specs/**/*.antt", "proofs/**/*.antt", "src/**/*.rt", "must-fail/*.edit"):
        found += glob.glob("crates/*/" + kind, recursive=True)
    return sorted(f for f in found if "/out/" not in f)


def snake(name):
    if name[0].isupper():
        return name
    if name in OTHER:
        return OTHER[name]
    spelled = re.sub(r"(?<=[a-z0-9])([A-Z])", lambda m: "_" + m[1].lower(), name)
    return spelled.replace("-", "_")


def defined(texts):
    """The names that the crates define, but for those of goals."""
    goals, names = set(), set()
    for text in texts.values():
        goals.update(re.findall(r"\bgoal\.([A-Za-z][A-Za-z0-9_'-]*)", text))
    for file, text in texts.items():
        if not file.endswith(".antt"):
            continue
        for line in text.split("\n"):
            found = DEFINED.match(line)
            if found and not line.lstrip().startswith("--"):
                names.add(found[1])
    return {n for n in names - goals if snake(n) != n}


def foreign(text):
    """The names that a file takes from the library, and those of the check's own goals."""
    names = set()
    for line in re.findall(r"(?:ghost )?use (?!Rattle\.(?!std\b|core\b))[^{\n]*\{([^}]*)\}", text):
        names.update(NAME.findall(line))
    for line in re.findall(r"use [^{\n]*\.(?:Goals|Given)\.\{([^}]*)\}", text):
        names.update(NAME.findall(line))
    return names


def parts(file, line):
    """A line as pieces, each with whether names in it are code."""
    if file.endswith(".antt"):
        code, dash, comment = line.partition("--")
        if dash and (not code or code[-1].isspace()):
            yield code, True
            listed = re.match(r"( {2,})([A-Za-z][A-Za-z0-9_'-]*)( .*|)$", comment)
            yield "--", False
            if listed and not code.strip():
                yield listed[1], False
                yield listed[2], True
                yield listed[3], False
            else:
                yield comment, False
        else:
            yield line, True
        return
    for k, piece in enumerate(re.split(r'("(?:[^"\\]|\\.)*"|//.*$)', line)):
        yield piece, k % 2 == 0


def renamed(file, text, names):
    stays = foreign(text)

    lemmas = LEMMAS.get(file, {})

    def one(found):
        name = found[0]
        if name in lemmas:
            return lemmas[name]
        return snake(name) if name in names and name not in stays else name

    return "\n".join(
        "".join(NAME.sub(one, piece) if code else piece for piece, code in parts(file, line))
        for line in text.split("\n")
    )


def main():
    texts = {f: open(f).read() for f in files()}
    names = defined(texts)
    if "--list" in sys.argv:
        for name in sorted(names):
            print(name, snake(name))
        for file, text in texts.items():
            here = set(NAME.findall(text))
            for name in sorted(here & names):
                if snake(name) in here:
                    print("together:", file, name, snake(name))
        return
    for file, text in texts.items():
        new = renamed(file, text, names)
        if new != text:
            open(file, "w").write(new)


main()
