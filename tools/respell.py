#!/usr/bin/env python3
"""Puts the repository's own words of specs/ and proofs/ into snake case.

usage: tools/respell.py [FOLDER]      FOLDER has crates/; without it, the repository that the script stands in

A word is one that an .antt file of the repository declares: a definition, a lemma, a field, a name in a `let`, or what a
`use` line calls it. `front-length-at` and `limitAt` become `front_length_at` and `limit_at`, in comments of .antt files too.
Left alone are the names that Rattle makes (goals, and what a goal knows), the words of the library, types and modules, names
that stand only on the left of an equation, the functions of src/, every text, and the comments of .rt files. Words of one
crate's specs/ and proofs/ that would fall together are named, and nothing is written. A second run changes nothing.
"""

import pathlib
import re
import sys

NAME = r"[^\W\d][\w'-]*"
DECLARED = re.compile(rf"(?:^|[({{\[,;]|\blet\s|\bwhere\s|\bin\s)\s*(?:(?:abbrev|pub|private)\s+)*((?:{NAME}\s+)*{NAME})\s+:\s+(\S+)")
TOKEN = re.compile(r"(?<![\w'-])[^\W\d][\w'-]*")
# A word that is no part of a path.
ALONE = re.compile(r"(?<![\w'.-])[^\W\d][\w'-]*(?![\w'-])(?!\.[^\W\d][\w'-]*\.)")
ALIAS = re.compile(rf"\bas ({NAME})")
TEXT = {".rt": re.compile(r'("(?:[^"\\]|\\.)*"|//.*)'), ".antt": re.compile(r'("(?:[^"\\]|\\.)*")')}
LIBRARY = re.compile(r"^\s*(?:ghost )?use Rattle\.std\.[^{]*\.\{([^}]*)\}")
# Lemmas of one crate that would take the name of the definition that they are about.
OTHERWISE = {"left-after": "left_of_after", "left-ticked": "left_of_ticked", "task-cell": "task_cell_of"}
WORDS = {"abbrev", "pub", "private", "let", "where", "in", "record", "module", "use", "mod"}


def code(line):
    """What stands on a line of an .antt file before a comment."""
    return "" if line.lstrip().startswith("--") else line.split(" -- ")[0]


def folded(word):
    """A word in snake case."""
    if word in OTHERWISE:
        return OTHERWISE[word]
    word = word.replace("-", "_")
    return re.sub(r"(?<=[a-z0-9])([A-Z])", lambda m: "_" + m[1].lower(), word)


def antt(root):
    for folder in ("specs", "proofs"):
        yield from sorted(root.glob(f"crates/*/{folder}/**/*.antt"))


def source(root):
    return sorted(root.glob("crates/*/src/**/*.rt"))


def turn(line, turned, suffix):
    """A line with its words turned, but for its texts."""
    parts = TEXT[suffix].split(line)
    for i in range(0, len(parts), 2):
        parts[i] = TOKEN.sub(lambda m: turned.get(m[0], m[0]), parts[i])
    return "".join(parts)


def declared(root):
    """The words that the repository declares, without those that Rattle makes."""
    own, made, library = set(), set(), set()
    for path in [*antt(root), *source(root)]:
        for line in path.read_text(encoding="utf-8").splitlines():
            found = LIBRARY.match(line)
            if found:
                library.update(part.split(" as ")[0].strip() for part in found[1].split(","))
            if " use Rattle." in " " + line:
                own.update(ALIAS.findall(line))
            if path.suffix == ".rt":
                continue
            for names, kind in DECLARED.findall(code(line)):
                names = [n for n in names.split() if n not in WORDS]
                (made if kind.startswith(("goal.", "Goals.", "needs.")) else own).update(names)
    return {n for n in own - made - library if n[0].islower() or not n[0].isascii()}


def main():
    root = pathlib.Path(sys.argv[1] if len(sys.argv) > 1 else pathlib.Path(__file__).resolve().parent.parent)
    own = declared(root)
    turned = {n: folded(n) for n in own if folded(n) != n}
    together = {}
    for old, new in turned.items():
        together.setdefault(new, []).append(old)
    bad = [f"{new}: {' '.join(sorted(olds))}" for new, olds in sorted(together.items()) if len(olds) > 1]
    standing = {}
    for path in antt(root):
        crate = path.relative_to(root).parts[1]
        for line in path.read_text(encoding="utf-8").splitlines():
            standing.setdefault(crate, set()).update(ALONE.findall(line))
    for crate, tokens in sorted(standing.items()):
        bad += [f"{new}: {old}, and {new} itself in {crate}" for old, new in sorted(turned.items()) if old in tokens and new in tokens]
    if bad:
        print("words that fall together:", *bad, sep="\n  ", file=sys.stderr)
        return 1
    changed = 0
    for path in [*antt(root), *source(root)]:
        old = path.read_text(encoding="utf-8")
        new = "".join(turn(line, turned, path.suffix) for line in old.splitlines(keepends=True))
        if new != old:
            path.write_text(new, encoding="utf-8")
            changed += 1
    print(f"{len(turned)} words, {changed} files")
    return 0


if __name__ == "__main__":
    sys.exit(main())
