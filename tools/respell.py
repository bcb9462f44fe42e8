#!/usr/bin/env python3
"""Respells this repository's own definitions and lemmas in snake case, as today's Rattle spells words: root-two, cornersAt -> root_two, corners_at.

usage: python3 tools/respell.py            in the repository, once, after the kit's port.py

It takes the names that files of specs/ and proofs/ declare (definitions, lemmas, constructors, fields, and the aliases of `use` lines), and writes each of them anew
wherever it stands as a whole word in a .rt, .antt or .edit file, and in the code words of README.md and docs/. Names of goals, which Rattle makes, and functions of
src/ keep their spelling: no file of answers or invariants declares a name for it, and no word of Rust has a dash. `--list` only prints the new names.
"""

import os
import re
import subprocess
import sys

# Names that would fall together with another one get a name of their own.
APART = {
    "splitAt": "split_deep",  # beside the call `split_at`
    "levelAt": "level_deep",  # beside the lemma `level-at`
    "no-hole": "without_hole",  # beside the invariant `no_hole`, and so below
    "no-overlap": "without_overlap",
    "no-crack": "without_crack",
}
GENERATED = ("Answers.antt", "Invariants.antt", "Choices.antt", "Proof.antt")
WORD = re.compile(r"[^\s(){}\[\].;,:`\"⌜⌝«»]+")
DECLARED = re.compile(r"\s*(?:\| )?(?:(?:abbrev|unfoldable|pub|mutual|data|record|ruleset) )*((?:[^\s(){}\[\].;,:=→λ]+ )+):(?: |$)")
ALIAS = re.compile(r" as ([^\s,;}]+)(?=[,}])")
KEYWORDS = {"let", "in", "elim", "use", "module", "open", "where"}
# Files that name what this script renames, and so keep the old names.
KEPT = ("docs/PORT.md",)


def files(root, ends):
    for folder, dirs, names in os.walk(root):
        dirs[:] = sorted(d for d in dirs if d not in ("out", "target", ".git", "tools"))
        for name in sorted(names):
            if name.endswith(ends):
                yield os.path.join(folder, name)


def read(path):
    with open(path, encoding="utf-8") as f:
        return f.read()


def snake(name):
    if name in APART:
        return APART[name]
    if name[0].isupper():
        return name
    return re.sub(r"([a-z0-9])([A-Z])", r"\1_\2", name).replace("-", "_").lower()


def renamings(root):
    found = set()
    for path in files(root, (".antt", ".rt")):
        text = read(path)
        found |= set(ALIAS.findall("\n".join(l for l in text.split("\n") if "use Rattle." in l)))
        if path.endswith(".rt") or os.path.basename(path) in GENERATED:
            continue
        for line in text.split("\n"):
            m = DECLARED.match(line)
            if m and not line.lstrip().startswith("--"):
                words = m[1].split()
                if not KEYWORDS & set(words):
                    found |= set(words)
    return {name: snake(name) for name in sorted(found) if snake(name) != name and not re.search(r"[^\w'-]", name)}


def apart(root, new):
    """Stops where two names of one file would fall together."""
    for path in files(root, (".antt", ".rt")):
        taken = {}
        for word in WORD.findall(read(path)):
            name = new.get(word, word)
            if path.endswith(".antt") and taken.setdefault(name, word) != word and os.path.basename(path) not in GENERATED:
                raise SystemExit(f"{path}: {word} and {taken[name]} would both be {name}")


def respell(text, new):
    return WORD.sub(lambda m: new.get(m[0], m[0]), text)


def turn(path, text, new):
    if path.endswith(".md"):
        return re.sub(r"`[^`\n]+`", lambda m: respell(m[0], new), text)
    # In a .rt file a word with a dash stands in clauses alone, and so does each camel-case one of ours.
    return respell(text, new)


def main(argv):
    root = "."
    new = renamings(root)
    apart(root, new)
    if "--list" in argv:
        words = set()
        for path in files(os.path.join(root, "crates"), (".antt", ".rt")):
            words |= set(WORD.findall(read(path)))
        for old, name in new.items():
            print(old, name, "(in use)" if name in words else "")
        return
    for path in files(root, (".antt", ".rt", ".edit", ".md")):
        if os.path.relpath(path, root) in KEPT:
            continue
        text = read(path)
        turned = turn(path, text, new)
        if turned != text:
            with open(path, "w", encoding="utf-8") as f:
                f.write(turned)
    for crate in sorted(os.listdir("crates")):
        subprocess.run(["rt", "fmt"], cwd=os.path.join("crates", crate), capture_output=True)


if __name__ == "__main__":
    main(sys.argv[1:])
