#!/usr/bin/env python3
"""Respells the repository's own definitions and lemmas as today's Rattle spells names, once, right after port.py.

A word that port.py left in camel case becomes snake case wherever it stands: in specs/, in proofs/, in the clauses of src/, in the edits, and in
the pages. Where a lemma has the spelling that a definition gets, the lemma takes `_lem` after its name first. A fact in lower case becomes upper
camel case. Functions, exported names, strings, inputs and outputs are not touched: none of them is in camel case.

    tools/respell.py           at the top of the repository
"""
import glob
import re
import sys

# Lemmas that stand where a definition's new name would.
LEMMAS = """at_top by_number cut_off in_order listed_back none_yet one_on open_after step_back text_at token_back too_short walk_at walk_from
written_back""".split()
# Facts in lower case, by the files that they stand in.
FACTS = [("within", "IsWithin", "crates/stdio/"), ("any", "Any", "crates/laws/proofs/Shortened.antt")]
# Labels of clauses that a definition's new name would hide.
LABELS = [("ensures held_after {", "ensures held {")]
# Parameters in camel case.
PARAMETERS = ["afterEqual", "dropN", "readAt", "refusedBy"]
WORD = re.compile(r"[A-Za-z_][A-Za-z0-9_'-]*")
# A definition: at the start of a line or under a `where`, with its type.
DEFINED = re.compile(r"^\s*(?:abbrev |unfoldable )?(?:pub )?([a-z][A-Za-z0-9_']*)\s*:\s", re.M)


def files(*patterns):
    return sorted(f for p in patterns for f in glob.glob(p, recursive=True))


def snake(name):
    return re.sub(r"(?<=[a-z0-9])([A-Z])", r"_\1", name).lower()


def main():
    antt = files("crates/*/specs/**/*.antt", "crates/*/proofs/**/*.antt")
    found = set(PARAMETERS)
    for f in antt:
        found |= {n for n in DEFINED.findall(open(f).read()) if re.search("[A-Z]", n)}
    names = {n: snake(n) for n in found}
    words = set()
    for f in antt:
        words |= set(WORD.findall(open(f).read()))
    for old, new in sorted(names.items()):
        if new in words and new not in LEMMAS:
            print(f"{old}: {new} stands already")
    lemmas = {n: n + "_lem" for n in LEMMAS}
    pages = files("*.md", "docs/*.md", "checks/fixtures/**/*.*")
    for f in antt + files("crates/*/src/**/*.rt", "crates/*/must-fail/*.edit") + pages:
        with open(f) as at:
            text = at.read()
        new = text
        for old, label in LABELS:
            new = new.replace(old, label)
        facts = {old: to for old, to, where in FACTS if where and f.startswith(where)}

        def turned(m):
            word = m.group(0)
            if f.endswith(".antt") and word in lemmas:
                return lemmas[word]
            if word in facts and not f.endswith(".md"):
                return facts[word]
            return names.get(word, word)

        new = WORD.sub(turned, new)
        if new != text:
            with open(f, "w") as at:
                at.write(new)


if __name__ == "__main__":
    sys.exit(main())
