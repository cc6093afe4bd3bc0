#!/usr/bin/env python3
"""Gives the repository's own definitions and lemmas today's spelling: words in snake case, joined by `_`.

usage: python3 tools/respell.py [FOLDER]    at the top of a checkout, or for the checkout FOLDER: once, after the kit's own port script

- a definition in camel case is spelled in snake case, as `urgencyOf`, which becomes `urgency_of`;
- a lemma or a field with dashes is spelled with `_`, as `put-begins`, which becomes `put_begins`;
- where two names would fall together, the lemma takes `_lem`, or the name that NAMES gives;
- `specs/Contracts.antt` becomes `specs/Clauses.antt`, since the kit makes a module `specs.contracts` itself.
Names of the library, of functions of src/ and of the modules that the kit generates stay as they are.
"""

import glob
import os
import re
import subprocess
import sys

# What would fall together with another name, or reads better.
NAMES = {
    "inOrder": "is_in_order",
    "inOrderBy": "is_in_order_by",
    "numbers_of": "numbers_are",
    "firsts-of": "firsts_are",
    "lasts-of": "lasts_are",
    "block-of": "block_is",
    "left-of": "left_mark_is",
    "key-at": "keys_are",
    "line-in": "line_fits",
    "text_in": "text_within",
    "last-day": "last_day_fits",
    "lower_word": "lower_word_is",
    "count-in": "count_within",
    "depth-in": "depth_within",
}

DECLARED = re.compile(r"\s*(?:abbrev\s+|unfoldable\s+)?(?:pub\s+)?(?:abbrev\s+|unfoldable\s+)?(?:pub\s+)?(record|data|ruleset)?\s*([^\s(){}:.,;]+)\s*(.*)$")
NOT_DECLARED = ("use", "open", "mod", "module", "let", "where", "unfolding", "pub", "in")
WORD = r"[^\s(){}\[\]:.,;`\"\u21a6\u03bb|]+"


def declared(top):
    names = set()
    for p in sorted(glob.glob(f"{top}/crates/*/specs/**/*.antt", recursive=True) + glob.glob(f"{top}/crates/*/proofs/**/*.antt", recursive=True)):
        with open(p, encoding="utf-8") as f:
            for line in f:
                if re.match(r"\s*--", line):
                    continue
                m = DECLARED.match(line)
                if m and m.group(2) not in NOT_DECLARED and (m.group(1) or re.match(r":(\s|$)", m.group(3))):
                    names.add(m.group(2))
    return names


def snake(name):
    if name[0].isupper():
        return name.replace("-", "_")
    return re.sub(r"([a-z0-9])([A-Z])", lambda m: m.group(1) + "_" + m.group(2).lower(), name).replace("-", "_")


def table(names):
    names = {n for n in names if re.fullmatch(r"[A-Za-z][A-Za-z0-9_'-]*", n)}
    new = {n: NAMES[n] if n in NAMES else snake(n) for n in names}
    taken = {}
    for n in sorted(names, key=lambda n: ("-" in n, "_" in n, n)):
        if new[n] in taken.values() and not (n == new[n] and n not in taken.values()):
            new[n] += "_lem"
        taken[n] = new[n]
    if len(set(taken.values())) != len(taken):
        twice = sorted(v for v in set(taken.values()) if list(taken.values()).count(v) > 1)
        raise SystemExit(f"respell: names fall together: {twice}")
    return {a: b for a, b in taken.items() if a != b}


def turned(line, to, comment, underscores):
    """The line with each whole word of the table turned; behind a comment's mark only words in camel case."""
    at = re.search(r"(^|\s)" + comment, line)
    code, rest = (line[: at.start()], line[at.start() :]) if at else (line, "")

    def one(m):
        w = m.group(0)
        if w not in to:
            return w
        if "-" not in w and not re.search("[a-z][A-Z]", w):
            # A word that is spelled as a function of src/ may be: not as a part of a path.
            before, after = m.string[: m.start()], m.string[m.end() :]
            if not underscores or after.startswith(".") or (before.endswith(".") and re.search(r"proofs\.$", before)):
                return w
        return to[w]

    def camel(m):
        w = m.group(0)
        return to[w] if w in to and re.search("[a-z][A-Z]", w) else w

    return re.sub(WORD, one, code) + re.sub(r"[A-Za-z0-9_']+", camel, rest)


def pages(top):
    return [p for p in [f"{top}/README.md", *sorted(glob.glob(f"{top}/docs/*.md"))] if os.path.exists(p)]


def main():
    top = os.path.abspath(sys.argv[1] if len(sys.argv) > 1 else ".")
    to = table(declared(top))
    for p in sorted(glob.glob(f"{top}/crates/*/specs/Contracts.antt")):
        subprocess.run(["git", "-C", top, "mv", p, p.replace("Contracts.antt", "Clauses.antt")], check=True)
    for p in sorted(glob.glob(f"{top}/crates/*/*/**/*.antt", recursive=True) + glob.glob(f"{top}/crates/*/src/*.rt")):
        with open(p, encoding="utf-8") as f:
            text = f.read()
        antt = p.endswith(".antt")
        new = "\n".join(turned(line, to, "--" if antt else "//", antt) for line in text.split("\n"))
        new = re.sub(r"(?<=specs\.)Contracts\b", "Clauses", new)
        new = re.sub(r"(?m)^(\s*pub mod )Contracts\b", r"\1Clauses", new)
        if new != text:
            with open(p, "w", encoding="utf-8") as f:
                f.write(new)
    for p in pages(top):
        with open(p, encoding="utf-8") as f:
            text = f.read()
        new = re.sub(r"`[^`\n]+`", lambda m: re.sub(WORD, lambda w: to.get(w.group(0), w.group(0)) if "-" in w.group(0) or re.search("[a-z][A-Z]", w.group(0)) else w.group(0), m.group(0)), text)
        if new != text:
            with open(p, "w", encoding="utf-8") as f:
                f.write(new)
    for a, b in sorted(to.items()):
        print(a, b)


if __name__ == "__main__":
    main()
