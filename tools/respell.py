#!/usr/bin/env python3
"""Brings the repository's own definitions and lemmas to today's spelling: words in snake case, types and facts in camel case.

usage: python3 tools/respell.py [FOLDER]     FOLDER is a checkout right after Rattle's port.py; this repository, where none is given

Turned are the names that specs/ and proofs/ declare and the names that a `use` line gives by `as`. A lemma that is named after the left side of
its equation keeps its hyphens, as the library's own do. Functions of src/, strings, inputs, outputs and comments are left alone, and so are the
steps `c.NAME` of an answer, which the check names. Prints each name with its new spelling, and stops before it writes where two fall together.
"""

import glob
import os
import re
import sys

# lemmas named after the left side of their equation
LEFT_SIDES = {
    "drop-paste-add", "drop-paste-here", "length-listed", "length-pieces", "paste-pieces", "pieces-paste", "pieces-replicate",
    "pieces-set", "take-paste-below", "take-paste-here", "take-set-lt",
}
# names with a word that the library has renamed
RENAMED = {"getD-pieces": "get_or-pieces"}

NAME = r"[A-Za-z][\w'-]*"
DECLARED = re.compile(rf"^\s*(?:(?:abbrev|unfoldable) )?(?:pub )?(?:(?:data|record) )?({NAME})(?: (?:\([^=]*?\)|\{{[^=]*?\}}))* :(?= |$)")
ALIAS = re.compile(rf" as ({NAME})")


def code(line, mark):
    """The line's code and its comment."""
    at = line.find(mark)
    return (line, "") if at < 0 else (line[:at], line[at:])


def respelled(name):
    if name in RENAMED:
        return RENAMED[name]
    if name[0].isupper():
        return "".join(w[0].upper() + w[1:] for w in name.split("-"))
    return name.replace("-", "_")


def main(root):
    antt = sorted(glob.glob(f"{root}/crates/*/specs/**/*.antt", recursive=True) + glob.glob(f"{root}/crates/*/proofs/**/*.antt", recursive=True))
    rt = sorted(glob.glob(f"{root}/crates/*/src/**/*.rt", recursive=True))
    edits = sorted(glob.glob(f"{root}/crates/*/must-fail/*.edit"))
    declaring = [p for p in antt if re.search(r"/(specs|proofs)/[^/]+\.antt$", p)]

    names, words = set(), set()
    for p in antt + rt:
        for line in open(p, encoding="utf-8"):
            text, _ = code(line, "--" if p.endswith(".antt") else "//")
            words.update(re.findall(NAME, text))
            if "use " in text:
                names.update(ALIAS.findall(text))
            elif p in declaring:
                names.update(DECLARED.findall(text))
    turned = {n: respelled(n) for n in sorted(names) if "-" in n and n not in LEFT_SIDES}

    together = {n for n in turned.values() if list(turned.values()).count(n) > 1}
    for n, to in turned.items():
        met = " (also a name now)" if to in words else ""
        print(f"{n} -> {to}{met}")
    if together:
        sys.exit(f"respell: these fall together: {sorted(together)}; nothing was written")

    either = "(" + "|".join(re.escape(n) for n in sorted(turned, key=len, reverse=True)) + r")(?![\w'-])"
    anywhere, no_step = re.compile(r"(?<![\w'-])" + either), re.compile(r"(?<![\w'-])(?<!\bc\.)" + either)
    for p in antt + rt + edits:
        pattern = no_step if p.endswith("/Answers.antt") else anywhere
        mark = {"antt": "--", "edit": "\0"}.get(p.rsplit(".", 1)[1], "//")
        old = open(p, encoding="utf-8", newline="").read()
        new = "".join(pattern.sub(lambda m: turned[m.group(1)], t) + c for t, c in (code(l, mark) for l in old.splitlines(keepends=True)))
        if new != old:
            with open(p, "w", encoding="utf-8", newline="") as f:
                f.write(new)


if __name__ == "__main__":
    main(sys.argv[1] if len(sys.argv) > 1 else os.path.dirname(os.path.dirname(os.path.realpath(__file__))))
