#!/usr/bin/env python3
"""Gives a lemma _lem where its name and that of a definition of specs/ differ by dashes alone: box-log, beside box_log, becomes box_log_lem.

usage: name_lemmas.py [--dry]        at the top of the repository, after rename_words.py; run again it changes nothing

A name is turned only in the file that defines it and where it is imported, and never as a field of a generated record (told.is-good).
"""

import glob
import re
import sys

from rename_words import TOKEN, bare, names_of, read


def imported(text):
    """The names that a file imports."""
    out = set()
    for m in re.finditer(r"^use [^\n{]*\{([^}\n]*)\}", text, re.M):
        out |= {w.split(" as ")[0].strip() for w in m.group(1).split(",")}
    return out


def main():
    dry = "--dry" in sys.argv
    definitions = names_of(glob.glob("crates/*/specs/**/*.antt", recursive=True))
    lemma_files = glob.glob("crates/*/proofs/*.antt")
    lemmas = {n for n in names_of(lemma_files) if "-" in n and n.replace("-", "_") in definitions}
    turn = {n: n.replace("-", "_") + "_lem" for n in lemmas}
    both = set(turn.values()) & (definitions | names_of(lemma_files) - lemmas)
    if both:
        sys.exit(f"names that fall together: {' '.join(sorted(both))}")

    for p in sorted(glob.glob("crates/*/proofs/**/*.antt", recursive=True)):
        text = read(p)
        here = lemmas & (imported(bare(text)) | names_of([p]))

        def one(m):
            t = m.group(0)
            if t.startswith(('"', "--")):
                return t
            parts = t.split(".")
            at = [i for i, w in enumerate(parts) if w in here and (i == 0 or parts[i - 1][:1].isupper())]
            for i in at:
                parts[i] = turn[parts[i]]
            return ".".join(parts)

        new = TOKEN.sub(one, text)
        if new != text and not dry:
            with open(p, "w", encoding="utf-8") as f:
                f.write(new)
    for n in sorted(turn):
        print(f"{n} -> {turn[n]}")


if __name__ == "__main__":
    main()
