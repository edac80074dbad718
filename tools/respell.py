#!/usr/bin/env python3
"""Spells the repository's own words of specs/ and proofs/ as the kit's guides do.

usage: tools/respell.py [FOLDER]

A definition, lemma, field or label in lowerCamelCase or with dashes gets snake case, and a type that was spelled with
dashes gets camel case. It turns whole words in .antt files and in the ghost text of .rt files. The words are those that
the .antt files declare (and the ghost members of the .rt files), but for names of goals, which the check makes.
A dash stays where it joins the name of a function to what is said of it, as in length-padded. Where a word meets one that is
spelled like it already, a line that begins 'look:' says so: a definition may be called like the Rust function that it describes,
and a path may have such a word.
"""
import os
import re
import sys

NAME = r"[^\s(){}.;,@\"«»]+"
DECLARED = re.compile(
    r"(?m)^( *)((?:pub |abbrev |unfoldable |data |record )*)(" + NAME + r")((?: \{[^{}\n]*\}| \([^()\n]*\))*) : *(.*)$"
)
# A name on a line of its own, its arguments below it.
ALONE = re.compile(r"(?m)^( *)((?:pub |abbrev |unfoldable )*)(" + NAME + r")\n +[:{(]")
WORD = re.compile(r"(?<![^\s(){}.;,@\"«»])" + NAME)
MEMBER = re.compile(r"(?m)^ *ghost ([A-Za-z_]\w*)\s*:")
GHOST = re.compile(r"^ *(ensures|requires|ghost)\b")
MADE = ("returns", "loop-", "invariant-", "decreases-", "overflow-", "bounds-")
# Words that would meet another word, and what they are called instead: everywhere, or below one folder.
OTHERWISE = {
    "in-range": "is_in_range",
    "same-name": "same_name_lem",
    "room-for": "room_for_lem",
    "new-pair": "new_pair_lem",
    "from-word": "from_word_lem",
    "delivery-outcomes": "delivery_outcomes_lem",
    "delivery-places": "delivery_places_lem",
    "worked-outcomes": "worked_outcomes_lem",
}
BELOW = {
    "bloom/proofs": {"all_set": "all_set_lem"},
    "stores/proofs": {"row_fits": "row_fits_lem"},
    "journal/proofs": {"row_fits": "row_fits_lem"},
    "shadow/proofs": {"row_fits": "row_fits_lem"},
    "ledger/proofs": {"with_row": "with_row_lem"},
}
# Functions whose lemmas are called FUNCTION-WORD.
HEADS = ("length", "map", "total", "weight", "u16At", "u32At", "u16_at", "u32_at", "kindFor")


def texts(root):
    for folder, dirs, files in os.walk(os.path.join(root, "crates")):
        dirs[:] = sorted(d for d in dirs if d != "out")
        for f in sorted(files):
            if f.endswith((".antt", ".rt")):
                yield os.path.join(folder, f)


def snake(word):
    return re.sub(r"(?<=[a-z0-9])[A-Z]", lambda m: "_" + m[0].lower(), word)


def spelled(word):
    if word in OTHERWISE:
        return OTHERWISE[word]
    if word[0].isupper():
        return "".join(p[:1].upper() + p[1:] for p in word.split("-")) if "-" in word else word
    if "-" in word and word.split("-")[0] in HEADS:
        return snake(word)
    return snake(word).replace("-", "_")


def is_made(word, statement):
    return word.startswith(MADE) or statement.startswith(("goal.", "need.", "choices.", "given."))


def table(root):
    words = set()
    for p in texts(root):
        with open(p, encoding="utf-8") as f:
            t = f.read()
        if p.endswith(".antt"):
            words |= {m[3] for m in DECLARED.finditer(t) if not is_made(m[3], m[5])}
            words |= {m[3] for m in ALONE.finditer(t) if "-" in m[3] and not is_made(m[3], "")}
        else:
            words |= {m[1] for m in MEMBER.finditer(t)}
    return {w: spelled(w) for w in words if spelled(w) != w and re.fullmatch(r"[\w\-+']+", w)}


def turned(text, rows):
    # A comment in plain words is not touched, but for single words in camel case.
    def one(m):
        return rows.get(m[0], m[0])

    out = []
    for line in text.split("\n"):
        code, dash, said = line.partition("--") if line.lstrip().startswith("--") else (line, "", "")
        said = re.sub(r"\w*[a-z0-9][A-Z]\w*", lambda m: rows.get(m[0], m[0]), said)
        out.append(WORD.sub(one, code) + dash + said)
    return "\n".join(out)


def turned_rust(text, rows):
    out, depth, in_ghost = [], 0, False
    for line in text.split("\n"):
        if not in_ghost and GHOST.match(line):
            in_ghost = True
        if in_ghost:
            depth += line.count("{") - line.count("}")
            out.append(WORD.sub(lambda m: rows.get(m[0], m[0]), line))
            in_ghost = depth > 0
            depth = max(depth, 0)
        else:
            out.append(line)
    return "\n".join(out)


def turned_edit(text, rows):
    """An edit of specs/ or proofs/, or of the ghost text of src/."""
    camel = {k: v for k, v in rows.items() if "-" not in k}
    use = rows if re.search(r"(?m)^file: (specs|proofs)/", text) else camel
    return "\n".join(l if l.startswith("file:") else WORD.sub(lambda m: use.get(m[0], m[0]), l) for l in text.split("\n"))


def main():
    root = sys.argv[1] if len(sys.argv) > 1 else "."
    rows = table(root)
    new = {}
    for p in texts(root):
        with open(p, encoding="utf-8") as f:
            t = f.read()
        here = dict(rows)
        for folder, more in BELOW.items():
            if os.path.join("crates", folder) + "/" in p:
                here.update(more)
        n = (turned if p.endswith(".antt") else turned_rust)(t, here)
        before = {m[0] for m in WORD.finditer(t)}
        for w in sorted(before & here.keys()):
            if here[w] in before - here.keys() and not (p.endswith(".rt") and "-" in w):
                print(f"look: {p}: {w} meets {here[w]}")
        if n != t:
            new[p] = n
    for folder, dirs, files in os.walk(root):
        dirs[:] = sorted(d for d in dirs if d not in ("out", ".git", "target"))
        for f in sorted(files):
            if f.endswith(".edit"):
                p = os.path.join(folder, f)
                with open(p, encoding="utf-8") as h:
                    t = h.read()
                n = turned_edit(t, rows)
                if n != t:
                    new[p] = n
    for p, n in new.items():
        with open(p, "w", encoding="utf-8") as f:
            f.write(n)
    print(f"respell: {len(rows)} words, {len(new)} files")


main()
