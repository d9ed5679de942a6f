#!/usr/bin/env python3
"""Spells this repository's own names as today's Rattle does: what is neither a type, a fact nor a module is in
snake case. Run once, at the top, right after the kit's port.py: it turns .antt files, what .rt files say to the
prover (ghost use lines and clauses) and the must-fail edits. A name in the source of a program is in snake case
already. It lists names that would fall together, and then changes nothing."""
import collections
import glob
import re
import sys

TOKEN = re.compile(r"[^\W\d][\w'′]*(?:-[\w'′≡ℕ]+)*")
CAMEL = re.compile(r"^[a-z][a-z0-9]*(?:[A-Z][A-Za-z0-9]*)+$")
OWN = {"getD": "get_or"}    # the library's new word, in the names of our lemmas
# lemmas that would get the name of what they speak of, and the files that say them
LEMMAS = {
    "fits_word": r"crates/(shortened_theory/proofs/Guards|coder_theory/proofs/.*)\.antt$",
    "zero_word": r"crates/(words_theory/proofs/.*|coder_theory/proofs/Demand2)\.antt$",
    "next_low": r"crates/folds_theory/proofs/Offs\.antt$",
}
# names that fall together and are told apart by where they stand: a field and a lemma, a function and what its
# contract says of it, the step of a call in a proof and the word of its contract
APART = {
    "bad_place", "in_force", "new_place", "is_left_out", "refused_opening", "refused_element", "word_length",
    "message_length", "same_s", "once_more", "is_word", "bad_from", "fits_word", "first_plus", "first_width",
    "low_width", "element_at", "is_digit", "is_end", "fits_message", "or_hamming",
}


def part(p):
    if p in OWN:
        return OWN[p]
    if not CAMEL.match(p):
        return p
    return re.sub(r"(?<=[a-z0-9])(?=[A-Z])", "_", p).lower()


def snake(name):
    return "-".join(part(p) for p in name.split("-"))


def lemmas(f, text):
    for name, where in LEMMAS.items():
        if re.match(where, f):
            text = re.sub(rf"(?<![\w.-]){name}(?![\w-])", name + "_lem", text)
    return text


def antt(text):
    out = []
    for line in text.split("\n"):
        code, dash, comment = line.partition("-- ") if not line.startswith("--") else ("", "", line)
        out.append(TOKEN.sub(lambda m: snake(m[0]), code) + dash + TOKEN.sub(lambda m: snake(m[0]), comment))
    return "\n".join(out)


# in a .rt file: the lines of ghost use and of clauses, and names in comments
def rt(text):
    out, depth, clause = [], 0, False
    for line in text.split("\n"):
        s = line.strip()
        if s.startswith("ghost use") or s.startswith("//") or clause or re.match(r"(requires|ensures|invariant|ghost)\b", s):
            if re.match(r"(requires|ensures|invariant)\b", s) or clause:
                depth += line.count("{") - line.count("}")
                clause = depth > 0
            line = TOKEN.sub(lambda m: snake(m[0]), line)
        out.append(line)
    return "\n".join(out)


def main():
    files = {}
    for f in glob.glob("crates/*/specs/**/*.antt", recursive=True) + glob.glob("crates/*/proofs/**/*.antt", recursive=True):
        files[f] = antt
    for f in glob.glob("crates/*/src/**/*.rt", recursive=True):
        files[f] = rt
    for f in glob.glob("crates/*/must-fail/*.edit"):
        files[f] = antt
    together, changed = [], 0
    for f, turn in sorted(files.items()):
        text = lemmas(f, open(f, encoding="utf-8").read())
        seen = collections.defaultdict(set)
        for m in TOKEN.finditer(text):
            seen[snake(m[0])].add(m[0])
        together += [f"{f}: {' '.join(sorted(ns))}" for new, ns in seen.items() if len(ns) > 1 and new not in APART]
    if together:
        print("\n".join(together))
        print(f"{len(together)} names fall together: nothing was changed")
        return 1
    for f, turn in files.items():
        text = open(f, encoding="utf-8").read()
        new = turn(lemmas(f, text))
        if new != text:
            open(f, "w", encoding="utf-8").write(new)
            changed += 1
    print(f"{changed} files of {len(files)} changed")
    return 0


sys.exit(main())
