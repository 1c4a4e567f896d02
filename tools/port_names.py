#!/usr/bin/env python3
"""Brings the repository's own definitions and lemmas to snake case, after Rattle's port.py: leftOf becomes left_of, in crates/, must-fail edits,
README.md and docs/ (docs/PORT.md and patches aside). Types, modules, functions of src/ and text in strings keep their spelling.

usage: python3 tools/port_names.py        at the top of the repository, once, after port.py

A lemma that would have the name of the function that it is about gets _lem. Names that fall together otherwise are an error, and nothing is written.
"""
import os
import re
import sys

WORD = re.compile(r"(?<!\w)[A-Za-z_ℕℤ][\w'ℕℤ₀₁₂₃₄₅₆₇₈₉-]*")
STRING = re.compile(r'b?"(?:[^"\\]|\\.)*"')

# Lemmas with the name that a function gets: where they stand and are used.
LEMMAS = {
    "all_digits": ["prism/specs/argument/PieceLaws.antt", "prism/specs/argument/LineLaws.antt", "prism/specs/argument/WrittenNames.antt"],
    "all_own": ["strong_files/specs/argument/StrongDecides.antt"],
    "all_shown": ["prism/specs/argument/LineLaws.antt"],
    "goes_on": ["prism_step/specs/ProgressLaws.antt", "prism/specs/argument/GoesOnLaws.antt"],
    "left_alone": ["composition/specs/argument/PairCounts.antt", "composed_states/specs/RecordsLaws.antt", "composed_states/specs/MovesLaws.antt"],
    "left_out": ["replacement/specs/cases/ReplacementCases.antt"],
    "one_answer": ["rules/specs/argument/Demand3Holds.antt", "quotient/specs/argument/QuotientHolds.antt"],
    "two_bytes": ["rules/specs/argument/SoundModelLaws.antt"],
    "same_bytes": ["same_transition/specs/SameTransitionLaws.antt", "prism/specs/argument/NameLaws.antt"],
}

# The spelling of clauses and definitions that port.py turns in .rt and .antt files, and not in must-fail edits.
EDITS = [
    (re.compile(r"⌜ ?| ?⌝"), ""),
    (re.compile(r"Rattle·(\w+)·(specs|proofs)\.\2\b"), r"Rattle.\1.\2"),
    (re.compile(r"Rattle·"), "Rattle."),
    (re.compile(r"(?<=[\w')]) \.(?=[a-z0-9D])"), "."),
    (re.compile(r"(?<![\w')])\((\w+(?:\.[\w-]+)+)\)(?!\.)"), r"\1"),
    (re.compile(r"′"), "'"),
    (re.compile(r"\btoZ-ofZ\b"), "to_z-of_z"),
    (re.compile(r"\btoZ\b"), "to_z"),
    (re.compile(r"\bltZ\b"), "lt_z"),
    (re.compile(r"\bleZ\b"), "le_z"),
    (re.compile(r"\bsubℕ\b"), "sub_ℕ"),
    (re.compile(r"\bgetD\b"), "get_or"),
]


def snake(word):
    parts = []
    for part in word.split("-"):
        if re.match(r"[a-z]", part):
            part = re.sub(r"(?<=[a-z0-9'])(?=[A-Z])|(?<=[A-Z])(?=[A-Z][a-z])", "_", part).lower()
        parts.append(part)
    return "-".join(parts)


def is_camel(word):
    return bool(re.search(r"(?:^|-)[a-z][a-z0-9_']*[A-Z]", word))


def camel(text):
    return WORD.sub(lambda m: snake(m.group(0)) if is_camel(m.group(0)) else m.group(0), text)


def files(top, endings):
    for folder, folders, names in os.walk(top):
        folders[:] = sorted(f for f in folders if f not in ("out", "target", ".git"))
        for name in sorted(names):
            if name.endswith(endings):
                yield os.path.join(folder, name)


def outside_strings(text, turn):
    out, at = [], 0
    for m in STRING.finditer(text):
        out += [turn(text[at : m.start()]), m.group(0)]
        at = m.end()
    return "".join(out + [turn(text[at:])])


def main():
    texts = {p: open(p, encoding="utf-8").read() for p in files("crates", (".antt", ".rt", ".edit"))}
    texts.update({p: open(p, encoding="utf-8").read() for p in [*files("docs", (".md",)), "README.md"] if not p.endswith("PORT.md")})
    # First the lemmas that would fall together with a function.
    for lemma, where in LEMMAS.items():
        for name in where:
            p = os.path.join("crates", name)
            texts[p] = re.sub(rf"(?<![\w'./-]){lemma}(?![\w'/-])", lemma + "_lem", texts[p])
    words = set()
    for p, t in texts.items():
        if p.endswith((".antt", ".rt")):
            words.update(w for w in WORD.findall(STRING.sub('""', t)))
    names = {w: snake(w) for w in words if is_camel(w)}
    back = {}
    for old, new in names.items():
        back.setdefault(new, []).append(old)
    together = [f"{new}: {olds}" for new, olds in back.items() if len(olds) > 1]
    # A bound or declared name of antt that is there already, in a file that has the old one too.
    for p, t in texts.items():
        if p.endswith(".antt") and "/proofs/" not in p:
            here = set(re.findall(r"(?<![\w'./-])[a-z_][\w']*(?:-[\w']+)*(?![\w'/-])", re.sub(r"Rattle[\w.·]*", "", t)))
            together += [f"{p}: {old} and {new}" for old, new in names.items() if new in here and re.search(rf"(?<![\w'-]){re.escape(old)}(?![\w'-])", t)]
    if together:
        print("\n".join(together), file=sys.stderr)
        return 1

    def turn(text):
        return WORD.sub(lambda m: names.get(m.group(0), m.group(0)), text)

    written = 0
    for p, t in texts.items():
        if p.endswith(".edit"):
            head = "".join(l for l in t.splitlines(keepends=True) if l.startswith("file: "))
            lines = []
            for line in t.splitlines(keepends=True):
                if line.startswith(("old: ", "new: ")) or line.startswith("#"):
                    if line.startswith(("old: ", "new: ")) and (".antt" in head or "⌜" in line or "Rattle·" in line):
                        for pattern, to in EDITS:
                            line = pattern.sub(to, line)
                    line = outside_strings(line, camel)
                lines.append(line)
            new = "".join(lines)
        elif p.endswith(".md"):
            new = re.sub(r"`[^`\n]+`", lambda s: camel(s.group(0)), turn(t))
        else:
            new = outside_strings(t, turn)
        if p in texts and new != open(p, encoding="utf-8").read():
            with open(p, "w", encoding="utf-8") as f:
                f.write(new)
            written += 1
    print(f"{len(names)} names turned, {written} files written")
    return 0


if __name__ == "__main__":
    raise SystemExit(main())
