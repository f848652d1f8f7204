#!/usr/bin/env python3
"""Brings this repository's own names in specs/, proofs/ and ghost clauses to snake case, and its named statements to camel case.

usage: python3 tools/rename.py [--list]     at the top of the repository, once, on files that are otherwise untouched

Functions of src/, exported C names, strings, inputs and outputs keep their names: of a .rt file only ghost lines and clauses are turned.
With --list nothing is written: it prints each old name beside the new one, and the names that would fall together.
"""
import glob
import re
import sys

# names that are no definitions of this repository
KEPT = {"pQ", "pR", "cases_Bool"}

# lemmas that a definition's new name would fall together with, and one constructor beside a function
APART = {
    "cut_as": "cut_as-kind",
    "end_fits": "end_fits-count",
    "pair_fits": "pair_fits-kept",
    "pair_left": "pair_left-room",
    "step_in": "step_in-section",
    "takes_none": "takes_none-stays",
    "free-slots": "free_slots_are",
}


def antt_files():
    found = []
    for kind in ("specs", "proofs"):
        found += glob.glob(f"crates/*/{kind}/**/*.antt", recursive=True)
    return sorted(found)


def bare(text):
    return re.sub(r"--.*", "", text)


def snake(name):
    return re.sub(r"(?<=[a-z0-9])([A-Z])", lambda m: "_" + m.group(1).lower(), name)


def camel(name):
    return "".join(part[:1].upper() + part[1:] for part in name.split("-"))


def names():
    """Old name -> new name."""
    turned = {}
    for path in antt_files():
        text = bare(open(path, encoding="utf-8").read())
        for m in re.finditer(r"(?<![A-Za-z0-9_])([a-z][a-z0-9_]*[A-Z][A-Za-z0-9_']*)", text):
            if m.group(1) not in KEPT:
                turned[m.group(1)] = snake(m.group(1))
        if "/specs/" in path:
            # named statements
            for m in re.finditer(r"(?m)^abbrev pub ([A-Z][A-Za-z]*(?:-[A-Za-z]+)+) : Type 0", text):
                turned[m.group(1)] = camel(m.group(1))
            # fields and constructors
            for m in re.finditer(r"(?m)^  (?:pub )?([a-z][a-z0-9_]*(?:-[a-z0-9_]+)+) :", text):
                turned[m.group(1)] = m.group(1).replace("-", "_")
    for path in glob.glob("crates/*/src/**/*.rt", recursive=True):
        text = open(path, encoding="utf-8").read()
        for start, end in ghost_spans(text):
            for m in re.finditer(r"(?<![A-Za-z0-9_])([a-z][a-z0-9_]*[A-Z][A-Za-z0-9_']*)", text[start:end]):
                if m.group(1) not in KEPT:
                    turned[m.group(1)] = snake(m.group(1))
    turned.update({old: new for old, new in APART.items() if "-" in old})
    return turned


def turn_text(text, turned):
    for old in APART:
        if "-" not in old:
            text = re.sub(r"(?<![A-Za-z0-9_'\-.])" + old + r"(?![A-Za-z0-9_'\-])", APART[old], text)

    # camel-case names are parts of lemma names too, as setNeed-sound; names with a dash stand whole
    def part(m):
        return turned.get(m.group(0), m.group(0))

    text = re.sub(r"(?<![A-Za-z0-9_'])[a-z][a-z0-9_]*[A-Z][A-Za-z0-9_']*", part, text)
    dashed = [n for n in turned if "-" in n]
    if dashed:
        whole = "|".join(re.escape(n) for n in sorted(dashed, key=len, reverse=True))
        text = re.sub(r"(?<![A-Za-z0-9_'\-])(" + whole + r")(?![A-Za-z0-9_'\-])", lambda m: turned[m.group(1)], text)
    return text


def ghost_spans(text):
    """The parts of a .rt file that are clauses or ghost items."""
    spans = []
    for m in re.finditer(r"(?m)^\s*ghost use [^;]*;", text):
        spans.append(m.span())
    for m in re.finditer(r"(?m)^\s*(?:pub )?(?:requires|ensures|ghost)\b[^{;\n]*\{", text):
        depth, i = 1, m.end()
        while depth and i < len(text):
            depth += {"{": 1, "}": -1}.get(text[i], 0)
            i += 1
        spans.append((m.start(), i))
    return sorted(spans)


def main():
    turned = names()
    known = set()
    for path in antt_files():
        known |= set(re.findall(r"[A-Za-z_][A-Za-z0-9_'\-]*", bare(open(path, encoding="utf-8").read())))
    if "--list" in sys.argv:
        for old, new in sorted(turned.items()):
            print(old, new, "FALLS TOGETHER" if new in known else "")
        return
    for path in antt_files():
        text = open(path, encoding="utf-8").read()
        lines = []
        for line in text.split("\n"):
            code, mark, comment = line.partition("--") if line.lstrip().startswith("--") else (line, "", "")
            lines.append(turn_text(code, turned) + mark + comment)
        new = "\n".join(lines)
        if new != text:
            open(path, "w", encoding="utf-8").write(new)
    for path in sorted(glob.glob("crates/*/src/**/*.rt", recursive=True)):
        text = open(path, encoding="utf-8").read()
        out, at = [], 0
        for start, end in ghost_spans(text):
            if start < at:
                continue
            out += [text[at:start], turn_text(text[start:end], turned)]
            at = end
        new = "".join(out + [text[at:]])
        if new != text:
            open(path, "w", encoding="utf-8").write(new)


main()
