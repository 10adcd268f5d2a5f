#!/usr/bin/env python3
"""Spells the repository's own definitions and lemmas in snake case: a dash in a name that specs/ or proofs/ declare becomes `_`.

usage: tools/respell.py [--check]     (at the top of the repository; a second run changes nothing)

A name stays in a file that imports it from a library, and so do the labels that Rattle makes in the proof of a function: in Proof, Answers
and Invariants only a name that another file declares is turned. In comments and pages only what stands in backquotes is turned, and never
what holds a `/`. Names that fall together with one that the file has already are printed on lines that begin `look:`.
"""
import collections
import glob
import re
import sys

NAME = r"[^\s(){}.;,@\"«»\[\]`|:]+"
WORD = re.compile(NAME)
USE = re.compile(r"(?m)^(?:ghost )?use ([^\s;{]+?)(?:\.?\{([^}]*)\})?(?: as ([^\s;]+))?;?[ \t]*$")
SPAN = re.compile(r"`[^`\n]*`")
CLAUSE = re.compile(r"\b(?:requires|ensures)\*?(?: \w+)? \{|\bghost(?: \w+:)? \{")
DECLARED = re.compile(r"(?m)^ *(?:(?:pub|unfoldable|abbrev|pattern|data|record) )*(" + NAME + r")(?: \{[^{}\n]*\})*(?: \([^()\n]*\))* :(?!=)")
MADE = re.compile(r"proofs/.*/(Proof|Answers|Invariants)\.antt$")
OWN = {re.match(r"(\w+)", l)[0] for l in open("crates.txt", encoding="utf-8") if re.match(r"\w", l)}


def dashed(name):
    return "-" in name.strip("-") and re.match(r"[A-Za-z]", name) and not re.fullmatch(r"[\d-]+", name)


def code_of(text):
    return re.sub(r"--.*", "", text)


def imported(text):
    """The names that a file takes from a library."""
    out = set()
    for m in USE.finditer(text):
        path = m.group(1).split(".")
        if path[0] == "Rattle" and len(path) > 1 and path[1] in OWN:
            continue
        for item in (m.group(2) or "").split(","):
            out.update(item.replace(" as ", " ").split())
    return out


def turned(text, names, kept):
    def one(m):
        w = m[0]
        return w.replace("-", "_") if w in names and w not in kept else w

    return WORD.sub(one, text)


def antt(text, names, kept):
    out = []
    for line in text.split("\n"):
        cut = re.search(r"(?:^|\s)--(?:\s|$)", line)
        code, rest = (line[: cut.start()], line[cut.start() :]) if cut else (line, "")
        out.append(turned(code, names, kept) + SPAN.sub(lambda m: turned(m[0], names, kept), rest))
    return "\n".join(out)


def rattle(text, names, kept):
    """Clauses and `ghost use` lines; and what stands in backquotes in a comment."""
    out, at = [], 0
    for m in re.finditer(r"//[^\n]*|ghost use [^;]*;|" + CLAUSE.pattern, text):
        if m.start() < at:
            continue
        end = m.end()
        if m[0].startswith("//"):
            new = SPAN.sub(lambda s: turned(s[0], names, kept), m[0])
        else:
            if m[0].endswith("{"):
                depth = 1
                while depth:
                    depth += {"{": 1, "}": -1}.get(text[end], 0)
                    end += 1
            new = turned(text[m.start() : end], names, kept)
        out += [text[at : m.start()], new]
        at = end
    return "".join(out) + text[at:]


def edit(text, names):
    head = re.search(r"(?m)^file: (.*)$", text)[1]
    turn = turned if head.endswith(".antt") else rattle
    return re.sub(r"(?m)^(old|new): (.*)$", lambda m: f"{m[1]}: {turn(m[2], names, ())}", text)


def page(text, names):
    def one(m):
        return m[0] if "/" in m[0] or m[0].startswith("`rt ") else turned(m[0], names, ())

    return SPAN.sub(one, text)


def main():
    check = "--check" in sys.argv
    files = sorted(glob.glob("crates/*/specs/**/*.antt", recursive=True) + glob.glob("crates/*/proofs/**/*.antt", recursive=True))
    texts = {p: open(p, encoding="utf-8").read() for p in files}
    names = set()
    for p, t in texts.items():
        if MADE.search(p):
            continue
        names.update(w for w in WORD.findall(code_of(t)) if dashed(w) and w not in imported(t))
        names.update(n for n in DECLARED.findall(code_of(t)) if dashed(n))
    changed = 0
    for p, t in texts.items():
        kept = imported(t)
        words = collections.Counter(WORD.findall(code_of(t)))
        for w in sorted(words):
            if w in names and w not in kept and w.replace("-", "_") in words:
                print(f"look: {p}: {w} meets {w.replace('-', '_')}")
        new = antt(t, names, kept)
        if new != t:
            changed += 1
            if not check:
                open(p, "w", encoding="utf-8").write(new)
    others = [(p, "rt") for p in sorted(glob.glob("crates/*/src/**/*.rt", recursive=True))]
    others += [(p, "edit") for p in sorted(glob.glob("crates/*/must-fail/*.edit"))]
    others += [(p, "page") for p in ["README.md"] + sorted(glob.glob("docs/**/*.md", recursive=True))]
    for p, kind in others:
        t = open(p, encoding="utf-8").read()
        if kind == "rt":
            new = rattle(t, names, imported(t))
        else:
            new = edit(t, names) if kind == "edit" else page(t, names)
        if new != t:
            changed += 1
            if not check:
                open(p, "w", encoding="utf-8").write(new)
    print(f"{len(names)} names, {changed} files changed")


main()
