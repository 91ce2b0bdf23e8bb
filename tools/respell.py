#!/usr/bin/env python3
"""Spells the repository's own definitions and lemmas as today's Rattle does: words in snake case, types and modules in camel case.

usage: python3 tools/respell.py            at the top of the repository, once, after port.py

tools/respell.tsv has a row for each name: old, a tab, new. A name turns as a whole word only:
- in .antt files; in comments there a name with a dash or of a kind turns only between backticks;
- in .rt files a name in camel case turns everywhere, another one in `ghost use` items and clauses only;
- in must-fail edits, behind `old:` and `new:`, a name in camel case everywhere, another one where the edited file is an .antt file or the
  text is a clause or a `ghost use` item;
- in .md files, between backticks.
In a function's own folder (proofs/F/) a name with a dash or underscores turns only where the file imports it, since names that Rattle makes
look alike.
"""
import glob
import re

ROWS = dict(l.rstrip("\n").split("\t") for l in open("tools/respell.tsv", encoding="utf-8"))
WORD = re.compile(r"[^\s(){}\[\];,.@\"«»`λ|]+")
KINDS = {a for a in ROWS if re.match(r"[A-Z]", a)}
CAMEL = {a for a in ROWS if re.match(r"[a-z]", a) and re.search(r"[a-z0-9][A-Z]", a)}
OTHER = set(ROWS) - CAMEL - KINDS
IMPORT = re.compile(r"use (Rattle\.[^\s;{]+)\.\{([^}]*)\}")


def turn(text, names):
    return WORD.sub(lambda m: ROWS[m[0]] if m[0] in names else m[0], text)


def ticked(text, names):
    return re.sub(r"`[^`\n]*`", lambda m: turn(m[0], names), text)


def antt(text, names):
    out = []
    for line in text.split("\n"):
        if line.lstrip().startswith("--"):
            out.append(ticked(turn(line, CAMEL), names))
            continue
        at = line.find(" -- ")
        if at >= 0 and '"' not in line[at:]:
            out.append(turn(line[:at], names) + ticked(turn(line[at:], CAMEL), names))
        else:
            # text between quotes stays
            out.append("".join(p if p.startswith('"') else turn(p, names) for p in re.split(r'("(?:[^"\\]|\\.)*")', line)))
    return "\n".join(out)


def ghost(text):
    """Where the ghost parts of Rattle text stand: `ghost use` items and clauses."""
    at = 0
    for m in re.finditer(r"ghost use [^;]*;|\b(?:requires|ensures)\*?(?: \w+)? \{", text):
        if m.start() < at:
            continue
        end = m.end()
        if text[end - 1] == "{":
            depth = 1
            while depth and end < len(text):
                depth += {"{": 1, "}": -1}.get(text[end], 0)
                end += 1
        yield m.start(), end
        at = end


def rt(text):
    out, at = [], 0
    for a, b in ghost(text):
        out += [turn(text[at:a], CAMEL), turn(text[a:b], set(ROWS))]
        at = b
    return "".join(out + [turn(text[at:], CAMEL)])


def edit(text):
    of_antt = re.search(r"(?m)^file: .*\.antt$", text)
    out = []
    for line in text.split("\n"):
        if not re.match(r"(old|new):", line):
            out.append(line)
        elif of_antt or re.search(r"\b(requires|ensures|ghost use)\b|⌜|⌝|\b(now|entry|exit)\b", line):
            out.append(turn(line, set(ROWS)))
        else:
            out.append(turn(line, CAMEL))
    return "\n".join(out)


def main():
    for path in sorted(glob.glob("crates/**/*", recursive=True) + glob.glob("**/*.md", recursive=True)):
        if "/out/" in path or not path.endswith((".antt", ".rt", ".edit", ".md")):
            continue
        text = open(path, encoding="utf-8").read()
        if path.endswith(".antt"):
            names = set(ROWS)
            if re.search(r"/proofs/.*/", path[path.index("/proofs/"):] if "/proofs/" in path else ""):
                imported = {n.split(" as ")[0].strip() for m in IMPORT.finditer(text) for n in m[2].split(",")}
                aliases = {m[1] for m in re.finditer(r" as (\S+)", text)}
                names = CAMEL | KINDS | (OTHER & (imported | aliases))
            new = antt(text, names)
        elif path.endswith(".rt"):
            new = rt(text)
        elif path.endswith(".edit"):
            new = edit(text)
        else:
            new = ticked(text, CAMEL | OTHER)
        if new != text:
            open(path, "w", encoding="utf-8").write(new)


main()
