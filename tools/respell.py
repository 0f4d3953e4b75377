#!/usr/bin/env python3
"""Respells the repository's own definitions, lemmas and variables as today's Rattle spells names.

usage: python3 tools/respell.py        at the top, once, after /opt/rattle/port/port.py

Types and facts, whose names begin with a capital, go to upper camel case; every other name goes to snake case. Only names
that specs/ or proofs/ declare or bind are changed, in specs/, proofs/, the clauses of src/ and, between backquotes, in
README.md and docs/. Comments, texts and names that Rattle makes or std has stay.
"""
import glob
import re
import sys

WORD = r"(?:[A-Za-z][\w'?]*(?:-[\w'?]+)+|[A-Z][a-z]+(?:_\w+)+)"
NAME = re.compile(r"(?<![\w'?«-])" + WORD + r"(?![\w'?-])")
DECLARED = re.compile(r"^\s*(?:(?:pub|abbrev|unfoldable)\s+)*(" + WORD + r")\s*:(?:\s(?P<rest>.*)|$)")
TYPED = re.compile(r"^\s*(?:pub\s+)?(?:data|record)\s+(" + WORD + r")(?![\w'?-])")
PREMADE = re.compile(r"\s*(?:goal|goals|need|needs|given|rules)\.")
BOUND = re.compile(r"(?:λ|\blet\b|\bas\b|[({]|,)\s*((?:[\w'?-]+\s+)*" + WORD + r"(?:\s+[\w'?-]+)*)\s*(?:[.:=,)}]|\s×)")


def code_only(text, comment):
    """The text with comments and string literals blanked."""
    def blank(m):
        return " " * len(m.group())
    return re.sub(r'"(?:[^"\\\n]|\\.)*"|' + comment + r".*", blank, text)


def respelled(name):
    parts = re.split("[-_]" if name[0].isupper() else "-", name)
    if not parts[0][0].isupper():
        return re.sub(r"(?<=[a-z])[A-Z]", lambda m: "_" + m.group().lower(), "_".join(parts))
    return "".join(p[0].upper() + p[1:] for p in parts)


def sources():
    for path in sorted(glob.glob("crates/*/**/*", recursive=True)):
        if "/out/" in path:
            continue
        if path.endswith(".antt"):
            yield path, "--"
        elif path.endswith(".rt"):
            yield path, "//"


def collect():
    declared, bound, fixed = set(), set(), set()
    for path, comment in sources():
        text = open(path, encoding="utf-8").read()
        code = code_only(text, comment)
        for imports in re.finditer(r"^(?:ghost )?use ([\w.+]+)\.\{([^}]*)\}", code, re.M):
            made = ".Goals" in imports.group(1) or imports.group(1).startswith("Rattle.std.") or not imports.group(1).startswith("Rattle.")
            for item in imports.group(2).split(","):
                words = item.split()
                if made and words and NAME.fullmatch(words[0]):
                    fixed.add(words[0])
                if len(words) == 3 and words[1] == "as" and NAME.fullmatch(words[2]):
                    bound.add(words[2])
        if comment != "--":
            continue
        for line in code.split("\n"):
            m = TYPED.match(line)
            if m:
                declared.add(m.group(1))
            m = DECLARED.match(line)
            if m:
                (fixed if m.group("rest") and PREMADE.match(m.group("rest")) else declared).add(m.group(1))
        for m in BOUND.finditer(code):
            for word in m.group(1).split():
                if NAME.fullmatch(word):
                    bound.add(word)
        for m in re.finditer(r"(?<=\.)" + WORD, code):
            if path.endswith(("Answers.antt", "Invariants.antt")):
                fixed.add(m.group())
    return declared | (bound - fixed), fixed & declared


def main():
    names, both = collect()
    table = {n: respelled(n) for n in names}
    together = {}
    for old, new in table.items():
        together.setdefault(new, []).append(old)
    for new, olds in sorted(together.items()):
        if len(olds) > 1:
            print(f"fall together: {' '.join(sorted(olds))} -> {new}")
    for n in sorted(both):
        print(f"also a name that Rattle makes: {n}")
    for path, comment in sources():
        text = open(path, encoding="utf-8").read()
        code = code_only(text, comment)
        out, at = [], 0
        for m in NAME.finditer(code):
            if m.group() in table:
                out += [text[at:m.start()], table[m.group()]]
                at = m.end()
        out.append(text[at:])
        if at:
            open(path, "w", encoding="utf-8").write("".join(out))
    known = set()
    for path, comment in sources():
        known |= set(re.findall(r"[A-Za-z][\w'?]*", open(path, encoding="utf-8").read()))
    for path in ["README.md", *sorted(glob.glob("docs/*.md"))]:
        text = open(path, encoding="utf-8").read()
        one = lambda m: respelled(m.group()) if respelled(m.group()) in known else m.group()
        quoted = re.sub(r"`[^`\n]*`", lambda q: NAME.sub(one, q.group()), text)
        if quoted != text:
            open(path, "w", encoding="utf-8").write(quoted)
    if "--list" in sys.argv:
        for old in sorted(table):
            print(old, table[old])


main()
