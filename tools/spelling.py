#!/usr/bin/env python3
"""Spells the names that this repository declares in antt as today's Rattle spells them: definitions, lemmas, fields and
constructors in snake case, and facts and types in upper camel case.

usage: python3 tools/spelling.py [FOLDER]     once, right after port.py, at the top of the repository or of FOLDER

Names of Rust code, strings, inputs and outputs stay, and so do the labels that Rattle makes: in a function's answers and
invariants the goals that are answered, and the first name behind c, g, l, w and goal. A name whose new spelling is
declared already, or is imported from elsewhere in a file that has the old one, is printed and stays.
"""

import collections
import glob
import os
import re
import sys

WORD = r"[^\s(){}\[\].;,@\"«»:]"
DECLARED = re.compile(
    r"^ *((?:pattern |unfoldable |abbrev |pub |axiom )*)"
    rf"({WORD}+(?: {WORD}+)*)((?: \{{[^{{}}\n]*\}})*) :",
    re.M,
)
ANSWERS = re.compile(r"/proofs/(?:.*/)?(?:Answers|Invariants)\.antt$")
HEADED = re.compile(rf"^ *(?:pub )?(?:record|data) ({WORD}+)", re.M)
RENAMED = re.compile(rf" as ({WORD}+)")
GOAL = re.compile(r"goal\.([^\s(){};,@\".]+)")
DASHED = re.compile(r"[^\s-]-[^\s-]")
# Variables of lemmas.
VARIABLES = {"no-p", "no-up", "done-so", "other-role"}
KEYWORDS = {"let", "in", "record", "data", "module", "where", "use", "mod"}
HEADS = {"c", "g", "l", "w", "goal"}


def texts(top):
    for pattern in ("specs/**/*.antt", "proofs/**/*.antt", "src/**/*.rt"):
        for path in sorted(glob.glob(os.path.join(top, "crates", "*", pattern), recursive=True)):
            yield path


def declared(top):
    """The dashed names that files declare, without the goals that answers answer."""
    names = collections.defaultdict(set)
    goals = set()
    for path in texts(top):
        with open(path, encoding="utf-8") as file:
            text = file.read()
        for line in text.split("\n"):
            if re.match(r"(?:pub |ghost )*use ", line):
                for name in RENAMED.findall(line):
                    if DASHED.search(name):
                        names[name].add(path)
        if not path.endswith(".antt"):
            continue
        for found in HEADED.finditer(text):
            if DASHED.search(found[1]):
                names[found[1]].add(path)
        goals.update(GOAL.findall(text))
        for found in DECLARED.finditer(text):
            line = text[found.start() : text.find("\n", found.start())].strip()
            if line.startswith(("use ", "pub use ", "--", "|")) or "+" in found[2]:
                continue
            for name in found[2].split():
                if name not in KEYWORDS and DASHED.search(name):
                    names[name].add(path)
    for name in VARIABLES:
        names[name]
    return {name: paths for name, paths in names.items() if name not in goals and not name.startswith(("else-", "then-pairs"))}


def respelled(name):
    if name[0].isupper():
        return "".join(part[:1].upper() + part[1:] for part in name.split("-"))
    return name.replace("-", "_")


def spelled(line, table, answers):
    def turn(found):
        word = found[0]
        if word not in table:
            return word
        before = line[: found.start()]
        head = re.search(rf"({WORD}+)\.$", before)
        if answers and head and head[1] in HEADS and not before[: head.start()].endswith("."):
            return word
        return table[word]

    return re.sub(rf"{WORD}+", turn, line)


def turned(path, text, table):
    answers = bool(ANSWERS.search(path))
    lines = []
    for line in text.split("\n"):
        bare = line.lstrip()
        comment = bare.startswith("//" if path.endswith(".rt") else "--")
        if comment:
            line = re.sub(r"`([^`]+)`", lambda m: "`" + spelled(m[1], table, False) + "`", line)
        elif path.endswith(".rt"):
            line = "".join(
                part if part.startswith('"') else spelled(part, table, False)
                for part in re.split(r'("(?:[^"\\]|\\.)*")', line)
            )
        else:
            line = spelled(line, table, answers)
        lines.append(line)
    return "\n".join(lines)


def main():
    top = sys.argv[1] if len(sys.argv) > 1 else "."
    names = declared(top)
    table = {name: respelled(name) for name in names}
    files = {}
    for path in texts(top):
        with open(path, encoding="utf-8") as file:
            files[path] = file.read()
    words = {path: set(re.findall(rf"{WORD}+", text)) for path, text in files.items()}
    meets = collections.Counter(table.values())
    for name in sorted(table):
        new = table[name]
        clash = sorted(p for p, w in words.items() if name in w and new in w)
        if meets[new] > 1 or clash:
            print(f"meets: {name} would be {new}, which stands in {', '.join(os.path.relpath(p, top) for p in clash) or 'another name'}")
    for path, text in files.items():
        new = turned(path, text, table)
        if new != text:
            with open(path, "w", encoding="utf-8") as file:
                file.write(new)


if __name__ == "__main__":
    main()
