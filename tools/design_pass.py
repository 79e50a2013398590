#!/usr/bin/env python3
"""Lists the places in crates/*/src that an older form may stand in, by the points of docs/DESIGN-PASS.md.

    python3 tools/design_pass.py [-v] [ROOT]

Prints a count for each point and kind of place; with -v each place too. It goes by text: a place is one to look at.
"""
import collections
import pathlib
import re
import sys

FUNCTION = re.compile(r"^(\s*)(?:pub(?:\([a-z]+\))? )?fn (\w+)")


def files(root):
    return sorted(pathlib.Path(root).glob("crates/*/src/*.rt"))


def lines_of(path):
    for number, line in enumerate(path.read_text().splitlines(), 1):
        yield number, "" if line.strip().startswith("//") else line


def functions_of(path):
    """Name, first line, parameters, facts of the clauses and body of each function of a file."""
    lines = [line for _, line in lines_of(path)]
    for at, line in enumerate(lines):
        start = FUNCTION.match(line)
        if not start:
            continue
        indent = start.group(1)
        opens = next(i for i in range(at, len(lines)) if lines[i] == indent + "{" or re.search(r"[^(]\{$|\{.*\}$|;$", lines[i]) and not re.match(r"\s*(requires|ensures)", lines[i]))
        closes = next((i for i in range(opens, len(lines)) if lines[i] == indent + "}"), opens)
        facts = []
        signature = []
        for l in lines[at:opens + 1]:
            clause = re.match(r"\s*(requires|ensures)\*?( \w+)? \{ (.*) \}", l)
            if clause:
                facts.append((clause.group(1), clause.group(3)))
            else:
                signature.append(l.strip())
        body = [l.strip() for l in lines[opens + 1:closes]] if lines[opens].endswith("{") else []
        yield start.group(2), at + 1, parameters_of(" ".join(signature)), facts, body


def parameters_of(signature):
    """The parameters of a signature, each by name and type."""
    depth, word, words = 0, "", []
    for c in signature[signature.index("(") + 1:] if "(" in signature else "":
        if c in "([<":
            depth += 1
        if c in ")]>" and not word.endswith("-"):
            depth -= 1
        if depth < 0 or c == "," and depth == 0:
            words.append(word.strip())
            word = ""
            if depth < 0:
                break
        else:
            word += c
    return tuple(w for w in words if ": " in w and not w.startswith("rt: "))


def by_lines(root, pattern):
    found = []
    for path in files(root):
        for number, line in lines_of(path):
            if re.search(pattern, line):
                found.append(f"{path.relative_to(root)}:{number}: {line.strip()}")
    return found


def by_text(root, pattern):
    """Places of a pattern that runs over several lines."""
    found = []
    for path in files(root):
        text = "\n".join(line for _, line in lines_of(path))
        for match in re.finditer(pattern, text):
            found.append(f"{path.relative_to(root)}:{text.count(chr(10), 0, match.start()) + 1}: {match.group(0).splitlines()[0].strip()}")
    return found


def shape(body):
    """A body with its names and numbers replaced by the order in which they first come."""
    seen = {}
    out = []
    for token in re.findall(r"\w+|[^\w\s]", " ".join(body)):
        if token in ("match", "if", "else", "for", "in", "let", "return", "mut", "Ok", "Err", "Some", "None", "self", "true", "false"):
            out.append(token)
        elif re.match(r"\w", token):
            out.append(f"${seen.setdefault(token, len(seen))}")
        else:
            out.append(token)
    return " ".join(out)


def twins(root):
    """Functions of three or more lines with bodies of one shape."""
    groups = collections.defaultdict(list)
    for path in files(root):
        for name, number, _, _, body in functions_of(path):
            if len(body) >= 3:
                groups[shape(body)].append(f"{path.relative_to(root)}:{number}: {name}")
    return [" = ".join(group) for group in groups.values() if len(group) > 1]


def twin_tables(root):
    """Structs that are a count beside an array."""
    return by_text(root, r"struct \w+[^{]*\{\s*(?:pub(?:\([a-z]+\))? )?count: \w+,\s*(?:pub(?:\([a-z]+\))? )?\w+: \[[^\]]*\]")


def calls_in(fact):
    """The terms of a fact that put an order, a joint or a record together, with their parentheses."""
    for start in re.finditer(r"\((known_of|known|agreed|joined|toward|listed_flow|rows_flow) ", fact):
        depth = 0
        for at in range(start.start(), len(fact)):
            depth += {"(": 1, ")": -1}.get(fact[at], 0)
            if depth == 0:
                yield fact[start.start():at + 1]
                break


def repeated_facts(root):
    """Facts, and long parts of facts, that stand in the contracts of three or more functions of a crate."""
    stands = collections.defaultdict(set)
    for path in files(root):
        for name, number, _, facts, _ in functions_of(path):
            for kind, fact in facts:
                stands[path.parts[-3], kind, fact].add((path.name, number))
                for part in calls_in(fact):
                    stands[path.parts[-3], "in clauses", re.sub(r"\b(old|new|now)\b", "_", part)].add((path.name, number))
    return [f"{crate}: {kind} {fact}: {len(places)} functions" for (crate, kind, fact), places in sorted(stands.items()) if len(places) >= 3 and len(fact) > 12]


def travelling(root):
    """Three or more parameters that stand together, by name and type, in three or more functions of a crate."""
    together = collections.defaultdict(set)
    for path in files(root):
        for name, number, parameters, _, _ in functions_of(path):
            for first in range(len(parameters)):
                for last in range(first + 3, len(parameters) + 1):
                    together[path.parts[-3], parameters[first:last]].add((path.name, number))
    groups = {key: places for key, places in together.items() if len(places) >= 3}

    def inside(key, other):
        a, b = key[1], other[1]
        return key != other and key[0] == other[0] and any(b[i:i + len(a)] == a for i in range(len(b))) and groups[other] == groups[key]
    largest = [key for key in groups if not any(inside(key, other) for other in groups)]
    return [f"{crate}: {', '.join(parameters)}: {len(groups[crate, parameters])} functions" for crate, parameters in sorted(largest)]


POINTS = [
    ("1 a Result or Option taken apart only to be wrapped again", lambda r: by_text(r, r"(Ok\((\w+)\) => Ok\(\2\),|Ok\((?:\(\)|_)\) => None,|None => (?:false|None|Ok\(None\)),|Some\(\w+\) => Some\()")),
    ("1 numbers for kinds, compared or matched", lambda r: by_lines(r, r"\b(kind|operation|role) (<|==|!=) |match (kind|role|operation) |match number |const (WORKING|IMPORT|EXPORT)\b|\.number\(\) ==")),
    ("1 numbers for refusals", lambda r: by_lines(r, r"\bnumber: u8\b|let \(number,")),
    ("1 enums of the shape of Result, texts for errors, flags", lambda r: by_lines(r, r"enum Verdict|Result<\w+, &'static str>|, more: bool")),
    ("2 functions with bodies of one shape", twins),
    ("2 structs that are a count beside an array", twin_tables),
    ("2 the same call for near and for far", lambda r: by_text(r, r"match (?:self\.)?(?:side|house|fault\.side) \{\s*Side::Near => (?!\")[^S]")),
    ("3 loops that count a place by hand", lambda r: by_text(r, r"for (\w+) in 0\.\.[^{]*\{[^}]*(?:\[\1\]|\[\1 as usize\]|\b\1 \+ 1\b)") + by_lines(r, r"\bwhile\b")),
    ("3 loops that copy or test element by element", lambda r: by_text(r, r"for \((\w+), (\w+)\) in (\w+)\.iter\(\)\.enumerate\(\) \{\s*\w+\[\1\] = \*\2;") + by_text(r, r"for \w+ in [^{]*\{\s*if [^{]*\{\s*return false;")),
    ("3 an index tested by hand before it is used", lambda r: by_lines(r, r"as usize < |as usize >= |\bat < \w+\.len\(\)|item < MOST_ITEMS")),
    ("4 conversions and printing by hand", lambda r: by_lines(r, r"fn (word|of|number|side_number|role_number|refusal|refused|verdict|field_refusal)\(")),
    ("4 comparisons by hand", lambda r: by_lines(r, r"\.number\(\) ==|fn house_word|fn highest\(")),
    ("5 facts in three or more contracts", repeated_facts),
    ("5 three or more parameters that go together", travelling),
    ("6 a length beside a buffer", lambda r: twin_tables(r) + by_lines(r, r"Listed \{ count: u64, rows: \[") + by_lines(r, r"rows: &\[u32\], count: u64")),
    ("7 switches on a step", lambda r: by_lines(r, r"match which|match (line|\*call) \{|const (FETCH|STORE): Roles")),
    ("8 files of answers", lambda r: [str(p.relative_to(r)) for p in sorted(pathlib.Path(r).glob("crates/*/proofs/**/Answers.antt"))]),
]


def main():
    words = [w for w in sys.argv[1:] if w != "-v"]
    root = pathlib.Path(words[0] if words else ".")
    for title, find in POINTS:
        found = find(root)
        print(f"{len(found):4} {title}")
        if "-v" in sys.argv:
            for place in found:
                print("       ", place)
    lines = sum(len(p.read_text().splitlines()) for p in root.glob("crates/*/proofs/**/*.antt"))
    print(f"{lines:4} lines of proofs")


main()
