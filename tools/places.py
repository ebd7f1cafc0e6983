#!/usr/bin/env python3
"""Counts, for each point of docs/DESIGN-PASS.md, the places of an older form in crates/*/src.

    tools/places.py [FOLDER] [-v]      FOLDER is a checkout, this one by default; -v lists the places

What a pattern cannot tell (whether a form is a reason's or a leftover) is said in the page, place by place.
"""
import glob
import os
import re
import sys
from collections import defaultdict

WORDS = set("as break const continue crate else enum extern fn for if impl in let loop match mod move mut pub ref return self Self static "
            "struct super trait true false type unsafe use where while Ok Err Some None usize u8 u16 u32 u64 u128 bool".split())

# Lines that show an older form, by point.
LINES = {
    "1 a flag or a number of a refusal beside a value": r"^\s*(pub(\(crate\))? )?(refusal: u8|good: bool|full: bool|even: u8),$",
    "1 a function that answers, or is passed, a refusal as a number": r"\bfn \w*(refus|broken|no_room|evenness)\w*\(.*-> u8|\bfn .*\brefusal: u8\b",
    "1 a number for a refusal or a kind": r"^\s*(pub(\(crate\))? )?const (?!BEFORE)[A-Z_]+: u(8|16) = \d+;",
    "1 a value that stands for none": r"taken == 0|== need::NO_NEED|== NO_NEED|PLACES <= next\.member|if found == 0",
    "1 a flag for one of two kinds": r"\bupward: bool",
    "3 an index or a place counted by hand": r"^\s*while ",
    "3 a range gone through for its indices": r"^\s*for \w+ in [\w:]+\.\.=?[\w:]",
    "4 a match that names every variant for a test": r"^\s*(Phase|Message)::\w+.* => (true|false),$",
    "6 an array passed with a length": r"\bfn .*: \[\w+; [\w:]+\], \w+: usize",
    "6 names in one array, a length before each": r'b"\\x0',
    "7 which step to run, by a number": r"if (what|message) == ",
}


def code(path):
    with open(path, encoding="utf-8") as f:
        return f.read()


def functions(path):
    """(name, line, parameters, requires, body) of each function."""
    text = re.sub(r"//[^\n]*", "", code(path))
    for m in re.finditer(r"\bfn (\w+)(<[^(]*>)?\(", text):
        depth, i = 1, m.end()
        while depth and i < len(text):
            depth += {"(": 1, ")": -1}.get(text[i], 0)
            i += 1
        parameters = text[m.end():i - 1]
        lines, start = [], i
        rest = text[i:]
        at = 0
        for line in rest.split("\n"):
            if re.match(r"\s*(requires|ensures)\b", line):
                lines.append(line.strip())
            elif re.match(r"^\s*\{\s*$", line) or (line.rstrip().endswith("{") and not lines and "->" in line or line.strip() == ") {"):
                at += line.index("{") if "{" in line else 0
                break
            elif re.match(r"^(fn|pub|struct|impl)", line):
                break
            at += len(line) + 1
        j = i + at
        if j >= len(text) or "{" not in text[j:j + 400]:
            continue
        j = text.index("{", j)
        depth, k = 1, j + 1
        while depth and k < len(text):
            depth += {"{": 1, "}": -1}.get(text[k], 0)
            k += 1
        yield m.group(1), text.count("\n", 0, m.start()) + 1, parameters, [l for l in lines if l.startswith("requires")], text[j:k]


def shape(body):
    """The body with its own names and numbers taken out."""
    names, out = {}, []
    for token in re.findall(r'b?"(?:\\.|[^"\\])*"|\w+|[^\s\w]', body):
        if token.startswith(('"', 'b"')):
            out.append("S")
        elif token in WORDS:
            out.append(token)
        elif token[0].isdigit():
            out.append("N")
        elif re.match(r"\w", token):
            out.append(names.setdefault(token, "x%d" % len(names)))
        else:
            out.append(token)
    return tuple(out)


def main():
    arguments = [a for a in sys.argv[1:] if a != "-v"]
    verbose = "-v" in sys.argv
    top = arguments[0] if arguments else os.path.join(os.path.dirname(os.path.abspath(__file__)), "..")
    paths = sorted(glob.glob(os.path.join(top, "crates/*/src/*.rt")))

    def show(title, places):
        print("%4d  %s" % (len(places), title))
        if verbose:
            for place in places:
                print("        " + place)

    for title, pattern in LINES.items():
        places = []
        for path in paths:
            for n, line in enumerate(code(path).split("\n"), 1):
                if re.search(pattern, line) and not line.lstrip().startswith("//"):
                    places.append("%s:%d: %s" % (os.path.relpath(path, top), n, line.strip()[:100]))
        show(title, places)

    shapes, facts, together = defaultdict(list), defaultdict(set), defaultdict(set)
    for path in paths:
        crate = os.path.relpath(path, top).split("/")[1]
        for name, line, parameters, requires, body in functions(path):
            where = "%s:%d %s" % (os.path.relpath(path, top), line, name)
            s = shape(body)
            if len(s) >= 30:
                shapes[s].append(where)
            for clause in requires:
                inner = clause[clause.index("{") + 1:clause.rindex("}")] if "}" in clause else clause
                for fact in inner.split("×"):
                    facts[crate, fact.strip().strip("()").strip()].add(where)
            names = [p.strip() for p in parameters.split(",") if ":" in p]
            names = [p for p in names if not re.match(r"(rt|self|&)", p)]
            for i in range(len(names)):
                for j in range(i + 1, len(names)):
                    together[crate, names[i], names[j]].add(where)
    show("2 functions of one shape, of 30 signs or more", ["; ".join(w) for w in shapes.values() if len(w) > 1])
    show("5 facts that three or more functions of a crate require", ["%s: %s: %d" % (c, f, len(w)) for (c, f), w in sorted(facts.items()) if len(w) > 2])
    show("5 parameters that four or more functions of a crate take together", ["%s: %s, %s: %d" % (c, a, b, len(w)) for (c, a, b), w in sorted(together.items()) if len(w) > 3])
    answers = glob.glob(os.path.join(top, "crates/*/proofs/**/Answers.antt"), recursive=True)
    show("8 files of answers", [os.path.relpath(p, top) for p in sorted(answers)])
    lines = sum(code(p).count("\n") for p in answers)
    print("%4d  8 lines in them" % lines)


main()
