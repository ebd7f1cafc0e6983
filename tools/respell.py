#!/usr/bin/env python3
"""Brings the repository's own definitions and lemmas to the spelling of today's Rattle.

usage: python3 tools/respell.py [--list]     at the top of the repository, once, after the toolchain's own port.py

Words are in snake case; a type or a fact keeps its capital; a dash joins two names (of definitions, constructors or operators), and a plain word
is added with `_`. Names that come from the toolchain stay as they are, and so do functions of src/, strings, inputs and outputs.
--list prints the table of names and writes nothing.
"""
import pathlib
import re
import sys

ROOT = pathlib.Path(".")
CRATES = sorted(p.name for p in (ROOT / "crates").iterdir() if (p / "src").is_dir())
NAME = r"[^\W\d][\w']*(?:-[\w'*]+)*"
TOKEN = re.compile(r"(?<![\w'\-])" + NAME)
DEFINED = re.compile(r"^\s*(?:abbrev |unfoldable |instance )*(?:pub )?(" + NAME + r")((?: " + NAME + r")*) : ")
DECLARED = re.compile(r"^\s*(?:pub )?(?:record|data) (" + NAME + r")")
USE = re.compile(r"^\s*(?:pub )?(?:ghost )?use ([\w.'+\-·]+)\.\{(.*)\};?\s*$")
# the parts of a name that are names of the library's, not words: constructors, operators, list functions
LIBRARY = set("""true false zero suc one and or not add sub mul div mod pow eq ne lt le eqb ltb leb append cons nil map length take drop set
replicate reverse sum min max cond high low some none""".split())
CAMEL = r"[a-z_]\w*[a-z0-9][A-Z]"
# named after what the library calls otherwise now
FOLLOWS = {"getD-cut": "get_or-cut"}
# lemmas whose name, as port.py left it, is now that of the definition that they are about
APART = {
    "archive/proofs/Head.antt": {"head_bytes": "head_bytes_lem"},
    "records/proofs/Ranging.antt": {"lane_in": "lane_in_lem"},
    "quorum/proofs/Widths.antt": {"least_size": "least_size_lem"},
    "plain/proofs/StaysInRange.antt": {"taken_in": "taken_in_lem"},
}


def files():
    for c in CRATES:
        for p in sorted((ROOT / "crates" / c).rglob("*")):
            if p.suffix in (".rt", ".antt", ".edit") and "out" not in p.parts:
                yield p


def own(module):
    parts = module.split(".")
    return parts[0] == "Rattle" and len(parts) > 1 and parts[1] in CRATES


def generated(name, line, path):
    """Names that a proof gives to the toolchain's goals."""
    return "tie." in line or "statement " in line or name.endswith("-spec")


def gather():
    defined, foreign, tokens = {}, set(), {}
    for p in files():
        if p.suffix == ".edit":
            continue
        walk = p.suffix == ".antt" and p.parent.parent.name != "crates" and p.name == "Proof.antt"
        for line in p.read_text().splitlines():
            u = USE.match(line)
            if u:
                for item in u.group(2).split(","):
                    words = item.strip().split(" as ")
                    if not own(u.group(1)):
                        foreign.add(words[0])
                    if len(words) == 2:
                        defined.setdefault(words[1], []).append((p, line))
                continue
            if p.suffix == ".antt":
                m = DEFINED.match(line) or DECLARED.match(line)
                if m and not (walk and generated(m.group(1), line, p)):
                    for n in [m.group(1)] + (m.group(2).split() if m.lastindex == 2 else []):
                        defined.setdefault(n, []).append((p, line))
            code = line.split("--")[0] if p.suffix == ".antt" else line
            for t in TOKEN.findall(code):
                tokens.setdefault(t, set()).add(p)
    return defined, foreign, tokens


def snake(word):
    if not word or word[0].isupper():
        return word
    return re.sub(r"(?<=[a-z0-9])([A-Z])", lambda m: "_" + m.group(1).lower(), word)


def respelled(name, words):
    parts = [snake(x) for x in name.split("-")]
    out = parts[0]
    left = parts[0]
    for x in parts[1:]:
        dash = (left in words or left in LIBRARY) and (x in words or x in LIBRARY)
        out += ("-" if dash else "_") + x
        left = x if dash else left + "_" + x
    return out


def table():
    defined, foreign, tokens = gather()
    words = {snake(n) for n, at in defined.items() if "-" not in n and any("specs" in p.parts for p, _ in at)}
    camel = {snake(n) for n in defined if re.match(CAMEL, n)}
    names = {}
    for n in defined:
        if n in foreign or not ("-" in n or re.match(CAMEL, n)):
            continue
        new = FOLLOWS.get(n) or respelled(n, words)
        # a lemma that would have its definition's name
        if "-" in n and new != n and (new in camel or new in defined):
            new += "_lem"
        if new != n:
            names[n] = new
    return names, defined, foreign, tokens


def clashes(names, defined, foreign, tokens):
    by = {}
    for a, b in names.items():
        by.setdefault(b, []).append(a)
    for b, many in sorted(by.items()):
        if len(many) > 1:
            yield b, many, "two names"
        elif b in tokens:
            both = {p for p in tokens.get(many[0], ())} & tokens[b]
            yield b, many, ("in use" if both else "in use elsewhere") + (" (toolchain)" if b in foreign else "") + " " + " ".join(str(p) for p in sorted(both)[:2])


def turn(text, names):
    return TOKEN.sub(lambda m: names.get(m.group(0), m.group(0)), text)


def ticked(text, names):
    return re.sub(r"`[^`\n]*`", lambda m: turn(m.group(0), names), text)


def line_of(line, suffix, names):
    if suffix == ".edit":
        m = re.match(r"((?:old|new): )(.*)", line, re.S)
        if not m:
            return line if line.startswith("file:") else ticked(line, names)
        return m.group(1) + turn(m.group(2), names)
    mark = "--" if suffix == ".antt" else "//"
    # a comment begins at the mark outside of a string
    i, quoted = 0, False
    while i < len(line):
        if line[i] == '"' and (i == 0 or line[i - 1] != "\\") and line[max(0, i - 1):i + 2] != "'\"'":
            quoted = not quoted
        if not quoted and line.startswith(mark, i) and (i == 0 or line[i - 1] in " \t"):
            break
        i += 1
    code, note = line[:i], line[i:]
    pieces = re.split(r'("(?:[^"\\]|\\.)*")', code)
    code = "".join(x if x.startswith('"') else turn(x, names) for x in pieces)
    return code + ticked(note, names)


def aliased(path, text, names):
    """Where a file of src/ has a function or a variable of a definition's new name, its clauses call the definition NAME_rule."""
    code = [l for l in text.splitlines() if not re.match(r"\s*(ghost use|requires|ensures|//)", l)]
    rust = {t for l in code for t in TOKEN.findall(l.split("//")[0])}
    here = {}
    for l in text.splitlines():
        u = USE.match(l)
        for item in u.group(2).split(",") if u and "ghost" in l else []:
            a = item.strip()
            if names.get(a) in rust:
                here[a] = names[a] + "_rule"
    return here


def main():
    names, defined, foreign, tokens = table()
    if "--list" in sys.argv:
        for a, b in sorted(names.items()):
            print(a, b)
        for b, many, why in clashes(names, defined, foreign, tokens):
            print("clash:", b, "<-", " ".join(many), "--", why)
        return
    for p in files():
        old = p.read_text()
        near = names | next((t for end, t in APART.items() if str(p).endswith(end)), {})
        here = aliased(p, old, names) if p.suffix == ".rt" else {}
        lines = []
        for l in old.splitlines(keepends=True):
            if USE.match(l) and here:
                for a, b in here.items():
                    l = re.sub(r"(?<=[{ ])" + re.escape(a) + r"(?=[,}])", names[a] + " as " + b, l)
                lines.append(line_of(l, p.suffix, names))
            else:
                lines.append(line_of(l, p.suffix, near | here))
        new = "".join(lines)
        if new != old:
            p.write_text(new)
    pages = [ROOT / "README.md"] + sorted((ROOT / "docs").glob("*.md"))
    for p in pages:
        old = p.read_text()
        new = ticked(old, names)
        if new != old:
            p.write_text(new)


main()
