#!/usr/bin/env python3
"""Spells the repository's own definitions, lemmas and fields in snake case, after the kit's port.py has turned the rest: usage: respell.py ROOT [--check]

A name is own where a file of specs/ or of proofs/ itself (not of a function's folder) declares it. Types keep their capitals. Names that the
kit's library has keep its spelling. It says 'clash:' where a new name stands in the file already.
"""

import os
import re
import sys

NAME = r'[^\s(){}.;,@"«»]+'
TOKEN = re.compile(r'--[^\n]*|"(?:[^"\\\n]|\\.)*"|' + NAME)
RUST = re.compile(r'//[^\n]*|"(?:[^"\\\n]|\\.)*"')
DECLARED = re.compile(r"(?m)^ *(?:(?:pub|abbrev|unfoldable|constructor) +)*(" + NAME + r")(?: \{[^{}\n]*\})* :(?= |$)")
USE = re.compile(r"(?m)^(?:ghost |pub )*use ([^\s;{]+?)(?:\.?\{([^}]*)\})?(?: as ([^\s;]+))?;?$")
CLAUSE = re.compile(r"(?:requires|ensures)\s*\*?\s*(?:\w+\s*)?\{|ghost\s*(?:\w+\s*(?::\s*|=\s*))?\{|ghost\s+use\b")
# names that would meet another in some file: what they are called in place of it
OTHERWISE = {
    "andThen": "then_checks",
    "row_words": "row_words_lem",
    "take_found": "take_found_lem",
    "summedAt": "summed_number",
    "unitRow": "unit_row_of",
    "row-in": "row_inside",
}


def snake(name):
    if not re.search(r"[a-z0-9ℤ?][A-Z]", name) and "-" not in name or name[0].isupper() and "-" not in name:
        return name
    words = name
    if name[0].islower():
        words = re.sub(r"(?<=[a-z0-9])[A-Z](?=[a-z])", lambda m: "_" + m[0].lower(), words)
    return words.replace("-", "_")


def files(root):
    for folder, dirs, names in os.walk(os.path.join(root, "crates")):
        dirs[:] = sorted(d for d in dirs if d not in ("out", "must-fail"))
        for n in sorted(names):
            if n.endswith((".antt", ".rt")):
                yield os.path.join(folder, n)


def is_shared(root, path):
    parts = os.path.relpath(path, root).split("/")
    return path.endswith(".antt") and (parts[2] == "specs" or parts[2] == "proofs" and len(parts) == 4)


def code(text):
    return re.sub(r"--[^\n]*", "", text)


def table(root):
    own, foreign = set(), set()
    for path in files(root):
        with open(path, encoding="utf-8") as f:
            text = code(f.read())
        if is_shared(root, path):
            own.update(DECLARED.findall(text))
        for where, items, alias in USE.findall(text):
            if not re.match(r"Rattle\.(?!std\b)", where):
                foreign.update(x.strip().split(" as ")[0] for x in items.split(",") if x.strip())
    new = {it: OTHERWISE.get(it, snake(it)) for it in own}
    # a lemma that would have its function's name ends in _lem
    for it in sorted(own):
        if "-" in it and any(a != it and b == new[it] for a, b in new.items()):
            new[it] += "_lem"
    return {a: b for a, b in new.items() if a != b}, foreign


def turn(text, names, is_antt):
    """The text with each own name respelled, outside comments and strings; in Rust's files only in clauses and ghost lines."""
    if is_antt:
        return TOKEN.sub(lambda m: names.get(m[0], m[0]), text)
    out, at = [], 0
    for m in CLAUSE.finditer(text):
        if m.start() < at:
            continue
        end, deep = m.end(), 1
        if m[0].endswith("use"):
            end = text.index(";", m.end())
        else:
            while deep:
                deep += {"{": 1, "}": -1}.get(text[end], 0)
                end += 1
        out += [text[at : m.start()], TOKEN.sub(lambda t: names.get(t[0], t[0]), text[m.start() : end])]
        at = end
    return "".join(out + [text[at:]])


def comments(text, names, is_antt):
    """Names in comments: those that the code has by a dash or a capital inside, which no prose has."""
    mark = r"--[^\n]*" if is_antt else r"//[^\n]*"
    plain = {a: b for a, b in names.items() if re.search(r"[a-z][A-Z]", a)}
    code_span = re.compile(r"`[^`\n]+`")

    def one(m):
        line = TOKEN.sub(lambda t: t[0] if t[0].startswith("--") and len(t[0]) > 2 else plain.get(t[0].strip("`:'"), t[0]) if t[0].strip("`:'") == t[0] else t[0], m[0][2:])
        line = code_span.sub(lambda s: "`" + names.get(s[0][1:-1], s[0][1:-1]) + "`", line)
        return m[0][:2] + line

    return re.sub(mark, one, text)


def main(argv):
    root, check = argv[0], "--check" in argv
    names, foreign = table(root)
    for path in files(root):
        with open(path, encoding="utf-8") as f:
            text = f.read()
        is_antt = path.endswith(".antt")
        here = dict(names)
        for where, items, alias in USE.findall(code(text) if is_antt else text):
            if not re.match(r"Rattle\.(?!std\b)", where):
                for x in items.split(","):
                    here.pop(x.strip().split(" as ")[0], None)
        used = {t for t in TOKEN.findall(code(text) if is_antt else RUST.sub("", text)) if t in here}
        tokens = set(re.findall(r"(?<![.\w])" + NAME, code(text)) if is_antt else re.findall(r"(?<!\.)\b\w+", RUST.sub("", text)))
        if is_antt or re.search("requires|ensures|ghost", text):
            for t in sorted(used):
                if here[t] in tokens:
                    print(f"clash: {os.path.relpath(path, root)}: {t} -> {here[t]}")
        to = comments(turn(text, here, is_antt), here, is_antt)
        if to != text and not check:
            with open(path, "w", encoding="utf-8") as f:
                f.write(to)
    both = {}
    for a, b in names.items():
        both.setdefault(b, []).append(a)
    for b, a in sorted(both.items()):
        if len(a) > 1:
            print("meet:", b, a)
    for a in sorted(set(names) & foreign):
        print("foreign:", a)
    print(len(names), "names")


main(sys.argv[1:])
