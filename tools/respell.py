#!/usr/bin/env python3
"""Spells the repository's own definitions and lemmas as today's Rattle does: in snake case.

usage: python3 tools/respell.py          at the top of the repository, once, right after the kit's port.py
       python3 tools/respell.py --check  the same, and writes nothing

A name that begins with a small letter loses its dashes and capitals: `streamRun` is `stream_run`, `same-length` is
`same_length`. A name that begins with a capital stays: types, modules, facts, and the rules of the paper (`T-App`).
A library's name stays in every file that imports it, and so do the names that Rattle makes in the proof of a function.
In specs/ and in the lemma files of proofs/ every name turns, those of variables too; in the proof of a function, and in
the clauses of src/, those alone that specs/ or a lemma file declares. In comments a name in code quotes turns, and one
in camel case. Functions of src/, strings, and everything outside crates/ stay.
Names that would fall together in a file are printed; STAY and BACK below have those that would.
"""

import os
import re
import sys

WORD = re.compile(r'[^\s(){}.;,@"«»]+')
QUIET = re.compile(r'"(?:[^"\\\n]|\\.)*"|(?<![^\s(){}.;,@"«»])--[^\n]*|\{-.*?-\}', re.S)
USE = re.compile(r"^[ \t]*(?:pub )?use ([^\s;{]+)(\{[^}]*\})?(?: as (\S+))?", re.M)
RULESET = re.compile(r"\bruleset (\S+) =")
DECLARED = re.compile(r"(?m)^[ \t]*(?:(?:pub|abbrev|unfoldable|private|mutual|where) )*([^\s(){}.;,@\"«»:]+)(?: \{[^{}\n]*\})* :(?=\s)")
GHOST_USE = re.compile(r"\bghost use [^;]*;")
CLAUSE = re.compile(r"\b(?:requires|ensures|ghost)\*?(?: \w+)?:? \{")

# Lemmas, fields and constructors that would fall together with a definition: these keep their dashes ..
STAY = set(
    """
    a-leaf a-node a-number a-tree after-args after-tree an-operation at-end at-z bare-number block-bytes
    body-location bytes-until exactly-one extended-of first-end first-node first-record first-words function-row
    head-taken if-zero in-branch in-call in-front input-ended last-part listing-of measures-of name-bound
    not-bound number-of number-valued on-right open-call own-bytes pass-one pass-parts pass-two prefix-row
    read-file record-bytes refusal-of refused-after refused-before refused-with reported-value return-words
    signature-of space-too-short stream-run too-deep too-many-calls too-many-words units-until used-fields
    used-fits value-words walk-all walk-args walk-parts words-below words-kept words-needed words-of write-file
    """.split()
)
# .. or get them back, where port.py took them away since a library has a name of the same spelling.
BACK = {
    it.replace("-", "_"): it
    for it in """
    a-call a-case flat-in goes-on has-ended has-room in-order names-in node-row none-left number-read out-of-range
    passed-on same-names stopped-by take-head too-short wrong-type
    """.split()
}


def in_snake_case(name):
    words = re.sub(r"(?<=[a-z0-9'])[A-Z]", lambda m: "_" + m[0].lower(), name)
    words = re.sub(r"(?<=[-_])[A-Z]", lambda m: m[0].lower(), words)
    return words.replace("-", "_")


def turned(name):
    if name in STAY:
        return name
    if name in BACK:
        return BACK[name]
    if not re.fullmatch(r"[a-z][A-Za-z0-9'_-]*", name) or name.endswith("-"):
        return name
    return in_snake_case(name)


def files():
    for folder, folders, names in os.walk("crates"):
        folders[:] = sorted(it for it in folders if it != "out")
        for name in sorted(names):
            if name.endswith((".rt", ".antt")):
                yield os.path.join(folder, name)


def is_of_a_function(path):
    return "/proofs/" in path and "/" in path.split("/proofs/")[1]


def imports(code, crates):
    """The names that a file imports, from libraries and from this repository."""
    theirs, ours = set(), set()
    for path, items, alias in USE.findall(code):
        steps = path.strip(".").split(".")
        mine = steps[0] == "Rattle" and len(steps) > 1 and steps[1] in crates
        names = set(WORD.findall(items)) if items else {alias or steps[-1]}
        (ours if mine else theirs).update(names - {"as"})
    return theirs, ours


class Turner:
    def __init__(self, declared, theirs, everything):
        self.declared, self.theirs, self.everything = declared, theirs, everything
        self.met = {}

    def word(self, text, at, name):
        if name in self.theirs or turned(name) == name:
            return name
        behind_dot = text[max(0, at - 1) : at] == "."
        if name in BACK and behind_dot and text[at + len(name) : at + len(name) + 1] == ".":
            return name  # a function's folder
        if name not in self.declared and (behind_dot or not self.everything):
            return name
        return turned(name)

    def code(self, text):
        def one(m):
            new = self.word(text, m.start(), m[0])
            self.met.setdefault(new, set()).add(m[0])
            return new

        return WORD.sub(one, text)

    def span(self, text):
        """A code span of a comment, or a word of it in camel case."""
        return WORD.sub(lambda m: turned(m[0]) if m[0] in self.declared else m[0], text)

    def comment(self, text):
        text = re.sub(r"`[^`\n]*`", lambda m: "`" + self.span(m[0][1:-1]) + "`", text)
        camel = lambda m: turned(m[0]) if m[0] in self.declared else m[0]
        return re.sub(r"(?<![\w`-])[a-z][a-z0-9]*[A-Z]\w*", camel, text)

    def antt(self, text):
        out, at = [], 0
        for m in QUIET.finditer(text):
            out.append(self.code(text[at : m.start()]))
            out.append(m[0] if m[0].startswith('"') else self.comment(m[0]))
            at = m.end()
        out.append(self.code(text[at:]))
        return "".join(out)


def end_of_clause(text, at):
    depth = 0
    while True:
        depth += {"{": 1, "}": -1}.get(text[at], 0)
        at += 1
        if depth == 0:
            return at


def rattle(turner, text):
    """Turns `ghost use` items, clauses and comments of a source file."""
    out, at = [], 0
    pattern = re.compile(rf"//[^\n]*|{GHOST_USE.pattern}|{CLAUSE.pattern}|\"(?:[^\"\\\n]|\\.)*\"")
    while m := pattern.search(text, at):
        out.append(text[at : m.start()])
        end = m.end()
        if m[0].startswith("//"):
            out.append(turner.comment(m[0]))
        elif m[0].startswith('"'):
            out.append(m[0])
        elif m[0].startswith("ghost use"):
            out.append(turner.code(m[0]))
        else:
            end = end_of_clause(text, m.end() - 1)
            out.append(m[0][:-1] + turner.code(text[m.end() - 1 : end]))
        at = end
    return "".join(out) + text[at:]


def main():
    check = "--check" in sys.argv[1:]
    crates = set(os.listdir("crates"))
    texts = {it: open(it, encoding="utf-8").read() for it in files()}
    declared = set()
    for path, text in texts.items():
        if path.endswith(".antt") and not is_of_a_function(path):
            declared.update(DECLARED.findall(QUIET.sub(" ", text)), RULESET.findall(text))
    changed = 0
    for path, text in texts.items():
        antt = path.endswith(".antt")
        code = QUIET.sub(" ", text) if antt else re.sub(r"\bghost use ", "use ", re.sub(r"//[^\n]*", " ", text))
        theirs, _ = imports(code, crates)
        turner = Turner(declared, theirs, antt and not is_of_a_function(path))
        new = turner.antt(text) if antt else rattle(turner, text)
        for name, old in sorted(turner.met.items()):
            if len(old) > 1:
                print(f"{path}: {', '.join(sorted(old))} would all be {name}")
        if new != text:
            changed += 1
            if not check:
                with open(path, "w", encoding="utf-8") as f:
                    f.write(new)
    print(f"{changed} files {'would change' if check else 'changed'}")


if __name__ == "__main__":
    main()
