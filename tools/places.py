#!/usr/bin/env python3
"""Counts the places in crates/*/src that docs/DESIGN-PASS.md speaks of, point by point.

usage, at the top of a checkout: python3 tools/places.py [--show]

With --show each place is printed with its file and line. It reads text and knows no types: a place
that it finds may be right as it stands, and docs/DESIGN-PASS.md says so of each such place.
"""

import collections
import glob
import re
import sys

SOURCES = {path: open(path, encoding="utf-8").read() for path in sorted(glob.glob("crates/*/src/*.rt"))}
SHOW = "--show" in sys.argv[1:]


def lines(pattern, flags=0):
    """Each line with the pattern, as (file:line, text)."""
    found = []
    for path, text in SOURCES.items():
        for number, line in enumerate(text.split("\n"), 1):
            if re.search(pattern, line, flags) and not line.lstrip().startswith("//"):
                found.append((f"{path}:{number}", line.strip()))
    return found


def say(point, what, found):
    print(f"{point}  {len(found):4d}  {what}")
    if SHOW:
        for place, text in found:
            print(f"          {place}: {text}")


def functions():
    """(crate, name, parameters, clauses) of each function."""
    for path, text in SOURCES.items():
        for head in re.finditer(r"^ *(?:pub )?(?:extern \"C\" )?fn (\w+)(?:<[^(]*>)?\(([^)]*)\)([^{]*(?:\{[^\n]*\}[^{\n]*\n)*)", text, re.M):
            line = text.count("\n", 0, head.start()) + 1
            yield path, line, head[1], [p for p in head[2].split(",") if p.strip()]


def repeated(pattern):
    """Lines whose match is found in more than one file."""
    found = lines(pattern)
    named = collections.defaultdict(list)
    for place, text in found:
        named[re.search(pattern, text)[1]].append((place, text))
    return [pair for pairs in named.values() if len({p.split(":")[0] for p, _ in pairs}) > 1 for pair in pairs]


def structs_with(pattern):
    """Structs that have a field of such a type, and at least one field besides."""
    for path, text in SOURCES.items():
        for head in re.finditer(r"^(?:pub )?struct (\w+)[^{;]*\{\n(.*?)^\}", text, re.M | re.S):
            fields = re.findall(r"^\s+(?:pub )?(?:ghost )?\w+: (.*),$", head[2], re.M)
            if len(fields) > 1 and any(re.match(pattern, field) for field in fields):
                yield f"{path}:{text.count(chr(10), 0, head.start()) + 1}", head[1]


# 1. Own results, flags with a value, numbers for kinds and refusals.
say(1, "own enums of the shape of Option or Result: declarations", lines(r"^(pub )?enum (Verdict|Filled|Sum|TreeAnswer|RecordRead|Walked)\b"))
say(1, ".. and their uses", lines(r"\b(Verdict|Filled|Sum|TreeAnswer|RecordRead|Walked)::[A-Z]"))
say(1, "fields that are a flag or a number for a stop, a mode or a refusal", lines(r"^(pub )?(head: bool|(stop|mode): u32|verdict: Verdict),", re.M) or lines(r"^\s+(pub )?(head: bool|(stop|mode): u32|verdict: Verdict),"))
say(1, "constants that number stops and modes", lines(r"^(pub )?const [A-Z_]+: u32 = \d+;"))
say(1, "constants that number opcodes, sorts, actions and roles", lines(
    r"^(pub )?const (PUSH|GET|ADD|IFNOT|JUMP|SLIDE|DROP|WRITE_NUMBER|READ_TAG|READ_NUMBER|CALL|RETURN|TREE_VALUED|MOST_SORT"
    r"|GIVES_CONSTANT|GIVES_NAMED|ENTERS_PART|TAGS_NODE|LOOKS_AT_TREE|CALLS_FUNCTION|WHOLE|KEPT|ADDED|TESTED|PASSED|LABELLED|FOLLOWED|LAST_ARGUMENT)\b"))
say(1, "constants below 32, which may number kinds", lines(r"^(pub )?const [A-Z0-9_]+: \w+ = (\d|[12]\d|3[01]);"))
say(1, "structs with a flag, a mode, an Option or a Result beside other fields", list(structs_with(r"bool|Option<|Result<|Next|Mode|Stop|Verdict")))

# 2. Twins.
say(2, "functions whose name stands in more than one file", repeated(r"^(?:pub )?fn (\w+)"))
say(2, "the same, methods counted too", repeated(r"^\s*(?:pub )?fn (\w+)"))
say(2, "constants whose name stands in more than one file", repeated(r"^(?:pub )?const ([A-Z0-9_]+):"))

# 3. Loops.
say(3, "while and loop", lines(r"^\s*(while|loop)\b"))
say(3, "counters stepped by hand", lines(r"^\s*(\w+) = \1 [+-] 1;|^\s*\w+ \+= 1;"))

# 4. Conversions, comparisons, copies and printing by hand.
say(4, "wrapping sums by free functions", lines(r"std::num::wrapping_"))
say(4, "bytes of a number by division", lines(r"% (256|65536)\) as u(8|16)\b"))
say(4, "functions that convert, compare, copy or print by hand", lines(
    r"\bfn (number_of|refusal_of|why_stopped|signed|extended|sign_extended|word16|word32|deeper|excess|add_up|from_last|from_down"
    r"|is_same|magnitude|no_measures|fields|placed|own_words|last|before|around|count|limit|put_number|put_field|put_signed|put_byte"
    r"|end_opcode|words_kept)\b"))
say(4, "casts by `as`", lines(r"\bas (u8|u16|u32|u64|usize|i32|i64)\b"))

# 5. Facts in three or more contracts, parameters that travel together.
facts = collections.defaultdict(list)
for path, text in SOURCES.items():
    for clause in re.finditer(r"requires\s*\w*\s*\{([^}]*)\}", text):
        line = text.count("\n", 0, clause.start()) + 1
        for part in clause[1].split("×"):
            fact = re.sub(r"\.(old|now)\b", "", " ".join(part.split())).strip("() ")
            facts[fact].append((f"{path}:{line}", fact))
say(5, "facts of a requires that stand three times or more", [p for places in facts.values() if len(places) >= 3 for p in places])
say(5, "functions with six parameters or more", [(f"{path}:{line}", name) for path, line, name, parameters in functions() if len(parameters) >= 6])

# 6. Buffers with a length, parallel arrays.
say(6, "arrays as fields, with a count beside them", lines(r"^\s+(pub )?\w+: \[u(8|16|32|64); "))
say(6, "local buffers of fixed length", lines(r"= \[0u?\w*; "))

# 7. Switches on what to do next.
say(7, "a match or a test on a number for a step", lines(r"^\s*match (opcode|frames::field|stop)\b|\bmode [!=]= |\bstop [!=]= "))
numbered = [
    (f"{path}:{text.count(chr(10), 0, match.start()) + 1}", match[0].strip().split("\n")[0])
    for path, text in SOURCES.items()
    for match in re.finditer(r"^.*\bmatch [^{\n]*\{\n\s*\(?\d+(, \w+\))?( if [^\n]*)? =>", text, re.M)
]
say(7, "matches on bare numbers", numbered)

# 8. Answers.
answers = [open(path, encoding="utf-8").read() for path in glob.glob("crates/*/proofs/**/Answers.antt", recursive=True)]
print(f"8  {len(answers):4d}  files of answers, with {sum(len(re.findall(r'^[^ -].* (?:c|c) =', text, re.M)) for text in answers)} answers")
