#!/usr/bin/env python3
"""Spells the names that this repository's specs/ and proofs/ declare in snake case, after the port to Rattle's spelling of 2026.

usage: tools/respell.py [--list]      at the top of the repository; --list prints the names and changes nothing

A name that begins with a small letter and is declared in an .antt file gets snake case: `fieldEnd` is `field_end`, and in specs/ `post-as` is
`post_as`. In proofs/ a dash stays, since there it joins two names (`fed_on-append`). Types and modules keep their capitals, functions of src/,
exported C names, strings, inputs and outputs their names. A name that would meet another has a row in APART.
"""

import glob
import re
import sys

DECLARED = re.compile(r'^( *)(?:(?:abbrev|unfoldable|opaque|pub|data|record) +)*([^\s(){}.;,@"]+)(?: \{[^{}\n]*\})* :', re.M)
HUMP = re.compile(r"(?<=[a-z0-9])[A-Z]")
WORD = re.compile(r'[^\s(){}\[\].;,@"«»`:?!]+')
PLAIN = re.compile(r"[a-z][\w'-]*$")

# A constructor or a field that would meet a definition, or a definition that would meet one: its name by hand.
APART = {
    "kindFits": "fits_kind",
    "readBack": "read_back_of",
    "textIn": "text_in_field",
    "tooLong": "is_too_long",
    "typedAt": "typed_at_cell",
}
# Names that two files share, where no file has both: a field and a definition, or a lemma of one file and a definition.
SHARED = {"clear_display", "clear_line", "first_in", "home_down", "in_field", "noise_cases", "part_left", "read_as"}


def texts():
    return sorted(glob.glob("crates/*/specs/**/*.antt", recursive=True) + glob.glob("crates/*/proofs/**/*.antt", recursive=True))


def snake(name, dashes):
    name = re.sub(r"(?<![\w])getD(?![\w])", "get_or", name)
    name = HUMP.sub(lambda m: "_" + m[0].lower(), name)
    return name.replace("-", "_") if dashes else name


def names():
    """Each declared name with its new one."""
    made, where = {}, {}
    for p in texts():
        with open(p, encoding="utf-8") as f:
            t = f.read()
        if re.search(r"/proofs/.+/(Proof|Answers|Invariants)\.antt$", p):
            continue
        for m in DECLARED.finditer(t):
            n = m.group(2)
            if PLAIN.match(n):
                where.setdefault(n, set()).add("/specs/" in p)
    for n, places in where.items():
        to = APART.get(n) or snake(n, True in places)
        if to != n:
            made[n] = to
    return made, set(where)


def main():
    made, known = names()
    taken = {}
    for n in known:
        taken.setdefault(made.get(n, n), set()).add(n)
    for to, olds in sorted(taken.items()):
        if len(olds) > 1 and to not in SHARED:
            print("respell: fall together:", to, "from", sorted(olds), file=sys.stderr)
    used = {}
    for p in texts():
        with open(p, encoding="utf-8") as f:
            for w in set(WORD.findall(f.read())):
                used.setdefault(w, []).append(p)
    for n, to in sorted(made.items()):
        if to in used and to not in known:
            print("respell: in use:", to, "for", n, "in", used[to][:4], file=sys.stderr)
    if "--list" in sys.argv:
        for n, to in sorted(made.items()):
            print(n, to)
        return
    for p in texts() + sorted(glob.glob("crates/*/src/**/*.rt", recursive=True)) + sorted(glob.glob("crates/*/must-fail/*.edit")) + ["README.md"] + sorted(glob.glob("docs/*.md")):
        with open(p, encoding="utf-8") as f:
            t = f.read()
        new = WORD.sub(lambda m: made.get(m[0], m[0]), t)
        if new != t:
            with open(p, "w", encoding="utf-8") as f:
                f.write(new)


main()
