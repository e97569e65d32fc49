#!/usr/bin/env python3
"""Brings this repository's own definitions and lemmas to the spelling of today's Rattle: types and facts in upper camel
case, everything else in snake case, where the older spelling joined words by dashes.

usage: python3 tools/respell.py     at the top, once, right after the kit's port.py

Names come from where specs/ and proofs/ declare them: at a line's start, in a `where`, as a record's field, as a
constructor and in a `let`. Names that Rattle makes (goals, steps, impls) and std's names are left alone, so are functions
of src/. Comments change inside backticks alone. It stops, and writes nothing, where two names would fall together.
"""

import os
import re
import sys

STOPS = r"\s(){}\[\];,.\\`:\"λ|⌜⌝"
NAME = re.compile(r"[^" + STOPS + r"]+")
HEADS = r"(?:(?:abbrev|unfoldable|pub|private|record|data|ruleset)\s+)*"
DECLARED = re.compile(r"^\s*" + HEADS + r"([A-Za-z][^" + STOPS + r"]*)\s*(?:[({][^:]*:[^=]*?)?:\s*(\S.*)?$")
TYPED = re.compile(r"^\s*(?:pub )?(?:record|data)\s+([A-Za-z][^" + STOPS + r"]*)")
LET = re.compile(r"\blet ([A-Za-z][^" + STOPS + r"]*)\s")
FACT = re.compile(r"Type 0\s*$")


def walk(ends):
    for folder, dirs, files in os.walk("crates"):
        dirs[:] = sorted(d for d in dirs if d not in ("out", ".git"))
        for f in sorted(files):
            if f.endswith(ends):
                yield os.path.join(folder, f)


def read(path):
    with open(path, encoding="utf-8") as f:
        return f.read()


def is_plain(name):
    """A name of words and dashes alone: an operator's or a number's dash stays."""
    return re.fullmatch(r"[A-Za-z][\w']*(?:-[\w']+)+", name) is not None


def spelled(name, is_type):
    words = name.split("-")
    if is_type:
        return "".join(w[:1].upper() + w[1:] for w in words)
    return "_".join(w[:1].lower() + w[1:] if i == 0 else w for i, w in enumerate(words))


def declared():
    names = {}
    fields = set()
    for path in walk(".antt"):
        in_record = False
        for line in read(path).split("\n"):
            code = line.split("--")[0]
            if not code.strip() or code.lstrip().startswith("use "):
                continue
            t = TYPED.match(code)
            d = DECLARED.match(code)
            if not code.startswith(" "):
                in_record = t is not None
            if t and is_plain(t.group(1)):
                names[t.group(1)] = spelled(t.group(1), True)
            elif d and is_plain(d.group(1)) and not (d.group(2) or "").startswith("goal."):
                fact = FACT.search(d.group(2) or "") is not None
                names.setdefault(d.group(1), spelled(d.group(1), fact or d.group(1)[0].isupper()))
                if in_record:
                    fields.add(d.group(1))
            for name in LET.findall(code):
                if is_plain(name) and not name[0].isupper():
                    names.setdefault(name, spelled(name, False))
    return names, fields


def turned(text, names, fields):
    def one(m):
        name = m.group(0)
        if name not in names:
            return name
        before = text[: m.start()]
        if before.endswith(".") and name not in fields:
            return name
        return names[name]

    return NAME.sub(one, text)


def turned_file(text, names, fields, mark):
    out = []
    for line in text.split("\n"):
        at = line.find(mark)
        code, comment = (line, "") if at < 0 else (line[:at], line[at:])
        comment = re.sub(r"`[^`]*`", lambda m: turned(m.group(0), names, fields), comment)
        out.append(turned(code, names, fields) + comment)
    return "\n".join(out)


def main():
    names, fields = declared()
    for name in KEPT:
        names.pop(name, None)
    for name in LOCALS.split():
        names[name] = spelled(name, name[0].isupper())
    taken = set()
    for path in walk((".antt", ".rt")):
        taken.update(NAME.findall(read(path)))
    clash = sorted(f"{a} -> {b}" for a, b in names.items() if b in taken)
    turns = {}
    for a, b in names.items():
        turns.setdefault(b, []).append(a)
    clash += sorted(f"{' and '.join(a)} -> {b}" for b, a in turns.items() if len(a) > 1)
    allowed = {line.strip() for line in ALLOWED.strip().split("\n")}
    bad = [c for c in clash if c not in allowed]
    if bad:
        print("\n".join(bad), file=sys.stderr)
        raise SystemExit(f"{len(bad)} names would fall together; nothing was changed")
    changed = 0
    for path in walk((".antt", ".rt", ".edit")):
        old = read(path)
        new = turned_file(old, names, fields, "--" if path.endswith(".antt") else "//")
        if new != old:
            changed += 1
            with open(path, "w", encoding="utf-8") as f:
                f.write(new)
    print(f"{len(names)} names, {changed} files")


# Meetings that were looked at: a word of specs/ and a function, a field or a parameter of src/ that it describes, which no
# clause names together, or a local of a proof.
ALLOWED = """
by-columns -> by_columns
coded-bit -> coded_bit
data-bit -> data_bit
first-coded -> first_coded
first-to-last -> first_to_last
in-range -> in_range
inner-leaves-prior-out -> inner_leaves_prior_out
none-missing -> none_missing
outer-leaves-prior-out -> outer_leaves_prior_out
reliability-of -> reliability_of
second-coded -> second_coded
sent-on -> sent_on
"""

# Names of arguments and of imports, which no line declares in the ways above.
LOCALS = """
zero-cost one-cost four-of b-low x-within y-within length-right first-right plan-right s-low t-low s-some x-fine y-fine
not-path new-one Semiring-laws
"""

# Already as a lemma on two words is spelled, and the other spelling is a word of std.
KEPT = {"bit-xor"}

if __name__ == "__main__":
    main()
