#!/usr/bin/env python3
"""Lists the places in crates/*/src that read like an older Rattle, by the points of docs/DESIGN-PASS.md.

    python3 tools/forms.py [COMMIT] [--count]

Without COMMIT it reads the files as they stand. It goes by text: what it lists is looked at, and not each is a fault.
"""
import collections
import re
import subprocess
import sys


def files(commit):
    """The name and the text of each source file."""
    if commit:
        names = subprocess.run(["git", "ls-tree", "-r", "--name-only", commit, "crates"], capture_output=True, text=True, check=True).stdout.split("\n")
    else:
        names = subprocess.run(["git", "ls-files", "-co", "--exclude-standard", "crates"], capture_output=True, text=True, check=True).stdout.split("\n")
    for name in sorted(set(names)):
        if re.fullmatch(r"crates/[a-z_]+/src/[a-z_/]+\.rt", name):
            if commit:
                text = subprocess.run(["git", "show", f"{commit}:{name}"], capture_output=True, text=True, check=True).stdout
            else:
                try:
                    text = open(name).read()
                except FileNotFoundError:
                    continue
            yield name[len("crates/"):], text


def functions(text):
    """Name, parameters and clauses of each function: (line, name, [parameter], [clause])."""
    for m in re.finditer(r"^( *)((?:pub(?:\([a-z]+\))? )?(?:extern \"C\" )?fn (\w+))", text, re.M):
        rest = text[m.end():]
        body = re.search(r"\n" + m.group(1) + r"\{|;\n|\{\n", rest)
        head = rest[: body.start() if body else 400]
        paren = head.find("(")
        depth, end = 0, paren
        for end in range(paren, len(head)):
            depth += {"(": 1, ")": -1}.get(head[end], 0)
            if depth == 0:
                break
        parameters = re.findall(r"(?:^|[,(\n] *)(?:mut )?(\w+): ", head[paren:end + 1])
        clauses = re.findall(r"requires(?: \w+)? \{ (.*) \}\n?", head[end:])
        yield text[: m.start()].count("\n") + 1, m.group(3), parameters, clauses


def conjuncts(clause):
    """The facts that a clause joins by ×, without their outer parentheses."""
    parts, depth, start = [], 0, 0
    for i, c in enumerate(clause):
        depth += {"(": 1, ")": -1}.get(c, 0)
        if depth == 0 and clause[i:i + 3] == " × ":
            parts.append(clause[start:i])
            start = i + 3
    parts.append(clause[start:])
    if len(parts) == 1:
        whole = clause.strip()
        if whole.startswith("(") and whole.endswith(")") and re.match(r"^\((?!\w+ : )", whole):
            depth = 0
            for i, c in enumerate(whole):
                depth += {"(": 1, ")": -1}.get(c, 0)
                if depth == 0:
                    break
            if i == len(whole) - 1:
                return conjuncts(whole[1:-1])
        return [whole]
    return [f for p in parts for f in conjuncts(p.strip())]


LINES = {
    1: [
        ("enums", r"^\s*(pub )?enum \w+"),
        ("numbers for ways, kinds, layers and refusals", r"\b(way|kind|layer|refusal|choice): u\d+|decided: &mut \[u8\]|marks: &\[u8\]|\bd: &\[u8\]"),
        ("made-up answers", r"^pub fn \w+(<.*>)?\(\) -> u8"),
        ("numbers that stand for none", r"const NONE|u32::MAX\b|None => 0,|map_or\(\d|None => Ok\(0\)|Ok\(0\)$"),
        ("flags", r": bool[,)]|, bool\)"),
    ],
    3: [("loops over numbers", r"^\s*for .* in \(?[\w:<>() +*/-]*\.\.[\w=]|^\s*for .* in .*[a-z_)]\.\.[a-z_]*\(?.*\{$|^\s*(while|loop)\b")],
    4: [
        ("conversions, comparisons and printing by functions", r"fn (number|numbered|same|widened|word|show_plan|eq|cmp)\b"),
        ("a match or an if that wraps again", r"^\s*Some\((\w+)\) => Some\(|^\s*Ok\((\w+)\) => Ok\(\2\)|^\s*None => None,|^\s*Err\(\w+\) => Err\(|\{ Some\(.*\) \} else \{ None \}"),
        ("ranges asked by two comparisons", r"(\w[\w.]*) >= [\w_]+ && \1 <|(\w[\w.]*) < [\w_]+ \|\| \2 >"),
    ],
    6: [("arrays of a fixed length", r"\[[A-Za-z0-9_:<>&' ]+; \d+\]")],
    7: [("choices of a step", r"match (way|self|kind|call)\b"), ("tables of functions", r"\bdyn \w|: fn\(")],
}


def main():
    words = [w for w in sys.argv[1:] if not w.startswith("--")]
    short = "--count" in sys.argv
    sources = list(files(words[0] if words else None))
    for point in range(1, 8):
        print(f"== point {point}")
        for title, pattern in LINES.get(point, []):
            found = []
            for name, text in sources:
                for number, line in enumerate(text.split("\n"), 1):
                    code = line.split("//")[0]
                    if re.match(r"\s*(requires|ensures|ghost|///)", line):
                        continue
                    if re.search(pattern, code):
                        found.append(f"{name}:{number}: {line.strip()}")
            print(f"-- {title}: {len(found)}")
            if not short:
                print("".join(f"   {f}\n" for f in found), end="")
        if point == 2:
            where = collections.defaultdict(list)
            for name, text in sources:
                for number, f, _, _ in functions(text):
                    where[f].append(f"{name}:{number}")
            twice = {f: w for f, w in where.items() if len(w) > 1 and f not in ("main", "run", "new", "fmt", "from", "try_from", "clone")}
            print(f"-- names of two or more functions: {len(twice)}")
            if not short:
                print("".join(f"   {f}: {' '.join(w)}\n" for f, w in sorted(twice.items())), end="")
        if point == 5:
            facts, groups = collections.defaultdict(set), collections.defaultdict(set)
            for name, text in sources:
                for number, f, parameters, clauses in functions(text):
                    at = f"{name}:{number}:{f}"
                    for fact in {c for clause in clauses for c in conjuncts(clause)}:
                        facts[fact].add(at)
                    names = [p for p in parameters if p not in ("self", "rt")]
                    for i, a in enumerate(names):
                        for b in names[i + 1:]:
                            groups[(a, b)].add(at)
            many = {k: v for k, v in facts.items() if len(v) > 2}
            print(f"-- facts required by three functions or more: {len(many)}")
            if not short:
                print("".join(f"   {k}: {len(v)}: {' '.join(sorted(v))}\n" for k, v in sorted(many.items(), key=lambda x: -len(x[1]))), end="")
            pairs = {k: v for k, v in groups.items() if len(v) > 2}
            print(f"-- pairs of parameters of three functions or more: {len(pairs)}")
            if not short:
                print("".join(f"   {' '.join(k)}: {len(v)}: {' '.join(sorted(v))}\n" for k, v in sorted(pairs.items(), key=lambda x: -len(x[1]))), end="")


main()
