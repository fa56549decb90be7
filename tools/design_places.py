#!/usr/bin/env python3
"""The places of the design pass (docs/DESIGN-PASS.md), found in src/ by their text. Usage, at the top of the repository:

    python3 tools/design_places.py          how many places there are, by point and crate
    python3 tools/design_places.py 3 trial  the places of a point, in one crate or in all

What a pattern finds is a candidate: the page says what each of them became, or why it stays.
"""
import glob
import re
import sys

RS = sorted(glob.glob("crates/*/src/**/*.rt", recursive=True))


def code(path):
    """The lines of a file without comments."""
    return [re.sub(r"//.*", "", line.rstrip("\n")) for line in open(path)]


def functions(path):
    """Each function with a body: its name, its line, its signature and its body."""
    lines = code(path)
    start = None
    for n, line in enumerate(lines):
        head = re.match(r"\s*(?:pub(?:\(crate\))? )?(?:extern \"C\" )?(?:final )?fn (\w+)", line)
        if head:
            start, name, indent = n, head.group(1), len(line) - len(line.lstrip())
        if start is not None and line.rstrip() == " " * indent + "}" and n > start:
            text = lines[start:n + 1]
            at = next((i for i, x in enumerate(text) if x.rstrip() in (" " * indent + "{",) or x.rstrip().endswith(" {")), 0)
            signature = [x for x in text[:at + 1] if not re.match(r"\s*(requires|ensures|ghost)", x)]
            yield name, start + 1, "\n".join(signature), "\n".join(text[at:])
            start = None


def matching(pattern):
    for path in RS:
        for n, line in enumerate(code(path), 1):
            if re.search(pattern, line):
                yield path, n, line.strip()


def point1():
    """Enums with a case for nothing or for a refusal; flags in structs; answers that are a number or a place past the end."""
    for path in RS:
        text = "\n".join(code(path))
        for m in re.finditer(r"enum (\w+) \{(.*?)\n\}", text, re.S):
            if re.search(r"\b(Refused|Nothing|Missing|None|NotAllowed)\b", m.group(2)):
                yield path, text[:m.start()].count("\n") + 1, "enum " + m.group(1)
        for m in re.finditer(r"struct (\w+)(?:<[^>]*>)? \{(.*?)\n\}", text, re.S):
            for f in re.findall(r"(\w+): bool", m.group(2)):
                yield path, text[:m.start()].count("\n") + 1, f"struct {m.group(1)}, flag {f}"
        for name, at, signature, body in functions(path):
            if re.search(r"refusal$", name) and re.search(r"-> i64", signature):
                yield path, at, f"fn {name}, a number for a refusal"
    yield from matching(r"const (NONE|MOVED|FULL)\b")
    for path in RS:
        for n, line in enumerate(open(path), 1):
            if re.search(r"//.*(where there is none|Past all boxes where none|one past its columns|Row 0 |with row 0|, or 0 where)", line):
                yield path, n, "a number that stands for none: " + line.strip()


def point2():
    """Functions, of the kernel or of the trial, whose code is the same but for names, numbers and types; and a choice of one of two sizes."""
    seen = {}
    for path in RS:
        for name, at, signature, body in functions(path):
            norm = re.sub(r"b?'(\\.|[^'])'|b?\"[^\"]*\"|\d+", "0", body)
            norm = re.sub(r"[A-Za-z_]\w*(::[A-Za-z_]\w*)*", "x", norm)
            norm = re.sub(r"\s+", " ", norm)
            if len(norm) > 30:
                seen.setdefault((path.split("/")[1] == "trial", norm), []).append((path, at, name))
    for places in seen.values():
        if len(places) > 1:
            names = ", ".join(p[2] for p in places)
            yield places[0][0], places[0][1], f"{len(places)} alike: {names}"
    yield from matching(r"if most <= FEW")


def point3():
    """Loops that count by hand: a `while`, in which a variable of its condition goes up or down by a step."""
    for path in RS:
        lines = code(path)
        for n, line in enumerate(lines):
            m = re.match(r"(\s*)(?:'\w+: )?while (?!let)", line)
            if not m:
                continue
            end = next(i for i in range(n, len(lines)) if lines[i].startswith(m.group(1) + "}"))
            body = "\n".join(lines[n:end + 1])
            if re.search(r"\b\w+ (\+=|-=) |\b(\w+) = (\2 \+ 1|chain::after|plus\()", body):
                yield path, n + 1, line.strip()


def point4():
    """Functions that do what a derive, a conversion or a method of std does."""
    names = (r"is_equal|is_index|copy|larger|lesser|relation_number|magnitude|at_most|greater|number_of|"
             r"same_\w+|\w+_is|is_between|put_natural|put_number|fill_digits|word_of|count_of")
    yield from matching(rf"fn ({names})\(")


def point5():
    """Functions whose parameters hold block, table and outline, or suspects and known areas, together."""
    for path in RS:
        for name, at, signature, body in functions(path):
            if re.search(r"outline: &\[i64; OUTLINE\]", signature) and re.search(r"table: &", signature):
                yield path, at, f"fn {name}: block, table and outline"
            if re.search(r"suspects: &", signature) and re.search(r"known: &", signature):
                yield path, at, f"fn {name}: suspects and known"


def point6():
    """Fields and parameters that are the length of what stands beside them."""
    yield from matching(r"^\s*(pub )?(block_len|table_len|len|count|next|end): usize,")


def point7():
    """Switches on a number over more than three cases, and tables of functions."""
    for path in RS:
        text = "\n".join(code(path))
        for m in re.finditer(r"match (\w+) \{(.*?)\n\s*\}", text, re.S):
            if len(re.findall(r"^\s*\d+ =>", m.group(2), re.M)) > 3:
                yield path, text[:m.start()].count("\n") + 1, "match " + m.group(1)
    yield from matching(r"\[fn\(|: fn\(")


def point8():
    """Proof files: the answers and invariants of the functions, and the lemma files."""
    for path in sorted(glob.glob("crates/*/proofs/**/*.antt", recursive=True)):
        yield path, 1, "proof file"


POINTS = {str(n): globals()[f"point{n}"] for n in range(1, 9)}

if len(sys.argv) > 1:
    crate = sys.argv[2] if len(sys.argv) > 2 else None
    for path, line, what in POINTS[sys.argv[1]]():
        if crate is None or path.split("/")[1] == crate:
            print(f"{path}:{line}: {what}")
else:
    for n, find in POINTS.items():
        count = {}
        for path, _, _ in find():
            crate = path.split("/")[1]
            count[crate] = count.get(crate, 0) + 1
        per = ", ".join(f"{c} {k}" for c, k in sorted(count.items()))
        print(f"{n}: {sum(count.values())} ({per})")
