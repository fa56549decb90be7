#!/usr/bin/env python3
"""Brings the repository's own words to the spelling of the language: words and fields in snake case.

Run once, at the top, after port.py. It goes over the definitions, lemmas, clauses, comments and must-fail edits: a word in camel case that
begins small becomes snake case (`boxLen` is `box_len`, `leZ-true` is `le_z-true`), and the dash in the name of a record's field becomes an
underscore (`sets-from` is `sets_from`). Types, facts and modules keep their capital; functions, exported names and strings keep their names.
It prints every word that it changed, and stops before it writes where two words would fall together; a word that is named as an argument
may fall together with another.
"""
import glob
import re
import sys

STRING = re.compile(r'("(?:[^"\\\n]|\\.)*")')
TOKEN = re.compile(r"[^\W\d][\w'′]*(?:-[\w'′]+)*")
CAMEL = re.compile(r"(?:^|-|_)[a-z][a-z0-9]*[A-Z]")
# Words of the older library inside names of ours.
PARTS = {"getD": "get_or"}
# Words that would fall together with another word of ours, with a field or with a tactic.
CHOSEN = {
    "firstOf": "first_layout_of",
    "blockLen": "block_length",
    "tableLen": "table_length",
    "least_by": "least-by",
    "box_in": "box-in",
    "same_number": "same-number",
    "block_in": "block-in",
    "no_place": "no-place",
}


def snake(part):
    if part in PARTS:
        return PARTS[part]
    if not re.match(r"[a-z]", part):
        return part
    return re.sub(r"(?<=[a-z0-9])([A-Z])", lambda m: "_" + m.group(1).lower(), part)


def respelled(word):
    if word in CHOSEN:
        return CHOSEN[word]
    return "-".join(snake(p) for p in word.split("-")) if CAMEL.search(word) else word


def words_of(text):
    """The words of a text outside its strings."""
    return [w for part in STRING.split(text)[::2] for w in TOKEN.findall(part)]


def antt_files():
    return sorted(f for d in ("specs", "proofs") for f in glob.glob("crates/*/%s/**/*.antt" % d, recursive=True))


def field_names(texts):
    """The names of record fields, where they have a dash."""
    found = set()
    for text in texts:
        inside = False
        for line in text.split("\n"):
            if re.match(r"(?:pub )?record ", line) or re.match(r"\s+(?:pub )?record \w", line):
                inside = True
            elif inside:
                m = re.match(r"\s+(?:pub )?([^\W\d][\w']*(?:-[\w']+)+) : ", line)
                if m:
                    found.add(m.group(1))
                elif not line.strip():
                    inside = False
    return found


def main():
    sources = sorted(glob.glob("crates/*/src/**/*.rt", recursive=True))
    edits = sorted(glob.glob("crates/*/must-fail/*.edit"))
    antt = antt_files()
    texts = {f: open(f, encoding="utf-8").read() for f in antt + sources + edits}
    fields = field_names(texts[f] for f in antt)
    used = {}
    for f, text in texts.items():
        if "/specs/" in f or re.search(r"/proofs/\w+\.antt$", f):
            for word in words_of(text):
                used.setdefault(word, f)
    words = set(used) | {w for f in sources + edits for w in words_of(texts[f])}
    changed = {w: respelled(w) for w in sorted(words) if respelled(w) != w}
    clashes = [(w, n, used[n]) for w, n in changed.items() if n in used]
    allowed = set(sys.argv[1:])
    clashes = [c for c in clashes if c[0] not in allowed]
    for w, n, f in clashes:
        print("falls together: %s with %s (%s)" % (w, n, f))
    if clashes:
        return 1
    dashed = "|".join(map(re.escape, sorted(fields, key=len, reverse=True)))
    as_member = re.compile(r"(?<=\.)(%s)(?![\w'-])" % dashed)
    as_label = re.compile(r"(?<![\w'.-])(%s)(?= (?:=|:) )" % dashed)
    for f, text in texts.items():
        known = {w: n for w, n in changed.items() if w not in CHOSEN or not f.endswith(".rt") or CAMEL.search(w)}
        parts = STRING.split(text)
        parts[::2] = [TOKEN.sub(lambda m: known.get(m.group(0), m.group(0)), part) for part in parts[::2]]
        new = "".join(parts)
        if not f.endswith(".rt"):
            new = as_member.sub(lambda m: m.group(1).replace("-", "_"), new)
            out = []
            inside, depth = False, 0
            for line in new.split("\n"):
                starts = re.match(r"\s*(?:pub )?record \w", line)
                if starts:
                    inside = True
                elif inside and not line.strip():
                    inside = False
                if inside or depth or "record {" in line:
                    line = as_label.sub(lambda m: m.group(1).replace("-", "_"), line)
                depth = max(0, depth + line.count("{") - line.count("}")) if depth or "record {" in line else 0
                out.append(line)
            new = "\n".join(out)
        if new != text:
            open(f, "w", encoding="utf-8").write(new)
    for w in sorted(changed):
        print("%s → %s" % (w, changed[w]))
    for w in sorted(fields):
        print(".%s → .%s" % (w, w.replace("-", "_")))
    return 0


sys.exit(main())
