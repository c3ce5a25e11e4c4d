#!/usr/bin/env python3
"""Spells this repository's own definitions, lemmas, fields and module names as today's Rattle does: words in snake case, types in upper camel case.

usage: respell.py [--list] FOLDER      (the top of a checkout, right behind the kit's port.py)

A name is this repository's own where a file of specs/ or proofs/ declares it. Names that Rattle makes (behind goal., in Goals and Given) stay.
It rewrites .antt files, clauses and 'ghost use' lines of .rt files, and names in must-fail edits. A second run changes nothing.
"""

import collections
import os
import re
import sys

WORD = r"[^\s(){}.;,@\"«»]+"
DECLARED = re.compile(rf"^\s*(?:(?:pattern|unfoldable|abbrev|pub|axiom)\s+)*(record|data)?\s*({WORD})((?:\s*[({{][^\n]*)?)\s+:(?=\s|$)(.*)$")
# In snake case these would meet the variables that stand beside them, or one another.
OTHERWISE = {
    "W": "w_at",
    "X": "x_at",
    "Y": "y_at",
    "W-small": "w_at_small",
    "X-small": "x_at_small",
    "Y-small": "y_at_small",
    "all-X's": "all_xs",
    "inner-X's": "inner_xs",
    "inner-X": "inner_x_lem",
    "last-X": "last_x_lem",
    "grown-W": "grown_w_r",
    "heading-size": "heading_size_is",
    "inv-sbox": "inv_sbox_lem",
    "key-words": "key_words_lem",
    "mark-number": "mark_number_lem",
    "block-at": "block_at_lem",
    "seal-line": "seal_line_lem",
    "stream-place": "stream_place_lem",
    "stream-size": "stream_size_lem",
    "getD-state": "get_or_state",
    "block_in": "block_in_lem",
    "tag_fits": "tag_fits_lem",
}
COMMENT = re.compile(r"(?<![^\s(){}.;,@\"«»])--[^\n]*")
# Two lemmas, each beside a definition that gets their name; where the definition has it already they have moved.
MET = {"block_in": "blockIn", "tag_fits": "tagFits"}
LEFT = {"S", "λ", "let", "in", "use", "|", "cond-false", "drop-set-lt"}  # the last two are the library's too
MADE = re.compile(r"^(goal|need|rules)\.")


def files(root, ends):
    for folder, dirs, names in os.walk(os.path.join(root, "crates")):
        dirs[:] = sorted(d for d in dirs if d not in ("out", "data"))
        for f in sorted(names):
            if f.endswith(ends):
                yield os.path.join(folder, f)


def read(path):
    with open(path, encoding="utf-8") as f:
        return f.read()


def snake(name):
    name = name.replace("′", "'")
    out = []
    for part in name.split("-"):
        part = re.sub(r"(?<=[a-z0-9])(?=[A-Z])", "_", part)
        out.append(part.lower())
    return "_".join(p for p in out if p)


def is_type(kind, name, rest):
    if kind:
        return True
    return name[:1].isupper() and "-" not in name and (re.search(r"Type \d", rest) or name not in OTHERWISE and len(name) > 1)


def declared(root):
    own = collections.defaultdict(set)
    for path in files(root, ".antt"):
        made = os.path.basename(path) in ("Answers.antt", "Invariants.antt", "Proof.antt")
        for line in read(path).split("\n"):
            if line.lstrip().startswith("--"):
                continue
            m = DECLARED.match(line)
            if not m or m.group(2) in LEFT:
                continue
            kind, name, _, rest = m.groups()
            if made and MADE.match(rest.strip()):
                continue
            if not is_type(kind, name, rest):
                own[name].add(os.path.relpath(path, root))
    return own


def table(root):
    rows = {}
    own = declared(root)
    for name in own:
        new = OTHERWISE.get(name) or snake(name)
        if name in MET and MET[name] not in own:
            continue
        if new != name:
            rows[name] = new
    return rows


# A name that Rattle makes of a clause, a step or a goal keeps its spelling: right behind c. and goal., and in lists of Goals and Given.
HEADS = re.compile(r"(?:^|[\s(){};,])(?:c|goal|need)\.$")


def turn_antt(text, rows, path):
    answers = os.path.basename(path) in ("Answers.antt", "Invariants.antt", "Proof.antt")
    kept = set()
    if answers:
        for m in re.finditer(r"\.(?:Goals|Given)\.\{([^}]*)\}", text):
            kept |= {w.strip() for w in m.group(1).split(",")}
        kept |= {m.group(1) for m in re.finditer(rf"\bgoal\.({WORD})", text)}

    comments = [c.span() for c in COMMENT.finditer(text)]

    def word(m):
        w = m.group(0)
        if w in kept or w not in rows:
            return w
        if any(a <= m.start() < b for a, b in comments) and not re.search(r"^[a-z]+\w*[A-Z]", w):
            return w
        if "_" in w and "-" not in w and text[m.start() - 1 : m.start()] == ".":
            return w
        if answers and HEADS.search(text[max(0, m.start() - 12) : m.start()]):
            return w
        return rows[w]

    text = re.sub(WORD, word, text)
    # The library's word All goes by index now; the definitions here go by recursion, and say so.
    if "{AllByRecursion as All}" in text:
        text = re.sub(WORD, lambda m: "AllByRecursion" if m.group(0) == "All" else m.group(0), text)
        text = text.replace("{AllByRecursion as AllByRecursion}", "{AllByRecursion}")
    return text


CLAUSE = re.compile(r"(?:requires|ensures)\s*\*?\s*(?:\w+\s*)?\{|ghost\s*(?:\w+\s*(?::\s*)?=?\s*)?\{|ghost\s+use\b|invariant\b[^{;]*\{")


def spans(text):
    """The clauses, ghost members and ghost use items of a .rt file."""
    for m in CLAUSE.finditer(text):
        if m.group(0).endswith("use"):
            yield m.start(), text.index(";", m.start())
            continue
        depth, i = 1, m.end()
        while depth and i < len(text):
            depth += {"{": 1, "}": -1}.get(text[i], 0)
            i += 1
        yield m.start(), i
    for m in re.finditer(r"(?m)^\s*ghost \w+: \{.*\}?", text):
        yield m.start(), m.end()


def turn_rt(text, rows):
    out, at = [], 0
    for a, b in sorted(spans(text)):
        if a < at:
            continue
        out += [text[at:a], re.sub(WORD, lambda m: rows.get(m.group(0), m.group(0)), text[a:b])]
        at = b
    return "".join(out) + text[at:]


def turn_edit(text, rows):
    """An edit of a definition, and a clause in an edit of code: names that no Rust has."""
    specs = re.search(r"(?m)^file: (specs|proofs)/", text)

    def word(m):
        w = m.group(0)
        return rows.get(w, w) if specs or re.search(r"-|[a-z][A-Z]", w) and w[:1].islower() else w

    return "\n".join(re.sub(WORD, word, l) if re.match(r"(old|new): ", l) else l for l in text.split("\n"))


def main(argv):
    listing = "--list" in argv
    root = [a for a in argv if a != "--list"][0]
    rows = table(root)
    for path in files(root, ".antt"):
        words, met = set(re.findall(WORD, read(path))), collections.defaultdict(set)
        for w in words:
            met[rows.get(w, w)].add(w)
        for new, olds in sorted(met.items()):
            if len(olds) > 1:
                print(f"falls together in {os.path.relpath(path, root)}: {' '.join(sorted(olds))} -> {new}")
    if listing:
        for old in sorted(rows):
            print(f"{old}\t{rows[old]}")
        return 0
    for path in files(root, (".antt", ".rt", ".edit")):
        old = read(path)
        if path.endswith(".antt"):
            new = turn_antt(old, rows, path)
        elif path.endswith(".rt"):
            new = turn_rt(old, rows)
        else:
            new = turn_edit(old, rows)
        if new != old:
            with open(path, "w", encoding="utf-8") as f:
                f.write(new)
    return 0


if __name__ == "__main__":
    raise SystemExit(main(sys.argv[1:]))
