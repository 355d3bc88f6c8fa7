#!/usr/bin/env python3
"""Brings the names of this repository's own definitions and lemmas to one spelling: words in snake case.

usage: python3 tools/respell.py [--list]      at the top of the repository

A name counts as the repository's own where a file of specs/ or proofs/ declares it and it is no answer to a goal.
Names with a dash or a capital inside are turned in clauses, definitions, lemmas, must-fail edits and, between
backquotes, in pages. Left as they are: names that a file takes from another library, what stands right behind `c.`,
`w.`, `l.`, `g.` or `goal.` in a proof (the checker makes those names), strings, comments (but for names between
backquotes or with a capital inside), and the functions of src/. Names that would fall together are told, and stop it.
"""

import os
import re
import sys

WORD = r"[A-Za-z\u2080-\u2089_◌][\w'\-\u2080-\u2089◌]*"
DECLARED = re.compile(r"\s*(?:abbrev |unfoldable )?(?:pub )?(?:abbrev )?((?:[a-z][\w'\-]* )+): ")
TURNED = re.compile(r"[a-z0-9'][A-Z]|-")
TOKEN = re.compile(rf"(?P<path>(?:\b(?:c|w|l|g|goal)\.)?)(?P<word>{WORD})")
TAKEN = re.compile(r"\buse\s+([\w.+\-']+)\.\{([^}]*)\}", re.S)


# Definitions that would take the name of a function of src/ beside them, or lemmas that of a definition.
OTHERS = {
    "atEnd": "count_at_end",
    "countAt": "cell_count",
    "emptyRange": "empty_range_fault",
    "fewCells": "few_cells_fault",
    "levelsOf": "levels_of_samples",
    "noRoom": "no_room_fault",
    "at-end": "at_end_lem",
    "cut-cost": "cut_cost_lem",
    "joined-cost": "joined_cost_lem",
    "link-cost": "link_cost_lem",
    "merge-cost": "merge_cost_lem",
    "merge-cost-is": "merge_cost_is_here",
    "parted-cost": "parted_cost_lem",
    "parted-rest": "parted_rest_lem",
    "partedRest-cost": "parted_rest_cost_lem",
    "put-cost": "put_cost_lem",
    "refs-at": "refs_at_lem",
    "rotated-twice": "rotated_twice_lem",
    "taken-cost": "taken_cost_lem",
    "to-left": "to_left",
    "to-right": "to_right",
    "tree-to": "tree_to_lem",
}


def snake(name):
    if name in OTHERS:
        return OTHERS[name]
    name = re.sub(r"([a-z0-9])([A-Z])", lambda m: m.group(1) + "_" + m.group(2).lower(), name)
    return name.replace("-", "_")


def files(*ends):
    for folder, dirs, names in os.walk("crates"):
        dirs[:] = sorted(d for d in dirs if d not in ("out", "target"))
        for n in sorted(names):
            if n.endswith(ends):
                yield os.path.join(folder, n)


def read(p):
    with open(p, encoding="utf-8") as f:
        return f.read()


def crates():
    return {d for d in os.listdir("crates")}


def own_names():
    found = set()
    for p in files(".antt"):
        for line in read(p).split("\n"):
            m = DECLARED.match(line)
            if m and ": goal." not in line:
                found.update(n for n in m.group(1).split() if TURNED.search(n))
    return found


def kept_here(text, mine):
    """The names that mean something else in this file: taken from elsewhere, or answers to goals."""
    kept = set()
    for path, names in TAKEN.findall(text):
        parts = path.split(".")
        ours = parts[0] == "Rattle" and len(parts) > 2 and parts[1] in mine and parts[2] in ("specs", "proofs") and parts[-1] not in ("Goals", "Given", "Tie")
        if not ours:
            kept.update(n.strip().split(" as ")[0].strip() for n in names.split(","))
    for line in text.split("\n"):
        m = re.match(rf"\s*(?:abbrev )?(?:pub )?({WORD}) : goal\.", line)
        if m:
            kept.add(m.group(1))
    return kept


def turn_code(code, names, kept, made=True):
    """The code with its names turned; where `made`, names behind `c.` and its like are the checker's own."""
    def one(m):
        w = m.group("word")
        if (made and m.group("path")) or w in kept or w not in names:
            return m.group(0)
        return m.group("path") + names[w]
    return TOKEN.sub(one, code)


def turn_comment(text, names, kept):
    text = re.sub(r"`([^`\n]*)`", lambda m: "`" + turn_code(m.group(1), names, kept) + "`", text)
    capital = {k: v for k, v in names.items() if re.search(r"[a-z][A-Z]", k) and "-" not in k}
    return turn_code(text, capital, kept)


def turn(text, names, kept, mark, made):
    out = []
    for line in text.split("\n"):
        at = line.find(mark + " ") if not line.strip().startswith(mark) else line.find(mark)
        if at < 0:
            out.append(turn_code(line, names, kept, made))
        else:
            out.append(turn_code(line[:at], names, kept, made) + turn_comment(line[at:], names, kept))
    return "\n".join(out)


def clauses_only(text, names, kept):
    """A source file: its `ghost use` lines, and what stands in the braces of its clauses."""
    out, depth, inside = [], 0, False
    for line in text.split("\n"):
        code, comment = line, ""
        at = line.find("// ")
        if at >= 0 and line[:at].count('"') % 2 == 0:
            code, comment = line[:at], line[at:]
        starts = re.match(r"\s*(ghost |requires\b|ensures\b)", code)
        if starts and not inside:
            inside, depth = True, 0
        if inside:
            depth += code.count("{") - code.count("}")
            code = turn_code(code, names, kept)
            if depth <= 0 and ("}" in code or ";" in code):
                inside = False
        out.append(code + turn_comment(comment, names, kept))
    return "\n".join(out)


def answers(path):
    """Whether the file is of a function's own folder, where the checker's names occur."""
    parts = path.split(os.sep)
    return parts[2] == "proofs" and len(parts) > 4


def main():
    mine = crates()
    own = own_names()
    names = {n: snake(n) for n in own}
    seen = {}
    for k, v in sorted(names.items()):
        seen.setdefault(v, []).append(k)
    together = {v: ks for v, ks in seen.items() if len(ks) > 1 and not any(k in OTHERS for k in ks)}
    texts = {p: read(p) for p in files(".antt", ".rt", ".edit")}
    clashes = []
    for p, t in texts.items():
        words = {m.group("word") for m in TOKEN.finditer(t)}
        clashes += [(p, k, v) for k, v in names.items() if k in words and v in words]
    for v, ks in together.items():
        print(f"fall together: {' '.join(ks)} as {v}")
    for p, k, v in clashes:
        print(f"both spellings: {k} and {v} in {p}")
    if "--list" in sys.argv:
        for k, v in sorted(names.items()):
            print(k, v)
        return
    if together:
        raise SystemExit(1)
    for p, t in texts.items():
        kept = kept_here(t, mine)
        new = clauses_only(t, names, kept) if p.endswith((".rt", ".edit")) else turn(t, names, kept, "--", answers(p))
        if new != t:
            with open(p, "w", encoding="utf-8") as f:
                f.write(new)
    for p in ["README.md"] + sorted(os.path.join("docs", f) for f in os.listdir("docs") if f.endswith(".md")):
        t = read(p)
        new = re.sub(r"`([^`\n]*)`", lambda m: "`" + turn_code(m.group(1), names, set()) + "`", t)
        if new != t:
            with open(p, "w", encoding="utf-8") as f:
                f.write(new)


if __name__ == "__main__":
    main()
