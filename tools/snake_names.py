#!/usr/bin/env python3
"""Brings the repository's own definitions, record fields and lemmas to today's spelling: words in snake case, a dash only between the names of two definitions.

Run once at the top, right behind the kit's port.py. It reads what specs/ and the lemma files of proofs/ declare, works out the new name of each, stops where two names
fall together, and rewrites whole tokens in .antt files, in .rt files (contracts and `ghost use` alone), in must-fail edits, and between back quotes in README.md and docs/*.md.
Functions of src/, exported C names, strings and the text of comments keep their names. Where a lemma would have a definition's name, it gets `_lem`.

With --list it writes nothing, and prints each name that changes and its new one."""

import glob
import re
import sys

TOKEN = re.compile(r"(?<![\w'-])[A-Za-z_][\w']*(?:-[\w']+)*(?![\w'-])")
DECLARED = re.compile(r"^\s*(?:(?:pub|abbrev|unfoldable|mutual|axiom)\s+)*([a-z][\w']*(?:-[\w']+)*)(?:\s*\{[^}]*\})?\s*(?::|$)")
STD = {"length", "set", "take", "drop", "replicate", "append", "max", "min", "sum", "map", "tabulate", "get_or", "cond"}
# Read as words and not as the names of two definitions.
PLAIN = {"two-at-grants"}

# What port.py itself respells in .rt and .antt files: pages and edits follow.
PORTED = """
a-small add-a after-first after-more after-next all-lines all-more all-none all-room allBelow and-left and-right any-false any-none at-most at-most-one b-shut
by-answer by-code by-end by-lines by-number by-runs by-shape byte-of byteAt bytes-next code-read cond-same copied-next copied-none copy-done count-kept
count-most count-next count-none countOf counted-next counted-spec ended-here entry-done entry-more entryOf filled-more filled-next filled-none firstAt
found-first found-here freshOf from-end from-more front-long going-more going-on hands-on inTable isLine kept-by kept-either kept-next last-bit line-after
lineAt lineOf lines-are linesOf listedOf load-spec loadOf look-none look-stop main-spec mark-of mul-next nameAt next-row nextOf no-hit no-lines no-more
no-other none-any none-below none-first none-from none-left none-more none-of none-open not-first not-full not-third not-yet nothing-put number-put
number-small numberAt numberOf of-three one-at-most one-below one-each one-further one-left one-less one-line one-more one-of one-shifted open-is or-assoc
orElse part-of past-is product-small put-next release-spec room-of roomAt round-trip row-at row-inside row-kept row-new row-put rowOf rows-of run-on run-spec
runs-on same-count same-length same-line same-name same-or-not same-place same-row same-rows same-test same-turn size-is slots-length small-by small-of
small-product so-far some-stored sound-more spanOf stands-by start-fits stateOf sum-lt sum-one table-done table-kept tableOf textOf turnOf two-digits valueAt
walked-end walked-next walked-none widthAt wordAt wordOf zero-or
""".split()


def snake(name):
    return re.sub(r"(?<=[a-z0-9])([A-Z])", lambda m: "_" + m[1].lower(), name)


def lemma_files():
    for p in sorted(glob.glob("crates/*/specs/**/*.antt", recursive=True) + glob.glob("crates/*/proofs/*.antt")):
        if not p.endswith("/Lib.antt"):
            yield p


def declared():
    """Names with no dash, names with one, and the new names of the definitions in specs/."""
    words, lemmas, defined = set(), set(), set()
    for p in lemma_files():
        for line in open(p, encoding="utf-8"):
            if line.lstrip().startswith("--"):
                continue
            m = DECLARED.match(line)
            if m and " : " in line and m[1] not in ("record", "module", "use", "open", "data"):
                (words if "-" not in m[1] else lemmas).add(m[1])
                if "/specs/" in p and "-" not in m[1] and re.match(r"(abbrev|unfoldable) ", line):
                    defined.add(snake(m[1]))
    return words, lemmas, defined


def joined(parts, names):
    """The parts as names of definitions, the longest first, joined by dashes; in snake case where they are no such names."""
    found, i = [], 0
    while i < len(parts):
        for j in range(len(parts), i, -1):
            if "_".join(parts[i:j]) in names:
                found.append("_".join(parts[i:j]))
                i = j
                break
        else:
            return "_".join(parts)
    return "-".join(found)


def renamed(words, lemmas, defined):
    """The map from old to new, for the names that change."""
    new = {w: snake(w) for w in words}
    taken = {}
    for w, n in sorted(new.items()):
        taken.setdefault(n, []).append(w)
    for n, olds in list(taken.items()):
        if len(olds) > 1:  # a lemma that port.py has respelled already, beside a definition in camel case
            lemma = [w for w in olds if w == n]
            others = [w for w in olds if w != n]
            if len(lemma) != 1 or len(others) != 1:
                sys.exit(f"these names fall together: {olds}")
            new[lemma[0]] = n + "_lem"
            taken[n] = others
            taken[n + "_lem"] = lemma
    for l in sorted(lemmas):
        n = l.replace("-", "_") if l in PLAIN else joined([snake(p) for p in l.split("-")], defined | STD)
        if n in taken:
            n += "_lem"
        if n in taken:
            sys.exit(f"these names fall together: {taken[n] + [l]}")
        taken[n] = [l]
        new[l] = n
    return {k: v for k, v in new.items() if k != v}


def put(text, table):
    return TOKEN.sub(lambda m: table.get(m[0], m[0]), text)


def quoted(text, table):
    return re.sub(r"`[^`\n]*`", lambda m: put(m[0], table), text)


def put_antt(text, table):
    out = []
    for line in text.split("\n"):
        m = re.search(r"(?:^| )(--(?: |-|$))", line)
        i = m.start(1) if m else len(line)
        out.append(put(line[:i], table) + quoted(line[i:], table))
    return "\n".join(out)


def put_rt(text, table):
    """Names stand in `ghost use` lines, in clauses, and in back quotes of comments."""
    text = re.sub(r"ghost use [^;]*;", lambda m: put(m[0], table), text)
    out, i = [], 0
    for m in re.finditer(r"\b(requires|ensures)\b[^\n{]*\{", text):
        if m.start() < i or "//" in text[text.rfind("\n", 0, m.start()) + 1:m.start()]:
            continue
        depth, j = 1, m.end()
        while depth:
            depth += {"{": 1, "}": -1}.get(text[j], 0)
            j += 1
        out += [text[i:m.end()], put(text[m.end():j], table)]
        i = j
    text = "".join(out) + text[i:]
    return re.sub(r"//[^\n]*", lambda m: quoted(m[0], table), text)


def put_edit(text, table):
    """An edit of an .antt file whole, one of code in its clauses alone."""
    out, antt = [], False
    for line in text.split("\n"):
        if line.startswith("file: "):
            antt = line.endswith(".antt")
        elif line.startswith(("old: ", "new: ")) and (antt or re.search(r"ensures|requires|ghost use|≡|⌜", line)):
            line = put(line, table)
        out.append(line)
    return "\n".join(out)


def main():
    table = renamed(*declared())
    if "--list" in sys.argv:
        for k, v in sorted(table.items()):
            print(k, v)
        return
    follow = {n: snake(n).replace("-", "_") for n in PORTED} | {"getD": "get_or"} | table
    turns = [("crates/*/specs/**/*.antt", put_antt, table), ("crates/*/proofs/**/*.antt", put_antt, table), ("crates/*/src/**/*.rt", put_rt, table), ("crates/*/must-fail/*.edit", put_edit, follow), ("README.md", quoted, follow), ("docs/*.md", quoted, follow)]
    for pattern, turn, names in turns:
        for p in sorted(glob.glob(pattern, recursive=True)):
            old = open(p, encoding="utf-8").read()
            new = turn(old, names)
            if new != old:
                open(p, "w", encoding="utf-8").write(new)
    print(f"{len(table)} names respelled")


main()
