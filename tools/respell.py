#!/usr/bin/env python3
"""Brings the repository's own definitions and lemmas to snake case. Run at the top, once, right after the kit's port.py:
four new names are old ones too (as `read_back`), so that a second run would turn definitions into lemmas' names.

A definition, a lemma or a field whose name begins with a small letter is written in snake case. A dash stays where it
joins the names of two functions, as in `bit-from_bits`; any other dash becomes an underscore. A lemma that would have
the name of a function of the repository gets `_lem`. Types and facts keep their capitals. It goes by spelling: in an
.antt file every word that is spelled like a row turns, names of goals and words of comments too, and what should not
have turned is mended by hand; in an .rt file strings stay, and a row without a capital or a dash is not used. Names that
a file imports from std are no rows. The rows, old and new, stand in respelled.tsv beside this script, so that it turns
an older commit alike.

usage: respell.py           turns every .antt and .rt file below crates/ by the rows
       respell.py --rows    writes the rows from the files as they are, where there are none yet, and prints each new name
                            that was a word before
"""

import collections
import os
import re
import sys

HEAD = re.compile(r"(\s*)(?:unfoldable |abbrev )?(?:pub )?([^\s:{()=;,]+) : ")
WORD = re.compile(r"[^\s(){}.;,@\"«»`]+")
ROWS = os.path.join(os.path.dirname(os.path.realpath(__file__)), "respelled.tsv")
GOALS = ("Answers.antt", "Invariants.antt", "Proof.antt")
# words of the library that lemmas here are named by
LIBRARY = {"length", "take", "drop", "map", "append", "get_or", "cond", "not", "min", "and", "or", "replace"}
LIBRARY_SPELLING = {"getD": "get_or"}


def files(kind):
    for folder, dirs, names in os.walk("crates"):
        dirs[:] = sorted(d for d in dirs if d not in ("out", ".git"))
        for name in sorted(names):
            if name.endswith(kind):
                yield os.path.join(folder, name)


def read(path):
    with open(path, encoding="utf-8") as f:
        return f.read()


def code_lines(text):
    return (line for line in text.splitlines() if not line.lstrip().startswith("--"))


def library_words():
    """What the files import from std: these words are not the repository's."""
    words = set()
    for path in files(".antt"):
        for names in re.findall(r"^(?:pub )?use Rattle\.std\.[^{\n]*\{([^}]*)\}", read(path), re.M):
            words |= set(WORD.findall(names))
    return words


def snake(part):
    part = LIBRARY_SPELLING.get(part, part)
    return re.sub(r"(?<=[a-z0-9])([A-Z])", lambda m: "_" + m.group(1), part).lower() if part[:1].islower() else part


def collect():
    """The names of definitions, lemmas and fields of the repository's own, each with what it is."""
    kinds = collections.defaultdict(set)
    for path in files(".antt"):
        if os.path.basename(path) in GOALS:
            continue
        where = "spec" if "/specs/" in path else "lemma"
        for line in code_lines(read(path)):
            m = HEAD.match(line)
            if m:
                kinds[m.group(2)].add("field" if m.group(1) else where)
    return kinds


def rows(kinds):
    functions = LIBRARY | {snake(n) for n, k in kinds.items() if "spec" in k and n[:1].islower() and "-" not in n}
    spelled = {}
    library = library_words()
    for name, kind in kinds.items():
        if not name[:1].islower() or name in library:
            continue
        parts = [snake(p) for p in name.split("-")]
        new = parts[0]
        for left, right in zip(parts, parts[1:]):
            joins = kind != {"field"} and left in functions and right in functions
            new += ("-" if joins else "_") + right
        spelled[name] = new
    # a lemma that would have the name of its function
    by_new = collections.defaultdict(list)
    for name, new in spelled.items():
        by_new[new].append(name)
    for new, names in by_new.items():
        if len(names) > 1:
            lemmas = [n for n in names if "spec" not in kinds[n] and not re.fullmatch(r"\w*[a-z][A-Z]\w*", n)]
            if len(lemmas) != len(names) - 1:
                raise SystemExit(f"fall together: {' '.join(names)}")
            for n in lemmas:
                spelled[n] = new + "_lem"
    return {old: new for old, new in spelled.items() if old != new}


def turn_words(text, turned):
    return WORD.sub(lambda m: turned.get(m.group(0), m.group(0)), text)


def turn_source(text, turned):
    """A .rt file: everything but quoted text. A Rattle name has neither a capital inside nor a dash."""
    parts = re.split(r'("(?:\\.|[^"\\\n])*")', text)
    return "".join(p if p.startswith('"') else turn_words(p, turned) for p in parts)


def write_rows():
    if os.path.exists(ROWS):
        raise SystemExit(f"{ROWS} is there already")
    turned = rows(collect())
    seen = set()
    for path in files(".antt"):
        seen |= set(WORD.findall(read(path)))
    with open(ROWS, "w", encoding="utf-8") as f:
        for old, new in sorted(turned.items()):
            f.write(f"{old}\t{new}\n")
            if new in seen:
                print(f"look: {new} from {old}, a word before")


def read_rows():
    return dict(line.rstrip("\n").split("\t") for line in open(ROWS, encoding="utf-8"))


def main():
    if "--rows" in sys.argv:
        write_rows()
        return
    turned = read_rows()
    in_source = {old: new for old, new in turned.items() if re.search("[A-Z]|-", old)}
    for kind, words, turn in ((".antt", turned, turn_words), (".rt", in_source, turn_source)):
        for path in files(kind):
            text = read(path)
            new = turn(text, words)
            if new != text:
                with open(path, "w", encoding="utf-8") as f:
                    f.write(new)


main()
