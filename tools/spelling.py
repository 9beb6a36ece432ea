#!/usr/bin/env python3
"""Gives the repository's own definitions and lemmas the spelling of the kit's libraries.

usage: python3 tools/spelling.py          at the top of a checkout: renames, in place, by tools/spelling.txt
       python3 tools/spelling.py --make   writes tools/spelling.txt from the checkout, and prints what to look at

Definitions, lemmas, fields, constructors and local names are in snake case; types, propositions and modules keep their
capitals. A dash stays between two functions that a lemma's statement names (`patch-length`), and is `_` elsewhere
(`start_leaves`). A lemma that would have its function's name ends in `_lem`. Names of the kit, of the source and those
that Rattle makes keep their spelling, and so do names that only a function's Proof.antt declares.

The mapping is made once and then only applied, once to a checkout, so that two checkouts give one name the same new
name. --make prints the new names that are another's already, that the kit or the language has, and that stand in a file
beside the old one; the tables CHOSEN and MOVED settle them.
"""

import collections
import os
import re
import sys

MAPPING = os.path.join(os.path.dirname(os.path.realpath(__file__)), "spelling.txt")

# new names that the rule does not give
CHOSEN = {
    # constructors and fields, which have no name of a lemma
    "aValue": "some_value",
    "a-value": "a_value",
    "global-kind": "kind_of_global",
    "source-kind": "kind_of_source",
    "sink-kind": "kind_of_sink",
    "source-count": "count_of_sources",
    "sink-count": "count_of_sinks",
    "table-byte": "byte_of_table",
    "point-shape": "shape_at_point",
    "too-deep": "out_of_depth",
    "in-sequence": "in_its_sequence",
    "in-d": "is_d",
    "in-D": "in_d",
    "in-R": "in_r",
    "in-S": "in_sink",
    # names of older checkouts
    "patch-cons": "patch_cons",
    "patch-none": "patch_none",
}

# names that today's kit has for something else, or spells otherwise; they are renamed in code alone
TAKEN = {"ground": "grounded", "Iff·trans": "iff_trans"}

# modules of specs/ whose names the kit now makes itself
MODULES = {"Contracts": "Clauses"}

# names in snake case that another's new name takes: their own new names, and the crates whose proofs have them. The
# source has some of these names too, and keeps them.
MOVED = {
    "by_first": "by_first_lem join",
    "has_words": "has_words_lem remus",
    "in_r": "rank_of join",
    "is_number": "is_number_lem value",
    "joined_length": "joined_length_lem join",
    "made_by": "made_by_lem image",
    "no_cell": "no_cell_lem machine",
    "one_deeper": "one_deeper_lem image",
    "own_runs": "own_runs_lem haai",
    "row_fits": "row_fits_lem haai",
    "sinks_in": "sinks_in_lem haai join",
    "tables_end": "tables_end_lem join",
    "whole_length": "whole_length_lem haai",
}

# functions of the kit that a dash joins
LISTS = set("length take drop set replicate get_or map sum append filter reverse min max".split())

RESERVED = set(
    "data record deriving module where use mod pub package open as unfoldable abbrev axiom unfold unfolding ruleset "
    "mutual infix infixl infixr elim let in do rule pattern coe fcoe tcoe hcom com rw grw simp search cc omega grind "
    "hlevel assumption first_of cap ground syntax Type V vin vproj in_s out_s yes no refl tt absurd arith rules".split()
)

TOKEN = r"[^\s(){};,.@\"`«»]+"
PATH = r"(?P<path>\b(?:use|mod) +[\w.:]+)"
ANTT = re.compile(r"(?P<string>\"(?:\\.|[^\"\\\n])*\")|(?P<comment>--[^\n]*|\{-.*?-\})|" + PATH + "|(?P<name>" + TOKEN + ")", re.S)
RT = re.compile(
    r"(?P<string>\"(?:\\.|[^\"\\])*\"|(?<![\w'])b?'(?:\\.[^']*|[^'\\\n])')|(?P<comment>//[^\n]*)|"
    + PATH + "|(?P<name>" + TOKEN + ")", re.S,
)
DECLARED = re.compile(
    r"^( *)((?:(?:abbrev|pattern|unfoldable|pub|data|record|ruleset|syntax)\s+)*)(" + TOKEN + r")(?:\s[^\n]*?)?\s:(?:\s|$)", re.M
)
IMPORT = re.compile(r"\buse ([^\s{]+)\.\{([^}]*)\}")


def paths():
    """The files that may hold names of the repository's own, with their kinds."""
    for folder, dirs, files in os.walk("."):
        dirs[:] = sorted(d for d in dirs if d not in (".git", "out", "target"))
        for f in sorted(files):
            kind = os.path.splitext(f)[1][1:]
            if kind in ("antt", "rt", "edit", "md"):
                yield os.path.relpath(os.path.join(folder, f)), kind


def read(path):
    with open(path, encoding="utf-8", newline="") as f:
        return f.read()


def is_proof(path):
    """Whether the file is the proof of a function."""
    return os.path.basename(path) == "Proof.antt"


def is_in_proofs(path):
    return path.split("/")[2:3] == ["proofs"]


# ---- the new spelling of a name

def is_odd(name):
    """Whether the name is no type's and has an inner capital or a dash."""
    first = re.split(r"[^\w']", name)[0]
    if not first or re.match(r"[A-Z]+[a-z]", first) or "\u25cc" in name or "\u00b7" in name:
        return False
    return bool(re.search(r".-|.[A-Z]", name)) and name != first.upper()


def snake(part):
    """A part of a name in snake case, a type's name unchanged."""
    if re.match(r"[A-Z]+[a-z]", part):
        return part
    part = re.sub(r"([a-z0-9'\u2080-\u2089])([A-Z])", r"\1_\2", part)
    return re.sub(r"([A-Z])([A-Z][a-z])", r"\1_\2", part).lower()


def spell(name, functions):
    """The new spelling: a dash stays between two parts that name functions, and is an underscore elsewhere."""
    parts = [snake(p) for p in name.split("-")]
    units = []
    while parts:
        n = next((n for n in range(len(parts), 1, -1) if "_".join(parts[:n]) in functions), 1)
        units.append("_".join(parts[:n]))
        parts = parts[n:]
    text = units[0]
    for a, b in zip(units, units[1:]):
        text += ("-" if a in functions and b in functions else "_") + b
    return text


# ---- applying the mapping

def prose(text, names):
    """Words in backticks, and in the rest those with an inner capital and no dash."""
    parts = re.split(r"(`[^`\n]*`)", text)
    return "".join(
        re.sub(TOKEN, lambda m: names.get(m[0], m[0]) if p[0] == "`" or "-" not in m[0] else m[0], p) for p in parts if p
    )


def code(text, path, kind, names, moved, source):
    """The tokens of a file, or of a line of it; what stands in a string or a path stays."""
    if is_in_proofs(path):
        names = names | moved.get(path.split("/")[1], {})

    def new(m):
        if m["comment"]:
            return prose(m[0], names)
        n = m["name"]
        if n in TAKEN:
            return TAKEN[n]
        if n not in names:
            return m[0]
        if text[m.start() - 1 : m.start()] == "." and is_proof(path) and n.replace("-", "_") in source:
            return n  # a step, which has the name of the function that is called
        return names[n]

    return (RT if kind == "rt" else ANTT).sub(new, text)


def edit(text, names):
    """An edit that must fail: its first line is prose, and `file:` has a path."""
    lines = text.split("\n")
    kind = "rt" if re.search(r"^file: .*\.rt$", text, re.M) else "antt"
    within = False
    for i, line in enumerate(lines):
        m = re.match(r"(\w+): ?", line)
        if m and m[1] in ("old", "new"):
            within = True
        elif m and m[1] == "file":
            within = False
            continue
        lines[i] = code(line, "", kind, names, {}, set()) if within else prose(line, names)
    return "\n".join(lines)


def document(text, names):
    """Words in backticks, and blocks of text or of antt."""
    parts = re.split(r"(^```[^\n]*\n.*?^```$)", text, flags=re.M | re.S)
    for i, p in enumerate(parts):
        if not p.startswith("```"):
            parts[i] = prose(p, names)
        elif re.match(r"```(text|antt|agda|rust)?\n", p):
            parts[i] = re.sub(TOKEN, lambda m: names.get(m[0], m[0]), p)
    return "".join(parts)


def mapping():
    """The names, and for each crate those of its proofs alone."""
    names, moved = {}, collections.defaultdict(dict)
    for line in read(MAPPING).splitlines():
        old, new, *crates = line.split()
        for c in crates:
            moved[c][old] = new
        if not crates:
            names[old] = new
    return names, moved


def modules():
    """Renames the modules of MODULES, and the paths to them."""
    for path, _ in list(paths()):
        old = new = read(path)
        for a, b in MODULES.items():
            new = re.sub(rf"\bspecs\.{a}\b", f"specs.{b}", new)
            new = re.sub(rf"\bspecs/{a}\.antt\b", f"specs/{b}.antt", new)
            new = re.sub(rf"^((?:pub )?mod ){a}$", rf"\g<1>{b}", new, flags=re.M)
        if new != old:
            with open(path, "w", encoding="utf-8", newline="") as f:
                f.write(new)
        for a, b in MODULES.items():
            if path.endswith(f"/specs/{a}.antt"):
                os.rename(path, path[: -len(f"{a}.antt")] + f"{b}.antt")


def apply():
    modules()
    names, moved = mapping()
    source = {n for p, k in paths() if k == "rt" for n in re.findall(r"\bfn (\w+)", read(p))}
    files = changed = 0
    for path, kind in list(paths()):
        old = read(path)
        if kind == "md":
            new = document(old, names)
        elif kind == "edit":
            new = edit(old, names)
        else:
            new = code(old, path, kind, names, moved, source)
        files += 1
        if new != old:
            changed += 1
            with open(path, "w", encoding="utf-8", newline="") as f:
                f.write(new)
    print(f"spelling: {len(names)} names, {changed} of {files} files changed")


# ---- making the mapping

def tokens(path, kind, text):
    """The names in a file, with their lines."""
    for m in (RT if kind == "rt" else ANTT).finditer(text):
        if m["name"]:
            yield m["name"], text.count("\n", 0, m.start()) + 1


def told():
    """Names in documents, comments and edits that no code has: those of definitions that were respelled before."""
    found, had = set(), set()
    for p, k in paths():
        t = read(p)
        if k in ("antt", "rt"):
            had.update(n for n, _ in tokens(p, k, t))
            t = "\n".join(m["comment"] or "" for m in (RT if k == "rt" else ANTT).finditer(t))
        found.update(re.findall(TOKEN, t) if k == "edit" else re.findall(TOKEN, " ".join(re.findall("`[^`\n]*`", t))))
    return found - had


def make():
    crates = set(os.listdir("crates"))
    files = [(p, k, read(p)) for p, k in paths() if k in ("antt", "rt") and p.startswith("crates/")]
    declared = collections.defaultdict(set)  # name -> where
    stated = collections.defaultdict(set)  # name -> the names in its statement
    functions, foreign, odd = set(LISTS), set(), set()
    for p, k, t in files:
        for m in IMPORT.finditer(t):
            own = m[1].startswith("Rattle.") and m[1].split(".")[1] in crates
            if not own or m[1].split(".")[-1] in ("Proof", "Statement", "Tie"):
                foreign.update(e.split()[0] for e in m[2].split(",") if e.strip())
        if k != "antt":
            continue
        for m in DECLARED.finditer(t):
            declared[m[3]].add(p)
            if "/specs/" in p and not m[1] and not m[3][0].isupper():
                functions.add(snake(m[3]))
            end = re.compile(r"^ {0,%d}\S" % len(m[1]), re.M).search(t, m.end(3))
            stated[m[3]].update(snake(n) for n, _ in tokens(p, k, t[m.end(3) : end.start() if end else len(t)]))
        if not is_proof(p):
            odd.update(n for n, _ in tokens(p, k, t) if is_odd(n))

    names = {n: spell(n, functions & stated[n]) for n in sorted(odd - foreign)} | CHOSEN
    taken = {v for n, v in names.items() if "-" not in n} | (set(declared) - set(names))
    lemmas = [n for n, v in names.items() if "-" in n and n != v and v in taken and n not in CHOSEN]
    for n in lemmas:
        names[n] += "_lem"
    stale = {n: spell(n, set()) for n in told() if is_odd(n) and n not in names and n not in foreign}
    stale = {n: v for n, v in stale.items() if v in declared}
    names |= stale
    lines = [f"{n} {v}\n" for n, v in names.items() if n != v] + [f"{n} {v}\n" for n, v in MOVED.items()]
    with open(MAPPING, "w", encoding="utf-8") as f:
        f.writelines(sorted(lines))

    print(f"{len(lines)} names; {len(names) + len(MOVED) - len(lines)} more are right already, "
          f"{sum('-' in v for v in names.values())} have a dash, {len(lemmas)} got _lem")
    print("only documents, comments and edits have them still:", *sorted(stale))
    print("got _lem:", *(names[n] for n in lemmas))
    print("left, of the kit:", *sorted(odd & foreign))
    print("left, of the kit and declared here:", *sorted(odd & foreign & set(declared)))
    back = collections.defaultdict(list)
    for n, v in [*names.items(), *((n, v.split()[0]) for n, v in MOVED.items())]:
        if n not in stale:
            back[v].append(n)
    for v, ns in sorted(back.items()):
        if len(ns) > 1:
            print("one new name for two:", v, *ns)
        if v in declared and v not in names and v not in MOVED:
            print("declared already:", v, *ns, *sorted(declared[v]))
        if v in foreign and v not in ns:
            print("imported from the kit:", v, *ns)
        if v in RESERVED:
            print("a word of the language:", v, *ns)
    for p, k, t in files:
        at = collections.defaultdict(list)
        for n, line in tokens(p, k, t):
            at[n].append(line)
        for n in sorted(set(at) & set(names)):
            v = names[n]
            if v != n and v in at and p.split("/")[1] not in MOVED.get(v, "").split():
                print(f"beside it: {p}: {n} {at[n]} -> {v} {at[v]}")
            if k == "rt" and re.search(r"\b(?:fn|let|mut|const|static|for) %s\b|\b%s:(?!:)" % (n, n), t):
                print("a name of the source:", p, n)


if __name__ == "__main__":
    if sys.argv[1:] == ["--make"]:
        make()
    elif not sys.argv[1:]:
        apply()
    else:
        sys.exit(__doc__)
