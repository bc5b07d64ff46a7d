#!/usr/bin/env python3
"""Brings the repository's own names of definitions, lemmas, fields and variables of proofs to snake case.

usage: tools/respell.py [--table]      at the top of the repository, once, right after the toolchain's port.py

    blocksRpo, getD-mem, well-formed  ->  blocks_rpo, get_or_mem, well_formed

Names that a library declares, names that the toolchain makes for proofs (behind `tie.` and `c.`), functions, types and modules keep their
spelling; so do strings and prose. A name is the repository's own where one of its .antt files declares it. --table prints old and new.
It names the places where two names of one file would fall together, and its status is then 1.
"""
import collections
import glob
import os
import re
import sys

WORD = r"[A-Za-z_][\w'′₀-₉-]*"
TOKEN = re.compile(r"--[^\n]*|//[^\n]*|\"(?:[^\"\\]|\\.)*\"|" + WORD)
LIBRARY = re.compile(r"^\s*(?:pub |ghost )*use (?!Rattle\.(?:plank_core|sir_|report|chart|replay|refusals|sets_limits))[^\s{]*\.\{([^}]*)\}", re.M)


def snake(name):
    name = name.replace("getD", "get_or").replace("-", "_")
    # a capital inside a name that begins small
    return re.sub(r"(?<=[a-z0-9])([A-Z])", lambda m: "_" + m.group(1).lower(), name)


def wants(name):
    return name[0].islower() and ("-" in name or re.search(r"[a-z0-9][A-Z]", name)) and not name.endswith("-")


def antt_files():
    return sorted(glob.glob("crates/*/specs/**/*.antt", recursive=True) + glob.glob("crates/*/proofs/**/*.antt", recursive=True))


def code(text):
    return re.sub(r"--[^\n]*", "", text)


def record_fields(text):
    """The names of the fields of records."""
    inside = None
    for line in text.split("\n"):
        if not line.strip():
            continue
        depth = len(line) - len(line.lstrip())
        if inside is not None and depth <= inside:
            inside = None
        if inside is not None:
            m = re.match(r"\s*(?:pub )?(%s(?: +%s)*) +:(?= |$)" % (WORD, WORD), line)
            if m:
                yield from m.group(1).split()
        elif re.match(r"\s*(?:pub )?record \w", line) and line.rstrip().endswith("where"):
            inside = depth


def declared(texts):
    """The names that the repository declares, which of them are fields, which are rows of tables of examples, and what libraries
    declare of what is imported."""
    names, fields, rows, library = set(), set(), set(), set()
    for text in texts.values():
        plain = code(text)
        for group in LIBRARY.findall(plain):
            for item in group.split(","):
                library.add(item.strip().split(" as ")[-1].strip())
        for m in re.finditer(r"^(\s*)((?:pub |abbrev |unfoldable |data |record )*)(%s(?: +%s)*) +:(?= |$)" % (WORD, WORD), plain, re.M):
            names.update(m.group(3).split())
        fields.update(record_fields(plain))
        names.update(re.findall(r"\blet (%s)" % WORD, plain))
        for group in re.findall(r"[({]((?:%s )+): " % WORD, plain):
            names.update(group.split())
        rows.update(re.findall(r"^abbrev (?:pub )?(%s) : Row$" % WORD, plain, re.M))
    return names - library, fields - library, rows, library


def new_names(names, fields, rows, library):
    """Old to new. A definition keeps its name; a lemma that would have it too gets `_lem`, a field `_fact`, a row `_row`."""
    taken = library | {n for n in names if "_" in n and "-" not in n} | {snake(n) for n in names if "-" not in n and wants(n)}
    table = {}
    for n in names:
        if wants(n):
            table[n] = snake(n)
            if "-" in n and table[n] in taken:
                table[n] += "_row" if n in rows else "_fact" if n in fields else "_lem"
    # lemmas that port.py has spelled as the definitions that they speak of are spelled from now on
    table.update((n, n + "_lem") for n in ("same_set", "first_reach"))
    return table


def main():
    texts = {p: open(p, encoding="utf-8").read() for p in antt_files()}
    names, fields, rows, library = declared(texts)
    table = new_names(names, fields, rows, library)
    if "--table" in sys.argv:
        for old in sorted(table):
            print(old, table[old])
        return 0
    clash = False
    for p, text in texts.items():
        seen = collections.defaultdict(set)
        for m in TOKEN.finditer(code(text)):
            t = m.group(0)
            if t[0] != '"':
                seen[table.get(t, t)].add(t)
        for new, olds in seen.items():
            if len(olds) > 1:
                print(f"falls together in {p}: {new} from {', '.join(sorted(olds))}")
                clash = True

    def turned(text, path):
        is_antt = path.endswith(".antt")

        def one(m):
            t = m.group(0)
            if t.startswith("--") or t.startswith("//"):
                return re.sub(r"`([^`]*)`", lambda q: "`" + re.sub(WORD, lambda w: table.get(w.group(0), w.group(0)), q.group(1)) + "`", t)
            if t[0] == '"' or t not in table:
                return t
            before = text[: m.start()]
            if before.endswith(".") and not before.endswith(".."):
                # behind a module, a name; behind `tie`, what the toolchain makes; else a field
                module = re.search(r"(?<![\w.])[A-Z]\w*\.$", before)
                if not module and (re.search(r"\btie\.$", before) or t not in fields):
                    return t
            if "-" in t and not is_antt:
                line = before[before.rfind("\n") + 1:]
                if not re.match(r"\s*(requires|ensures|ghost|old:|new:|at:|false:)", line):
                    return t
            return table[t]

        return TOKEN.sub(one, text)

    others = sorted(glob.glob("crates/*/src/**/*.rt", recursive=True) + glob.glob("crates/*/must-fail/*.edit") + glob.glob("edits/*/*.edit"))
    changed = 0
    for p in list(texts) + others:
        text = texts.get(p) or open(p, encoding="utf-8").read()
        if p.endswith(".edit"):
            lines = text.split("\n")
            new = "\n".join(turned(l, p) if re.match(r"(old|new|at|false):", l) else l for l in lines)
        else:
            new = turned(text, p)
        if new != text:
            changed += 1
            open(p, "w", encoding="utf-8").write(new)
    # documents name them in backquotes
    for p in sorted(glob.glob("docs/**/*.md", recursive=True) + ["README.md"]):
        text = open(p, encoding="utf-8").read()
        new = re.sub(r"`([^`\n]*)`", lambda q: "`" + re.sub(WORD, lambda w: table.get(w.group(0), w.group(0)), q.group(1)) + "`", text)
        if new != text:
            changed += 1
            open(p, "w", encoding="utf-8").write(new)
    print(f"respelled: {len(table)} names, {changed} files")
    return 1 if clash else 0


sys.exit(main())
