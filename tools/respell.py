#!/usr/bin/env python3
"""Spells the repository's own definitions and lemmas in snake case: loadAt and load-at become load_at.

usage: tools/respell.py [--check]      at the top of the repository, once, as port.py left it

It refuses a tree in which it ran. It goes over crates/*/specs, crates/*/proofs the clauses of crates/*/src and the names in backquotes in README.md and docs/. A name is the repository's own if a file of specs/ or a file of
lemmas declares it. It stays in a file that takes it from a library. A lemma that would get the name of a definition, somewhere in one file, gets _lem
behind it. A definition that a contract has under an alias with a dot or a dash in it (past as Split·past) is called by its own name there. --check writes
nothing and lists the names that would fall together with another of the same file.
"""
import collections
import glob
import os
import re
import sys

WORD = re.compile(r'[^\s(){}.;,@"«»]+')
QUIET = re.compile(r'"(?:[^"\\\n]|\\.)*"')
DECLARED = re.compile(r"(?m)^ *(?:(?:pub|abbrev|unfoldable|data|record|\|) )*([^\s(){}.;,@\"«»:|]+)(?: \{[^{}\n]*\}| \([^()\n]*\))* :(?=\s)")
CASE = re.compile(r"(?m)^  (?:pub )?([a-z][^\s(){}.;,@\"«»:|]*) :(?=\s)")
USE = re.compile(r"\buse ([^\s;{]+)(\{[^;]*?\})?")
# Lemmas that have the name which a definition of the same file gets.
LEMMAS = "word_after each_row second_from look_in plain_end plain_step nothing_left in_window same_way".split()
SPAN = re.compile(r"`([^`\n]+)`")
CLAUSE = re.compile(r"(?:requires|ensures)\s*\*?\s*(?:\w+\s*)?\{|ghost\s+\w+\s*(?::|=)?\s*\{|ghost\s+use\b[^;]*;")


def snake(name):
    return re.sub(r"(?<=[a-z0-9])[A-Z]", lambda m: "_" + m[0].lower(), name).replace("-", "_")


def own(path, crates):
    steps = path.strip(".").split(".")
    return steps[0] == "Rattle" and len(steps) > 1 and steps[1] in crates


def files(top):
    for folder, dirs, names in os.walk(top):
        dirs[:] = sorted(d for d in dirs if d not in ("out", ".git"))
        for name in sorted(names):
            if name.endswith((".antt", ".rt")):
                yield os.path.join(folder, name)


def of_function(path):
    steps = path.split(os.sep)
    return "proofs" in steps and len(steps) - steps.index("proofs") > 2


def comment_at(line):
    m = re.search(r"(?<![^\s(){}.;,])--", line)
    return m.start() if m else len(line)


def turn(text, table, dotted):
    """The text with each word of the table turned; behind a dot only the words of dotted."""
    def one(m):
        w = m[0]
        if w not in table:
            return w
        if text[m.start() - 1 : m.start()] == "." and w not in dotted:
            return w
        return table[w]

    return WORD.sub(one, text)


def turn_antt(text, table, dotted):
    """Comments have a lemma's name only in backquotes, and else words of prose with a hyphen."""
    prose = {n: s for n, s in table.items() if "-" not in n}
    lines = []
    for line in text.split("\n"):
        at = comment_at(line)
        lines.append(turn(line[:at], table, dotted) + turn_prose(line[at:], prose, table))
    return "\n".join(lines)


def turn_prose(text, prose, table):
    return SPAN.sub(lambda m: "`" + turn(m[1], table, table) + "`", turn(text, prose, prose))


def closing(text, at):
    depth = 1
    for k in range(at, len(text)):
        depth += {"{": 1, "}": -1}.get(text[k], 0)
        if depth == 0:
            return k
    return len(text)


def turn_rt(text, table):
    out, at = [], 0
    for m in CLAUSE.finditer(text):
        if m.start() < at:
            continue
        if m[0].endswith(";"):
            out += [text[at : m.start()], turn(m[0], table, table)]
            at = m.end()
        else:
            end = closing(text, m.end())
            out += [text[at : m.end()], turn(text[m.end() : end], table, table)]
            at = end
    text = "".join(out + [text[at:]])
    prose = {n: s for n, s in table.items() if "-" not in n}
    return re.sub(r"//[^\n]*", lambda m: turn_prose(m[0], prose, table), text)


def without_aliases(text):
    """The text with the definitions that it takes under an alias with a dot or a dash called by their own names."""
    aliases = re.findall(r"\b(\w+) as ([A-Z]\w*[·-]\w+)", text)
    for name, alias in aliases:
        text = text.replace(f"{name} as {alias}", name)
        text = re.sub(rf"(?<![\w·-]){re.escape(alias)}(?![\w·-])", name, text)
    return text


def turn_page(text, table):
    """In a page the names stand in backquotes."""
    return SPAN.sub(lambda m: "`" + turn(m[1], table, table) + "`", text)


def main(check):
    crates = set(os.listdir("crates"))
    texts = {p: open(p, encoding="utf-8").read() for p in files("crates")}
    declared = set()
    for p, t in texts.items():
        if p.endswith(".antt") and not of_function(p):
            declared.update(DECLARED.findall(t))
            declared.update(CASE.findall(t))
    if any(n + "_lem" in declared for n in LEMMAS):
        print("respell.py ran here before: nothing was changed")
        return 1
    table = {n: snake(n) for n in declared if n[0].islower() and snake(n) != n}
    for p, t in texts.items():
        here = set(WORD.findall(t))
        for n in here & set(table):
            if "-" in n and any(m != n and snake(m) == snake(n) for m in here & (declared | set(table))):
                table[n] = snake(n) + "_lem"
    lemmas = {n: n + "_lem" for n in LEMMAS}
    said, stay = [], collections.defaultdict(set)
    for p, t in sorted(texts.items()):
        code = "\n".join(l[: comment_at(l)] for l in t.split("\n")) if p.endswith(".antt") else "\n".join(m[0] if m[0].endswith(";") else t[m.start() : closing(t, m.end())] for m in CLAUSE.finditer(t))
        taken = set()
        for path, items in USE.findall(code):
            if not own(path, crates):
                taken.update(WORD.findall(items) or path.split(".")[-1:])
        here = set(WORD.findall(code))
        own_lemmas = {} if of_function(p) or p.endswith(".rt") else lemmas
        here = {own_lemmas.get(n, n) for n in here}
        for n in sorted(here & set(table)):
            if n in taken:
                stay[p].add(n)
                said.append(f"{p}: {n} is a library's here")
        new = collections.defaultdict(list)
        for n in here:
            s = table.get(n, n) if n not in stay[p] else n
            new[s].append(n)
        for s, olds in sorted(new.items()):
            if len(olds) > 1:
                said.append(f"{p}: {', '.join(sorted(olds))} fall together as {s}")
        if p.endswith(".rt"):
            rust = set(re.findall(r"\w+", re.sub(r"//[^\n]*", "", t)))
            for n in here & set(table):
                if table[n] in rust:
                    params = re.search(rf"[(,]\s*(?:mut )?{table[n]}\s*:|let (?:mut )?{table[n]}\b", t)
                    said.append(f"{p}: {n} becomes {table[n]}, which the Rust has{' as a PARAMETER' if params else ''}")
    for line in said:
        print(line)
    changed = 0
    for p, t in texts.items():
        rows = {n: s for n, s in table.items() if n not in stay[p]}
        if p.endswith(".rt"):
            new = without_aliases(turn_rt(t, rows))
        else:
            dotted = {n for n in rows if "-" not in n} if of_function(p) else rows
            rows = rows if of_function(p) else {**lemmas, **rows}
            new = turn_antt(t, rows, dotted)
        if new != t:
            changed += 1
            if not check:
                with open(p, "w", encoding="utf-8") as f:
                    f.write(new)
    for p in ["README.md"] + sorted(glob.glob("docs/*.md") + glob.glob("docs/changes/*.md")):
        with open(p, encoding="utf-8") as f:
            old = f.read()
        new = turn_page(old, {**lemmas, **table})
        if new != old:
            changed += 1
            if not check:
                with open(p, "w", encoding="utf-8") as f:
                    f.write(new)
    print(f"{len(table)} names, {changed} files")
    return 0


if __name__ == "__main__":
    sys.exit(main("--check" in sys.argv[1:]))
