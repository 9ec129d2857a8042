#!/usr/bin/env python3
"""Spells this repository's own definitions and lemmas as today's Rattle does: words in snake case, facts like types.

usage: python3 tools/respell.py        at the top of the repository, once, right after /opt/rattle/port/port.py

tools/respelled.tsv has a row for each name: old, a tab, new; a third column names the one file in which the row holds. A name that a file
imports from a library stays in that file. Names that Rattle makes of the source (behind a dot, or of a goal) and Rust's own stay.
Turns crates/*/specs, crates/*/proofs, the clauses of crates/*/src and crates/*/must-fail.
"""

import os
import re
import sys

HERE = os.path.dirname(os.path.abspath(__file__))
WORD = re.compile(r"[^\s(){}.;,@\"«»`]+")
OWN = re.compile(r"Rattle\.(\w+)\.")
CAMEL = re.compile(r"[a-z]\S*[A-Z]")


def rows():
    everywhere, here, fields = {}, {}, set()
    with open(os.path.join(HERE, "respelled.tsv"), encoding="utf-8") as f:
        for line in f:
            cells = line.rstrip("\n").split("\t")
            if cells[0] == "field":
                fields.add(cells[1])
            elif len(cells) == 3:
                here.setdefault(cells[2], {})[cells[0]] = cells[1]
            else:
                everywhere[cells[0]] = cells[1]
    return everywhere, here, fields


def uses(text):
    """(path, items) of each use of the text."""
    for m in re.finditer(r"(?m)^(?:ghost )?(?:pub )?use ([^\s{;]+?)(?:\.\{([^}]*)\})?(?: as (\S+?))?;?$", text):
        yield m[1], [i.strip() for i in (m[2] or "").split(",") if i.strip()], m[3]


def turn_antt(text, table, fields, crates):
    foreign, modules = set(), set()
    for path, items, alias in uses(text):
        own = OWN.match(path + ".")
        if not own or own[1] not in crates or ".declared." in path + "." or re.search(r"\.(Tie|Goals|Given|Statement|Code|Symbol|Met|TheLaws)$", path):
            foreign |= {i.split(" as ")[-1] for i in items}
        elif alias and not re.search(r"\.proofs\.[a-z+]|\.contracts\.", path):
            modules.add(alias)

    def turned(word, before, comment, quoted):
        if word not in table or word in foreign:
            return word
        if comment and not quoted and not CAMEL.match(word):
            return word
        if before.endswith(".") and not before.endswith(".."):
            head = re.search(r"([^\s(){};,@\"«»]+)\.$", before)
            if head and (head[1] in modules or head[1].startswith("Rattle.")):
                return table[word]
            return table[word] if word in fields else word
        return table[word]

    out = []
    for line in text.split("\n"):
        at = re.search(r"(?:^|(?<=\s))--(?=\s|$)", line)
        cut = at.start() if at else len(line)
        new, last = [], 0
        for m in WORD.finditer(line):
            comment = m.start() >= cut
            quoted = comment and line[cut : m.start()].count("`") % 2 == 1
            new.append(line[last : m.start()])
            tail = re.match(r"(.*?)([:!?*]*)$", m[0])
            word, rest = (m[0], "") if m[0] in table or not comment else (tail[1], tail[2])
            new.append(turned(word, line[: m.start()], comment, quoted) + rest)
            last = m.end()
        new.append(line[last:])
        out.append("".join(new))
    return "\n".join(out)


def turn_rt(text, table):
    # Rust's own names are in snake case or begin with a capital, so a word with a hump is a definition's.
    return re.sub(r"(?<![\w'])[a-z][\w']*(?![\w'])", lambda m: table.get(m[0], m[0]) if CAMEL.match(m[0]) else m[0], text)


def main():
    everywhere, here, fields = rows()
    crates = {d for d in os.listdir("crates")}
    for folder, dirs, files in os.walk("crates"):
        dirs[:] = sorted(d for d in dirs if d != "out")
        for name in sorted(files):
            path = os.path.join(folder, name)
            table = {**everywhere, **here.get(path, {})}
            with open(path, encoding="utf-8") as f:
                old = f.read() if name.endswith((".antt", ".rt", ".edit")) else None
            if old is None:
                continue
            if name.endswith(".antt"):
                new = turn_antt(old, table, fields, crates)
            elif name.endswith(".rt"):
                new = turn_rt(old, table)
            else:
                rt = re.search(r"(?m)^file: \S+\.rt$", old)
                new = turn_rt(old, table) if rt else turn_antt(old, table, fields, crates)
            if new != old:
                with open(path, "w", encoding="utf-8") as f:
                    f.write(new)


if __name__ == "__main__":
    sys.exit(main())
