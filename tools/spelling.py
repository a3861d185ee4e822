#!/usr/bin/env python3
"""Brings the definitions and lemmas of crates/ to today's spelling: words in snake case, types and modules in camel case.

usage: python3 tools/spelling.py        at the top, once, right after the port's own script

A name that is declared in specs/ or in a lemma file of proofs/ turns everywhere: in .antt files, in the ghost clauses of .rt files and
in the edits of must-fail/. In a lemma's name a dash stays behind the name of a definition (length-words); any other dash, and any capital
inside a word, becomes an underscore. A name stays as it is where the new one is taken. What a library has, and what the source has, stays.
The table of what turned is printed.
"""

import collections
import glob
import os
import re
import sys

WORD = re.compile(r'[^\s(){}.;,@"«»\[\]]+')
HEAD = re.compile(r"(?m)^( *)((?:(?:abbrev|unfoldable|pub|opaque)\s+)*)([^\s(){}.;,@\"«»:\[\]]+)((?: [({][^\n]*?[)}])*) :(?=\s)")
RECORD = re.compile(r"(?m)^(?:(?:abbrev|pub)\s+)*(?:record|data)\s+([^\s(){}.;,@\"«»:]+)")
USE = re.compile(r"(?m)\buse ([^\s;{]+)\{([^}]*)\}")
GHOST_USE = re.compile(r"\bghost use ([^\s;{]+)\{([^}]*)\}")
# words of several parts that std has under the dash, in names that join two words
STD = set("length get_or set eqb ltb leb suc add mul sub not take drop map any all sum".split())

# where two words would fall together
CHOSEN = {
    "noPlace": "names_no_place",
    "in-slice": "in_the_slice",
    "onePlace": "one_place_plan",
    "readAt": "wanted_read",
    "stays-linked": "keeps_linked",
    "transition-origins": "origins_of_transitions",
}


def read(path):
    with open(path, encoding="utf-8") as f:
        return f.read()


def code_of(text):
    return re.sub(r"(?m)(?<![^\s(){}.;,@\"])--.*$", "", text)


def main():
    antt = sorted(glob.glob("crates/*/specs/**/*.antt", recursive=True) + glob.glob("crates/*/proofs/**/*.antt", recursive=True))
    own = [p for p in antt if "/specs/" in p or os.path.dirname(p).endswith("/proofs")]
    rust = sorted(glob.glob("crates/*/src/**/*.rt", recursive=True))
    text = {p: read(p) for p in antt + rust}
    declared, lent, words = set(), set(), collections.defaultdict(set)
    definitions, fields = set(STD), set()
    for p in own:
        code = code_of(text[p])
        for m in HEAD.finditer(code):
            declared.add(m.group(3))
            if "/specs/" in p:
                (fields if m.group(1) else definitions).add(m.group(3))
        for block in re.findall(r"(?m)^(?:(?:abbrev|pub)\s+)*record [^\n]*\n((?:[ ]+[^\n]*\n|\n(?= ))*)", code):
            fields |= {m.group(3) for m in HEAD.finditer(block) if m.group(1)}
        for m in RECORD.finditer(code):
            definitions.add(m.group(1))
    for p in antt + rust:
        for m in (USE if p in antt else GHOST_USE).finditer(text[p]):
            other = [w.strip().split(" as ")[1] for w in m.group(2).split(",") if " as " in w]
            declared |= {w for w in other if re.search(r"[a-z0-9][A-Z]", w)}
            if not m.group(1).startswith("Rattle.") or m.group(1).startswith("Rattle.std."):
                lent |= {w.strip().split(" as ")[0] for w in m.group(2).split(",")}
        if p in antt:
            for w in set(WORD.findall(re.sub(r"(?m)\b(?:use )?Rattle\.[\w.+-]*", " ", code_of(text[p])))):
                words[w].add(p)
    def turned(name):
        def camel(w):
            if not w or not (w[0].islower()):
                return w
            return re.sub(r"(?<=[a-z0-9])([A-Z])", lambda m: "_" + m.group(1).lower(), w)

        parts = name.split("-")
        if name in fields and name not in definitions:
            return "_".join(map(camel, parts))
        out = camel(parts[0])
        seen = parts[0]
        for q in parts[1:]:
            joins = seen in definitions or (seen[:1].isupper())
            out += ("-" if joins else "_") + camel(q)
            seen = seen + "-" + q
        return out

    in_specs = set()
    for p in own:
        if "/specs/" in p:
            in_specs |= {m.group(3) for m in HEAD.finditer(code_of(text[p]))}
    parts_of_files = {p: set(re.findall(r"[A-Za-z_]\w*(?![\w(]|::)", re.sub(r"(?s)//[^\n]*|\buse [^;]*;", "", text[p]))) for p in rust}
    free = [n for n in declared if n not in lent and re.match(r"[A-Za-z]", n)]
    wanted = {n: CHOSEN.get(n) or turned(n) for n in free}
    by_new = collections.defaultdict(list)
    for n in sorted(free):
        by_new[wanted[n]].append(n)
    table, said = {}, []
    for new, olds in sorted(by_new.items()):
        if olds == [new]:
            continue
        # a definition of specs/ has the name first; a lemma that would have it too gets _lem, a field _row
        olds.sort(key=lambda n: (n not in in_specs, n not in definitions, n != new, n))
        for k, old in enumerate(olds):
            name = new + ("_row" if old in fields else "_lem") * k
            why = None
            if name == old:
                continue
            if name in lent:
                why = "a library has the new name"
            elif name not in olds and name in declared:
                why = "the new name is taken"
            elif any(old in text[p] and name in parts_of_files[p] for p in rust if re.search(r"(?<![\w'-])" + re.escape(old) + r"(?![\w'-])", text[p])):
                why = "the source has it beside"
            else:
                both = [p for p in words.get(name, ()) if p in words[old] and not name in declared]
                if both:
                    why = "both stand in " + both[0]
            if why:
                said.append(f"stays {old}: {name}: {why}")
            else:
                table[old] = name
    for old in sorted(table):
        print(f"{old} {table[old]}")
    for line in said:
        print(line)

    def turn(code):
        def one(m):
            word = m.group()
            new = table.get(word, word)
            # behind a dot stands a field, or a step of a function that a proof cites
            behind = m.start() and code[m.start() - 1] == "." and code[m.start() - 2 : m.start() - 1] not in ("", " ", "\n")
            if behind and word not in fields:
                head = re.search(r"([^\s(){}.;,@\"«»\[\]]+)\.$", code[: m.start()])
                return new if head and head.group(1) in modules else word
            return new

        modules = set(re.findall(r"(?m)^use (?:\S+\.)?([^\s.{}]+)$", code)) | set(re.findall(r"(?m)^use \S+ as (\S+)$", code)) - {"goal", "tie"}

        code = WORD.sub(one, code)
        return re.sub(r"`([^`\s]+)`", lambda m: "`" + table.get(m.group(1), m.group(1)) + "`", code)

    for p in antt:
        new = turn(text[p])
        if new != text[p]:
            with open(p, "w", encoding="utf-8") as f:
                f.write(new)
    GHOST = re.compile(r"(?s)ghost use [^;]*;|//[^\n]*|(?:requires|ensures)\*?\s*\w*\s*\{")
    for p in rust:
        out, at, t = [], 0, text[p]
        for m in GHOST.finditer(t):
            if m.start() < at:
                continue
            end = m.end()
            if m.group().endswith("{"):
                depth = 1
                while depth:
                    depth += {"{": 1, "}": -1}.get(t[end], 0)
                    end += 1
            out += [t[at : m.start()], turn(t[m.start() : end])]
            at = end
        new = "".join(out) + t[at:]
        if new != t:
            with open(p, "w", encoding="utf-8") as f:
                f.write(new)
    for p in sorted(glob.glob("crates/*/must-fail/*.edit")):
        t = read(p)
        new = turn(t)
        if new != t:
            with open(p, "w", encoding="utf-8") as f:
                f.write(new)


if __name__ == "__main__":
    sys.exit(main())
