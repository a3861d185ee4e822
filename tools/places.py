#!/usr/bin/env python3
"""Counts the places of src/ that are written in an older form, for docs/DESIGN-PASS.md.

usage: python3 tools/places.py [-v] [COMMIT]      the work tree, or that commit; -v lists each place

A count is by text, so it tells where to look and not what is wrong: docs/DESIGN-PASS.md says what became of each place.
"""

import collections
import re
import subprocess
import sys

ITEM = re.compile(r"(?m)^(?:#\[[^\n]*\]\n)*(?:pub(?:\(crate\))? )?(?:unsafe )?(?:extern \"C\" )?(fn|enum|struct|trait|impl)\b")
NAME = re.compile(r"\b(?:fn|enum|struct|trait) (\w+)")


def sources(commit):
    if commit is None:
        names = subprocess.run(["git", "ls-files", "--cached", "--others", "--exclude-standard", "crates"], capture_output=True, text=True, check=True).stdout.split("\n")
        names = [n for n in names if re.fullmatch(r"crates/\w+/src/\w+\.rt", n)]
        found = []
        for n in sorted(set(names)):
            try:
                found.append((n, open(n, encoding="utf-8").read()))
            except FileNotFoundError:
                pass
        return found
    names = subprocess.run(["git", "ls-tree", "-r", "--name-only", commit, "crates"], capture_output=True, text=True, check=True).stdout.split("\n")
    return [(n, subprocess.run(["git", "show", f"{commit}:{n}"], capture_output=True, text=True, check=True).stdout) for n in sorted(names) if re.fullmatch(r"crates/\w+/src/\w+\.rt", n)]


def answers(commit):
    """The answers that are written in proofs/, and the lines of all proofs."""
    if commit is None:
        names = subprocess.run(["git", "ls-files", "crates"], capture_output=True, text=True, check=True).stdout.split("\n")
    else:
        names = subprocess.run(["git", "ls-tree", "-r", "--name-only", commit, "crates"], capture_output=True, text=True, check=True).stdout.split("\n")
    names = [n for n in names if re.fullmatch(r"crates/\w+/proofs/.*\.antt", n)]
    read = 0
    lines = 0
    if commit is None:
        texts = []
        for n in names:
            try:
                texts.append((n, open(n, encoding="utf-8").read()))
            except FileNotFoundError:
                pass
    else:
        whole = subprocess.run(["git", "cat-file", "--batch"], input="\n".join(f"{commit}:{n}" for n in names), capture_output=True, text=True, check=True).stdout
        texts = []
        rest = whole.encode()
        for n in names:
            head, rest = rest.split(b"\n", 1)
            size = int(head.split()[-1])
            texts.append((n, rest[:size].decode()))
            rest = rest[size + 1:]
    for n, text in texts:
        lines += text.count("\n")
        if n.endswith("/Answers.antt"):
            read += len(re.findall(r"(?m)^pub \S+ : goal\.", text))
    return read, lines


def items(text):
    """The items of a file: kind, name, line, head (up to the clauses), clauses, body."""
    starts = [m for m in ITEM.finditer(text)]
    for a, m in enumerate(starts):
        end = starts[a + 1].start() if a + 1 < len(starts) else len(text)
        whole = text[m.start():end]
        name = NAME.search(whole)
        cut = re.search(r"(?m)^\{$|\{\n", whole)
        head = whole[:cut.start()] if cut else whole
        body = whole[cut.start():] if cut else ""
        close = re.search(r"(?m)^\}$", body)
        body = body[:close.end()] if close else body
        clauses = re.findall(r"(?m)^    (?:requires|ensures)\b[^\n]*", head)
        yield m.group(1), name.group(1) if name else "", text[:m.start()].count("\n") + 1, head, clauses, body


def count(files):
    places = collections.OrderedDict()

    def put(what, where):
        places.setdefault(what, []).append(where)

    facts = collections.defaultdict(set)
    groups = collections.defaultdict(set)
    shapes = collections.defaultdict(list)
    for what in (
        "1a enum with a variant for none or for a refusal",
        "1b function whose number is a refusal, 0 for none",
        "1c test of such a number or answer, handed on by hand",
        "1d number for a kind: field, parameter or result",
        "2a functions of the same shape but for a type, a size or a constant",
        "3a while loop that counts an index",
        "3b other while loop or loop",
        "4a own function for what std or a derive has",
        "5a fact in the contracts of three or more functions",
        "5b parameters that travel together, in three or more functions",
        "6a slice with a start, a count or a length beside it",
        "6b two or more tables by the same index",
        "7a match or test on which step to run",
    ):
        places[what] = []
    for path, text in files:
        crate = path.split("/")[1]
        for kind, name, line, head, clauses, body in items(text):
            at = f"{path}:{line} {name}"
            if kind == "enum":
                variants = re.findall(r"(?m)^    (\w+)(\([^\n]*\))?,$", body)
                plain = [v for v, a in variants if not a]
                if any(v == "Refused" for v, _ in variants) or (len(variants) == 2 and len(plain) == 1):
                    put("1a enum with a variant for none or for a refusal", at)
            if kind in ("struct",):
                for f in re.findall(r"(?m)^    pub (kind|edition|direction|letters): \w+,$", body):
                    put("1d number for a kind: field, parameter or result", f"{at}.{f}")
            if kind != "fn":
                continue
            result = re.search(r"\) -> ([^\n]+)", head)
            result = result.group(1).strip() if result else ""
            ensures = " ".join(c for c in clauses if c.lstrip().startswith("ensures"))
            if result == "u32" and crate not in ("nesfoal", "nesfoal_c") and re.search(r"result ≡ [^}]*(refus|held_back|number_of|transfer_answer)", ensures):
                put("1b function whose number is a refusal, 0 for none", at)
            for m in re.finditer(r"let (\w+) = [^;]*;\s*if \1 != 0 \{\s*return|let Reading::Whole\(\w+\) = (\w+) else|if let Found::At|let Found::At|let Ok\(\w+\) = (\w+) else \{\s*return (?:Err\()?\3\.unwrap_err", body):
                put("1c test of such a number or answer, handed on by hand", f"{path}:{line + (head + body[:m.start()]).count(chr(10))} {name}")
            if crate not in ("nesfoal", "nesfoal_c"):
                for f in re.findall(r"\b(kind|direction|edition): usize", head):
                    put("1d number for a kind: field, parameter or result", f"{at}({f})")
            for m in re.finditer(r"(?m)^( *)(?:'\w+: )?(while|loop)\b([^\n]*)\{$", body):
                inside = body[m.end():]
                stop = re.search(r"(?m)^" + m.group(1) + r"\}", inside)
                inside = inside[:stop.start()] if stop else inside
                tested = set(re.findall(r"[a-z]\w*", m.group(3)))
                where = f"{path}:{line + (head + body[:m.start()]).count(chr(10))} {name}"
                step = any(re.search(r"(?m)^ *" + v + r" [+-]= [^;\n]+;$", inside) for v in tested)
                if m.group(2) == "loop":
                    step = bool(re.search(r"(?m)^ *\w+ \+= 1;$", inside)) and bool(re.search(r"<= \w+ \{\s*(break|return)", inside))
                put("3a while loop that counts an index" if step else "3b other while loop or loop", where)
            if name in ("smaller", "larger_of", "lesser_of", "copy", "clear", "wide", "parallel", "is_same", "same", "equal", "min", "max", "least_of"):
                put("4a own function for what std or a derive has", at)
            for c in clauses:
                c = c.strip()
                if c.startswith("requires"):
                    fact = re.sub(r"^requires(?: \w+)? \{ (.*) \}$", r"\1", c)
                    for part in re.split(r" × ", fact):
                        shape = re.sub(r"\b(file|plan|slice|old|new)\b(?=\.now)", "FILE", part.strip(" ()"))
                        shape = re.sub(r"\b(hp|hs|h|p|s|o|n)\b", "H", shape) if "FILE" in shape or re.search(r"\bhp?\b|\bhs\b", shape) else shape
                        facts[shape].add(f"{path} {name}")
            params = re.search(r"\((.*?)\)(?: ->|\n|$)", head.split("fn " + name, 1)[1] if "fn " + name in head else "", re.S)
            names = re.findall(r"(\w+): ([^,()\n]+)", params.group(1)) if params else []
            types = [(n, t.strip()) for n, t in names]
            if any(t == "Header" for _, t in types) and any(t == "&[u8]" for _, t in types):
                groups["a file and its Header"].add(at)
            have = {n for n, _ in types}
            if {"start"} <= have and any(t in ("&[u8]",) for _, t in types) and have & {"count", "to", "arcs", "from"}:
                groups["a file, a start and arcs from .. to"].add(at)
            if {"places", "changes"} <= have:
                groups["places and changes of replay_fast"].add(at)
            if {"head", "next"} <= have:
                groups["head and next of the rows"].add(at)
            if {"places", "transitions"} <= have and any("[u64; 16]" in t for _, t in types):
                groups["two kept sets"].add(at)
            if any(t.startswith("&") and "[" in t for _, t in types) and have & {"count", "n", "to", "arcs", "last"} and crate not in ("nesfoal", "nesfoal_c"):
                put("6a slice with a start, a count or a length beside it", at)
            if len([1 for n, t in types if re.fullmatch(r"&(mut )?\[u(16|32|64|size)\]", t)]) >= 2 and crate not in ("nesfoal", "nesfoal_c"):
                put("6b two or more tables by the same index", at)
            if re.search(r"match (due|kind|which|run)\b|if (capped|all|inslice|kind)\b", body):
                put("7a match or test on which step to run", at)
            shape = re.sub(r"\b(u8|u16|u32|u64|usize|i32|i64)\b", "T", body)
            shape = re.sub(r"\b(SMALL|MIDDLE|LARGE)(_ARCS)?\b|\b\d+\b", "N", shape)
            shape = re.sub(r"\b(small|middle|large)(?=_)|(?<=_)(small|middle|large)\b", "S", shape)
            if shape.count("\n") >= 4:
                shapes[shape].append(at)
    for shape, where in shapes.items():
        if len(where) > 1 and not all("/nesfoal_c/" in w for w in where):
            for w in where:
                put("2a functions of the same shape but for a type, a size or a constant", w)
    for fact, where in sorted(facts.items()):
        if len(where) >= 3:
            put("5a fact in the contracts of three or more functions", f"{fact}  ({len(where)})")
    for group, where in groups.items():
        if len(where) >= 3:
            put("5b parameters that travel together, in three or more functions", f"{group}  ({len(where)})")
    return places


def main():
    args = sys.argv[1:]
    verbose = "-v" in args
    rest = [a for a in args if a != "-v"]
    places = count(sources(rest[0] if rest else None))
    for what, where in places.items():
        print(f"{len(where):5}  {what}")
        if verbose:
            for w in where:
                print("          " + w)
    written, lines = answers(rest[0] if rest else None)
    print(f"{written:5}  8a answers written in proofs/, of {lines} lines of proofs")


main()
