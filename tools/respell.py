#!/usr/bin/env python3
"""Brings the repository's own names in specs/ and proofs/ to Rattle's spelling: words in snake case, types and facts in
camel case, an apostrophe for a prime. Names from src/, strings, inputs and outputs keep theirs.

usage: python3 tools/respell.py        at the top of the repository, once, right after port.py
       python3 tools/respell.py --list shows what would be renamed, and what would fall together
"""

import os
import re
import sys

# Where the rule alone would make two names one, or give a lemma a type's spelling.
BY_HAND = {
    # lemmas about the word T, which keeps its capital
    "T-to": "T_to",
    "T_of": "T_of",
}

# Names that a definition or a proof binds, or an import gives by `as`.
BOUND = """may-lack line-c line-e line-o few-cs few-os blk-good mid-good mid-differ some-held hunk-row list-row ruled-answer
ruled-answers""".split()

PRIME = "\u2032"
TOKEN = re.compile(r"[^\s(){}\[\],;.\u27e6\u27e7\u231c\u231d`\"]+")
HEAD = re.compile(r"^(\s*)((?:(?:abbrev|unfoldable|pub|mutual|infixl|infixr|infix|\d+)\s+)*)(\S+)((?:\s+(?:\([^:()]*:[^()]*\)|\{[^{}]*\}))*)\s*:(?:\s|$)")
KIND = re.compile(r"^\s*(?:(?:abbrev|unfoldable|pub)\s+)*(data|record|ruleset)\s+(?:pub\s+)?(\S+)")
GOAL = re.compile(r"\bgoal\.(\S+?)(?=[\s)]|$)")


def files():
    for folder, dirs, names in os.walk("crates"):
        dirs[:] = sorted(d for d in dirs if d != "out")
        for n in sorted(names):
            if n.endswith((".antt", ".rt", ".edit")):
                yield os.path.join(folder, n)
    for n in sorted(os.listdir("docs")) + ["../README.md"]:
        if n.endswith(".md") and n not in ("PORT.md",):
            yield os.path.normpath(os.path.join("docs", n))


def read(path):
    with open(path, encoding="utf-8") as f:
        return f.read()


def declared():
    """Every name that a file of specs/ or proofs/ gives, with its kind: 'field', 'type', 'other'; and the goals' names."""
    kinds, goals = {}, set()
    for p in files():
        if not p.endswith(".antt"):
            continue
        text = read(p)
        goals.update(GOAL.findall(text))
        inside = None
        for line in text.splitlines():
            bare = line.split("--")[0].rstrip() if line.lstrip().startswith("--") else line
            if not bare.strip():
                continue
            depth = len(bare) - len(bare.lstrip())
            if inside is not None and depth <= inside:
                inside = None
            k = KIND.match(bare)
            if k:
                kinds.setdefault(k.group(2), set()).add("type" if k.group(1) != "ruleset" else "other")
                if k.group(1) == "record":
                    inside = depth
                continue
            h = HEAD.match(bare)
            if h and h.group(3) not in ("use", "where", "let", "λ", "→") and "=" not in h.group(3):
                name = h.group(3)
                if not re.match(r"^[^\W\d]", name):
                    continue
                kinds.setdefault(name, set()).add("field" if inside is not None else "other")
    return kinds, goals


def respelled(name):
    if name in BY_HAND:
        return BY_HAND[name]
    new = name.replace(PRIME, "'")
    if new[:1].isupper():
        return "".join(part[:1].upper() + part[1:] for part in re.split(r"[-_]", new))
    return new.replace("-", "_")


def renames():
    kinds, goals = declared()
    table = {name: (respelled(name), {"bound"}) for name in BOUND}
    for name, kind in kinds.items():
        if name in goals or name.startswith(("invariant-", "decreases-", "ghost-", "μ-", "Inv-")):
            continue
        new = respelled(name)
        if new != name:
            table[name] = (new, kind)
    return table, kinds, goals


def turn(text, table, head=""):
    """The text with each name turned; head has the use lines where the text is one line of a file."""
    aliases = re.findall(r"(?m)^(?:ghost )?use Rattle\.[\w.+]+ as (\w+);?$", head or text)
    out, at = [], 0
    for m in TOKEN.finditer(text):
        word = m.group(0)
        if word not in table:
            continue
        new, kind = table[word]
        start = m.start()
        if start and text[start - 1] == ".":
            chain = re.search(r"[^\s(){}\[\],;]*$", text[:start]).group(0)
            if not chain.startswith("Rattle.") and chain[:-1] not in aliases and "field" not in kind:
                continue
            if re.fullmatch(r"(c|l|w|goal|given|need)\.", chain):
                continue
        out.append(text[at:start])
        out.append(new)
        at = m.end()
    out.append(text[at:])
    return "".join(out)


def pieces(text):
    """Splits a .rt file into code and what stays: strings and comments."""
    parts = re.compile(r'//[^\n]*|b?"(?:\\.|[^"\\])*"|b?\'(?:\\.|[^\'\\])\'')
    at = 0
    for m in parts.finditer(text):
        yield True, text[at : m.start()]
        yield False, m.group(0)
        at = m.end()
    yield True, text[at:]


def main(argv):
    table, kinds, goals = renames()
    if argv == ["--list"]:
        for name in sorted(table):
            print(name, "->", table[name][0], " ".join(sorted(table[name][1])))
    by_new = {}
    for name, (new, _) in table.items():
        by_new.setdefault(new, set()).add(name)
    clash = 0
    for new, olds in sorted(by_new.items()):
        if len(olds) > 1 or new in kinds:
            print("fall together:", new, sorted(olds), "(already declared)" if new in kinds else "")
            clash += 1
    if argv == ["--list"]:
        # A file that has both spellings names a function of src/, a module or a field by the new one: to be looked at, and no clash.
        for p in files():
            words = set(TOKEN.findall(read(p)))
            for name in sorted(words & set(table)):
                if table[name][0] in words:
                    print("both in one file:", p, name, table[name][0])
        return 0
    if clash:
        return 1
    for p in files():
        text = read(p)
        if p.endswith(".rt"):
            new = "".join(turn(t, table) if code else t for code, t in pieces(text))
        elif p.endswith(".md"):
            new = re.sub(r"`[^`\n]*`", lambda m: turn(m.group(0), table), text)
        else:
            # a comment is prose: "the second-last byte" is no name
            # an alias stands in a line of the whole file
            head = "".join(l for l in text.splitlines(keepends=True) if l.startswith("use "))
            new = "".join(l if l.lstrip().startswith("--") else turn(l, table, head) for l in text.splitlines(keepends=True))
        if new != text:
            with open(p, "w", encoding="utf-8") as f:
                f.write(new)
    return 0


if __name__ == "__main__":
    raise SystemExit(main(sys.argv[1:]))
