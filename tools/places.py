#!/usr/bin/env python3
"""Counts the places in src/ that have an older form where Rattle has a plainer one, by text alone.

usage: python3 tools/places.py            the counts, point by point and kind by kind
       python3 tools/places.py --list     each place with its file and line
       python3 tools/places.py --stays    the places that stay, with the reason written beside them

A pattern finds what has the shape, not what is wrong: each place is read, changed, or kept with a line `// Stays: ..`.
"""

import collections
import glob
import itertools
import os
import re
import sys

SWAPS = [
    ("current", "other"), ("ours", "theirs"), ("lead", "facing"), ("left", "right"), ("front", "back"),
    ("ahead", "behind"), ("first", "second"), ("text", "cells"), ("begin", "take"), ("keep", "drop"), ("lose", "gain"),
    ("enter", "withdraw"), ("lines", "withdraw"), ("sheet", "table"), ("layer", "sheet"), ("open", "enter"),
]


# What a line of a struct or an enum, and what any line, may have of an older form: the point, its kind, and how it looks.
FIELD_SHAPES = [
    (1, "a flag in a struct or an enum", r"^\s+(pub )?\w+: bool,$"),
    (1, "a kind beside the values of each kind", r"^\s+(pub )?kind: \w+,$"),
    (6, "an array with a length beside it", r"^\s+(pub )?\w+: \[\w+; \w+\],$"),
    (6, "a list with another beside it", r"^\s+(pub )?starts: "),
]
LINE_SHAPES = [
    (1, "a Some, None, Ok or Err taken apart and made again", r"(Some\(\w+\) => Some\(|None => None,|Err\(\w+\) => Err\(|Ok\(\(\)\) => Ok\(|Err\(.*=> Err\()"),
    (1, "a Some, Ok or their lack turned into another value", r"(None => (&\[\]|Ending|false|true|\d)|Err\(_\) => (false|return false|\d|\())"),
    (3, "while and loop", r"^\s*('\w+: )?(while|loop)\b"),
    (3, "for over a range of numbers", r"\bfor \w+ in .*\.\."),
    (3, "for with an index beside the items", r"\bfor .*\benumerate\(\)"),
    (3, "a running count", r"^\s*[\w.]+ [+-]= 1;"),
    (4, "a comparison written by hand", r"( as u8 == | as u8 != |\.start < \S+\.end|\.len\(\) > 0|\.len\(\) == 0|>= 1 && |<= \w+ && \w+ <= )"),
    (4, "an impl written by hand that can be derived", r"^impl(<.*>)? (PartialEq|Eq|Clone|Copy|Ord|PartialOrd|Debug|Default) for"),
    (7, "function pointers, tables of functions, dyn", r"(\bfn\(|\bdyn\b|: \[fn)"),
]


def code_of(path):
    """A source file's lines without comments and without `ghost use`."""
    out = []
    for line in open(path, encoding="utf-8"):
        line = line.rstrip("\n")
        bare = re.sub(r"//.*", "", line) if not re.search(r'"[^"]*//', line) else line
        out.append("" if bare.startswith("ghost use") else bare)
    return out


class Function:
    def __init__(self, path, line, name, owner, head, clauses, body):
        self.path, self.line, self.name, self.owner = path, line, name, owner
        self.head, self.clauses, self.body = head, clauses, body


def functions(path):
    """Each function with its signature, its clauses and its body."""
    lines = code_of(path)
    found, owner, i = [], "", 0
    while i < len(lines):
        m = re.match(r"(impl|trait|pub trait)\b(.*)", lines[i])
        if m:
            owner = m[2].split("{")[0].strip()
        elif re.match(r"\S", lines[i]) and not lines[i].startswith(("}", "#")):
            owner = "" if re.match(r"(pub |fn|static|const|struct|enum|mod|use)", lines[i]) else owner
        m = re.match(r"\s*(?:pub(?:\([a-z]+\))? )?(?:const )?fn (\w+)", lines[i])
        if not m:
            i += 1
            continue
        start, indent = i, re.match(r"\s*", lines[i])[0]
        head, clauses = [], []
        while i < len(lines):
            if re.match(r"\s*(requires|ensures)", lines[i]):
                clauses.append(lines[i].strip())
            else:
                head.append(lines[i])
            if lines[i].rstrip().endswith("{") and not re.match(r"\s*(requires|ensures)", lines[i]) or lines[i].rstrip().endswith(";"):
                break
            i += 1
        body = []
        if i < len(lines) and lines[i].rstrip().endswith("{"):
            i += 1
            while i < len(lines) and lines[i] != indent + "}":
                body.append(lines[i])
                i += 1
        found.append(Function(path, start + 1, m[1], owner, " ".join(h.strip() for h in head), clauses, body))
        i += 1
    return found


def parameters(head):
    """The parameters of a signature, without self."""
    m = re.search(r"fn \w+(.*)", head)
    rest, depth, at = m[1], 0, 0
    if rest.startswith("<"):
        for at, c in enumerate(rest):
            depth += (c == "<") - (c == ">" and rest[at - 1] != "-")
            if depth == 0:
                break
        rest = rest[at + 1 :]
    depth, part, out = 0, "", []
    for at, c in enumerate(rest):
        depth += (c in "(<[") - (c in ")]" or c == ">" and rest[at - 1] != "-")
        if depth == 0:
            break
        if c == "," and depth == 1:
            out.append(part)
            part = ""
        elif not (c == "(" and depth == 1):
            part += c
    out.append(part)
    return [p.strip() for p in out if p.strip() and not re.match(r"&?('\w+ )?(mut )?self$", p.strip())]


def result_of(head):
    m = re.search(r"\) -> (.*?)\s*\{?;?$", head)
    return m[1] if m else ""


def swapped(name):
    words = name.split("_")
    for a, b in SWAPS:
        words = [a if w == b else w for w in words]
    return "_".join(words)


def normal(function):
    text = " ".join(function.body)
    text = re.sub(r"\bb?\"(\\.|[^\"])*\"|\b[A-Z]\w*::\w+|\b\d+\b|\b[a-z_]\w*\b|\b[A-Z]\w*\b", "x", text)
    return re.sub(r"\s+", "", text)


def fields(path):
    """The lines of each struct's and each enum's body."""
    inside = False
    for n, line in enumerate(code_of(path), 1):
        if re.match(r"(pub )?(struct|enum) .*{$", line):
            inside = True
        elif line.startswith("}"):
            inside = False
        elif inside:
            yield n, line


places = collections.OrderedDict()


def place(point, kind, where, what=""):
    places.setdefault((point, kind), []).append((where, what))


def look(paths):
    every = []
    for path in paths:
        every += functions(path)
        for shapes, lines in ((FIELD_SHAPES, fields(path)), (LINE_SHAPES, enumerate(code_of(path), 1))):
            for n, line in lines:
                for point, kind, pattern in shapes:
                    if re.search(pattern, line):
                        place(point, kind, f"{path}:{n}", line.strip())
    for f in every:
        where, answer = f"{f.path}:{f.line}", result_of(f.head)
        test_helper = "_tests/" in f.path
        if answer == "u8" and f.body and f.body[0].strip() == "0":
            place(1, "a number answered that means nothing", where, f.name)
        if answer == "bool" and "&mut" in f.head:
            place(1, "a flag answered by a call that changes something", where, f.name)
        if re.match(r"\(.*bool.*\)$", answer):
            place(1, "a flag answered beside another value", where, f"{f.name} -> {answer}")
        if re.match(r"(u8|u32|\(u8, u32\)|Result<u8.*|Option<u8>)$", answer) and (re.search(r"refus|number|layer|place|shown", f.name)):
            place(1, "a number for a kind or a refusal", where, f"{f.name} -> {answer}")
        if len(parameters(f.head)) > 5:
            place(5, "a function of more than five parameters", where, f"{f.name}: {len(parameters(f.head))}")
        arms = [b for b in f.body if "=>" in b]
        constant = [b for b in arms if re.search(r'=> (\d+|b?"[^"]*"|Some\(\w+::\w+\)|\w+::\w+\(?\w*\)?|b),?$', b.strip())]
        tests = [b for b in f.body if re.search(r'(same_line|what_follows)\((\w+, )?b"', b)]
        if len(arms) >= 2 and len(constant) == len(arms) or len(tests) > 1:
            place(4, "a conversion or a word written out case by case", where, f.name)
        if re.search(r"digit|put_number", f.name):
            place(4, "digits read or printed by hand", where, f.name)
    by_name, by_body, by_sides = collections.defaultdict(list), collections.defaultdict(list), collections.defaultdict(list)
    for f in every:
        by_name[(f.path.split("/")[1], swapped(f.name), len(parameters(f.head)))].append(f)
        if len(" ".join(f.body)) > 60:
            by_body[normal(f)].append(f)
        if f.name != "main" and f.owner and " for " not in f.owner:
            by_sides[f.name].append(f)
    seen = set()
    for group, kind in ((by_name, "names that differ by a side, an end or a kind"), (by_body, "bodies that differ by names and constants alone"), (by_sides, "the same method on several types")):
        for key, fs in group.items():
            names = {(g.path, g.name) for g in fs}
            if len(names) < 2 or kind.startswith("the same") and len({g.owner for g in fs}) < 2 or kind.startswith("names") and len({g.name for g in fs}) < 2:
                continue
            for f in fs:
                if (f.path, f.line) not in seen:
                    seen.add((f.path, f.line))
                    place(2, kind, f"{f.path}:{f.line}", f"{f.owner + '::' if f.owner else ''}{f.name}")
    shapes = collections.defaultdict(set)
    for f in every:
        for c in f.clauses:
            text = re.sub(r"^(requires|ensures)\*?( \w+)? ", "", c)
            text = text.split(" (each")[0].split(" steps")[0]
            shapes[re.sub(r"\b(left|right|front|back|ours|theirs|lead|facing)\b", "x", text)[:70]].add(f"{f.path}:{f.line} {f.name}")
    for shape, fs in shapes.items():
        if len(fs) >= 3:
            place(5, "a clause that begins alike in three or more contracts", f"{len(fs)} contracts", shape)
    for f in every:
        if any(re.search(r"\b(held|model) ", c) for c in f.clauses):
            place(5, "a contract that reads a value through a function of its fields", f"{f.path}:{f.line}", f.name)
    groups = collections.defaultdict(list)
    for f in every:
        names = sorted(p.split(":")[0].replace("mut ", "") for p in parameters(f.head))
        for three in itertools.combinations(names, 3):
            groups[three].append(f)
    most = collections.defaultdict(list)
    for three, fs in sorted(groups.items()):
        for f in fs if len(fs) >= 3 else []:
            most[f].append((len(fs), ", ".join(three)))
    for f in every:
        if f in most:
            place(5, "a function with three parameters that two others have too", f"{f.path}:{f.line}", f"{f.name}: {max(most[f])[1]}")
    for proof in sorted(glob.glob("crates/*/proofs/**/Answers.antt", recursive=True)):
        text = open(proof, encoding="utf-8").read()
        for m in re.finditer(r"^pub (\S+) : goal", text, re.M):
            place(8, "answers", f"{proof}", m[1])
    for proof in sorted(glob.glob("crates/*/proofs/*.antt")):
        text = open(proof, encoding="utf-8").read()
        for m in re.finditer(r"^(?:  )?(?:pub )?([a-z]\S*) : ", text, re.M):
            place(8, "lemmas", f"{proof}", m[1])


def stays(paths):
    for path in paths:
        for n, line in enumerate(open(path, encoding="utf-8"), 1):
            m = re.search(r"// Stays: (.*)", line)
            if m:
                print(f"{path}:{n}: {m[1]}")


def main():
    os.chdir(os.path.join(os.path.dirname(os.path.abspath(__file__)), ".."))
    paths = sorted(glob.glob("crates/*/src/**/*.rt", recursive=True))
    if "--stays" in sys.argv:
        stays(paths)
        return
    look(paths)
    names = {1: "own Option and Result, flags, numbers", 2: "twins", 3: "loops that count", 4: "comparison, conversion, printing by hand", 5: "facts and parameters that travel together", 6: "buffers with a length, parallel lists", 7: "switches and tables of functions", 8: "proofs"}
    for point in sorted(names):
        kinds = [(k, v) for (p, k), v in places.items() if p == point]
        print(f"point {point}, {names[point]}: {sum(len(v) for _, v in kinds)}")
        for kind, found in kinds:
            print(f"  {len(found):4}  {kind}")
            if "--list" in sys.argv and point < 8:
                for where, what in found:
                    print(f"          {where}  {what}")


main()
