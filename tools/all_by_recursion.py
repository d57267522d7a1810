#!/usr/bin/env python3
"""Writes std's AllByRecursion under its own name, which port.py imports as All: `rt ci` takes All for another word.

usage: python3 tools/all_by_recursion.py     at the top of the repository, once, after respell.py
"""

import os
import re

for folder, dirs, names in os.walk("crates"):
    dirs[:] = sorted(d for d in dirs if d != "out")
    for n in sorted(names):
        path = os.path.join(folder, n)
        if not n.endswith((".antt", ".rt")):
            continue
        with open(path, encoding="utf-8") as f:
            text = f.read()
        if "AllByRecursion as All" not in text:
            continue
        text = text.replace("AllByRecursion as All", "AllByRecursion")
        # the word alone, and not a lemma's name as All-append; a comment is prose
        text = "".join(
            line if line.lstrip().startswith(("--", "//")) else re.sub(r"(?<![\w.'-])All(?![\w'-])", "AllByRecursion", line)
            for line in text.splitlines(keepends=True)
        )
        with open(path, "w", encoding="utf-8") as f:
            f.write(text)
