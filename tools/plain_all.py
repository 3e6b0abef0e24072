#!/usr/bin/env python3
"""Writes std's AllByRecursion under its own name, where a file imports it as All: rt ci keeps All for std's fact by index.

usage: python3 tools/plain_all.py     at the top of the repository, once; a second run changes nothing
"""
import os
import re

for folder, dirs, names in os.walk("crates"):
    dirs[:] = sorted(d for d in dirs if d != "out")
    for name in sorted(names):
        path = os.path.join(folder, name)
        if not name.endswith((".rt", ".antt")):
            continue
        with open(path, encoding="utf-8") as f:
            text = f.read()
        if "AllByRecursion as All" not in text:
            continue
        text = text.replace("AllByRecursion as All", "AllByRecursion")
        text = re.sub(r"(?<![\w'\-◌.])All(?![\w'\-◌])", "AllByRecursion", text)
        with open(path, "w", encoding="utf-8") as f:
            f.write(text)
