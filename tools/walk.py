#!/usr/bin/env python3
"""Looks that what docs/WALK.md names is there: in each row of its tables the functions, in the file that the row links
to, with the clauses of its row; and the laws that stand beside the arrows of its drawing.

It writes one line for each that is missing, and ends with status 1 where there is one.
"""
import os
import re
import sys

TOP = os.path.dirname(os.path.dirname(os.path.abspath(__file__)))
PAGE = os.path.join(TOP, "docs", "WALK.md")
missing = []


def read(path):
    with open(path, encoding="utf-8") as f:
        return f.read()


def contract(text, name):
    """What stands between a function's name and its body."""
    found = re.search(rf"^ *(?:pub )?fn {name}\b.*?^\{{", text, flags=re.M | re.S)
    return found.group(0) if found else None


def main():
    page = read(PAGE)
    for line in page.split("\n"):
        cells = [c.strip() for c in line.strip("|").split("|")]
        link = re.search(r"\]\(([^)]+\.rt)\)", cells[2]) if line.startswith("| ") and len(cells) == 5 else None
        if not link:
            continue
        text = read(os.path.normpath(os.path.join(TOP, "docs", link.group(1))))
        for name in re.findall(r"`(\w+)`", cells[1]):
            head = contract(text, name)
            if head is None:
                missing.append(f"{link.group(1)} has no function {name}")
                continue
            for clause in re.findall(r"`(\w+)`", cells[3]):
                if not re.search(rf"ensures {clause} \{{", head):
                    missing.append(f"{name} has no clause {clause}")
            if cells[3] == "the one" and len(re.findall(r"ensures \{", head)) != 1:
                missing.append(f"{name} has more than one clause, or none")
    laws = ""
    for link in re.findall(r"\]\((\.\./crates/\w+/src/(?:laws|one_tree)\.rt)\)", page):
        laws += read(os.path.normpath(os.path.join(TOP, "docs", link)))
    for law in sorted(set(re.findall(r"\b[a-z]+(?:_[a-z]+){3,}\b", page))):
        if not re.search(rf"fn {law}\b", laws):
            missing.append(f"no law {law}")
    for m in missing:
        print(f"docs/WALK.md: {m}")
    sys.exit(1 if missing else 0)


main()
