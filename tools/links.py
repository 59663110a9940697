#!/usr/bin/env python3
"""Looks through the .md files: dead relative links, paths between backticks that are not there, and long lines.

    python3 tools/links.py [FILE..]

With no FILE it takes all of the repository.
It writes one line for each that it finds, and ends with status 1 where there is one.
Tables and code blocks have lines of any length.
"""
import os
import re
import subprocess
import sys

TOP = os.path.dirname(os.path.dirname(os.path.abspath(__file__)))
MOST = 120
FOLDERS = ["crates", "docs", "editors", "examples", "tools", "man", "completions"]


def pages():
    listed = subprocess.run(["git", "ls-files", "-z", "--cached", "--others", "--exclude-standard", "*.md"],
                            cwd=TOP, capture_output=True, check=True)
    return sorted(p for p in listed.stdout.decode().split("\0") if p and os.path.exists(os.path.join(TOP, p)))


def text_lines(path):
    """The lines of a page with their numbers, those of code blocks left out."""
    fenced = False
    before_blank = True
    in_block = False
    with open(path, encoding="utf-8") as f:
        for number, line in enumerate(f, 1):
            line = line.rstrip("\n")
            if line.lstrip().startswith("```"):
                fenced = not fenced
                continue
            if fenced:
                continue
            indented = line.startswith("    ")
            in_block = indented and (in_block or before_blank)
            before_blank = line.strip() == "" or in_block
            if not in_block:
                yield number, line


def slug(heading):
    heading = re.sub(r"`", "", heading.strip()).lower()
    return re.sub(r"[^\w\- ]", "", heading).replace(" ", "-")


def anchors(path):
    found = set()
    for _, line in text_lines(path):
        if re.match(r"#{1,6} ", line):
            name = slug(line.lstrip("#"))
            again = 0
            while (name if again == 0 else f"{name}-{again}") in found:
                again += 1
            found.add(name if again == 0 else f"{name}-{again}")
    return found


def is_there(page, target):
    """A path may be said from the page's folder, from the top, or from crates/."""
    starts = [os.path.dirname(os.path.join(TOP, page)), TOP, os.path.join(TOP, "crates")]
    return any(os.path.exists(os.path.join(s, target)) for s in starts)


def look(page):
    full = os.path.join(TOP, page)
    for number, line in text_lines(full):
        if len(line) > MOST and not line.startswith("|"):
            yield number, f"{len(line)} characters, {MOST} are the most"
        bare = re.sub(r"`[^`]*`", lambda m: "`" * len(m.group(0)), line)
        for m in re.finditer(r"\]\(([^)\s]+)\)", bare):
            target = m.group(1)
            if re.match(r"[a-z]+:", target):
                continue
            path, _, anchor = target.partition("#")
            at = os.path.normpath(os.path.join(os.path.dirname(full), path)) if path else full
            if not os.path.exists(at):
                yield number, f"dead link: {target}"
            elif anchor and at.endswith(".md") and anchor not in anchors(at):
                yield number, f"no such heading: {target}"
        for m in re.finditer(r"`([\w.\-]+(?:/[\w.\-]+)+/?)`", line):
            path = m.group(1)
            if path.split("/")[0] in FOLDERS and "/out/" not in path and not is_there(page, path):
                yield number, f"no such path: {path}"


def main():
    found = 0
    for page in sys.argv[1:] or pages():
        for number, what in look(os.path.relpath(os.path.join(TOP, page), TOP)):
            found += 1
            print(f"{page}:{number}: {what}")
    sys.exit(1 if found else 0)


main()
