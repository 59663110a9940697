#!/usr/bin/env python3
"""Compares docs/ERRORS.md and examples/ with the rows of crates/command_rows.

Of each rule's section of docs/ERRORS.md the first block is the line, the second the text that is refused, the third the
same text mended. The row `errors explained: N NAME` must have the second with the first for its answer, and the row
with `, mended` the third; of rule 50 the texts are scripts. Texts that are told in short (`and so on`) are not compared.
Of each example the module, its translation, `map.txt`, `slip.tla`, `slip.txt`, its run with what it reads, and its
trace must be as in its rows.
It writes one line for each that differs, and ends with status 1 where there is one.
"""
import os
import re
import sys

TOP = os.path.dirname(os.path.dirname(os.path.abspath(__file__)))
differ = []


def read(path):
    with open(os.path.join(TOP, path), encoding="utf-8") as f:
        return f.read()


def rows(path):
    """The parts of each row: the line that begins each, and the text below it; of a file's name the first counts."""
    found = {}
    for part in re.split(r"^=== ", read(path), flags=re.M)[1:]:
        name, _, rest = part.partition("\n")
        parts = {}
        for piece in re.split(r"^--- (?=file |words |ends )", rest, flags=re.M)[1:]:
            head, _, text = piece.partition("\n")
            parts.setdefault(head, text)
        found.setdefault(name, parts)
    return found


ASKED = rows("crates/command_rows/data/rows.txt")
WANTED = rows("crates/command_rows/stdout")


def in_row(text):
    """As rows spell it: what is no printable ASCII in hexadecimal digits between backticks."""
    spelled = "".join(c if c == "\n" or (" " <= c <= "~" and c != "`") else f"`{c.encode().hex()}`" for c in text)
    return spelled.replace("``", "")


def is_file(row, file, text, what):
    if ASKED.get(row, {}).get(f"file {file}") != in_row(text):
        differ.append(f"{what} is not the file {file} of the row {row}")


def is_answer(row, words, answer, what):
    if WANTED.get(row, {}).get(f"words {words}") != answer:
        differ.append(f"{what} is not the answer to {words} of the row {row}")


def refused(line):
    return f"--- status 5\n--- error\n{line}"


def blocks(section):
    found = re.findall(r"(?:^(?:    .*|)\n)+", section, flags=re.M)
    texts = [re.sub(r"^    ", "", b.strip("\n"), flags=re.M) + "\n" for b in found]
    return [t for t in texts if t.strip()]


def errors():
    for section in re.split(r"^## ", read("docs/ERRORS.md"), flags=re.M)[1:]:
        name, _, rest = section.partition("\n")
        if not re.match(r"\d+ \w+$", name):
            continue
        line, wrong, mended = blocks(rest)[:3]
        row = f"errors explained: {name}"
        what = f"docs/ERRORS.md, {name}:"
        if name.startswith("50 "):
            is_file(row, "S", wrong, f"{what} the refused text")
            is_answer(row, "pcal run M.tla C S", refused(line), f"{what} the line")
            is_file(f"{row}, mended", "S", mended, f"{what} the mended text")
            continue
        if "and so on" not in wrong:
            is_file(row, "M.tla", wrong, f"{what} the refused text")
        is_answer(row, "pcal check M.tla", refused(line), f"{what} the line")
        is_file(f"{row}, mended", "M.tla", mended, f"{what} the mended text")
        is_answer(f"{row}, mended", "pcal check M.tla", "--- status 0\n--- output\nok\n", f"{what} ok")


def examples():
    for file in sorted(os.listdir(os.path.join(TOP, "examples"))):
        name, dot = os.path.splitext(file)
        if dot != ".tla":
            continue
        row = f"examples/{file}"
        is_file(row, "M.tla", read(row), row)
        translated = f"examples/translated/{file}"
        is_file(row, "T.tla", read(translated), translated)
        is_answer(row, "pcal translate M.tla", "--- status 0\n--- output as in T.tla\n", translated)
        folder = f"examples/{name}"
        is_answer(row, "pcal map M.tla", f"--- status 0\n--- output\n{read(f'{folder}/map.txt')}", f"{folder}/map.txt")
        slip = f"{folder}/slip.tla"
        is_file(slip, "slip.tla", read(slip), slip)
        is_answer(slip, "pcal check slip.tla", refused(read(f"{folder}/slip.txt")), f"{folder}/slip.txt")
        run = f"{folder}/run"
        is_file(run, "M.tla", read(row), row)
        is_file(run, "run.cfg", read(f"{run}.cfg"), f"{run}.cfg")
        is_file(run, "run.script", read(f"{run}.script"), f"{run}.script")
        states = f"--- status 0\n--- output\n{read(f'{run}.txt')}"
        is_answer(run, "pcal run M.tla run.cfg run.script", states, f"{run}.txt")
        trace = f"{folder}/trace"
        is_file(trace, "M.tla", read(row), row)
        is_file(trace, "run.cfg", read(f"{run}.cfg"), f"{run}.cfg")
        is_file(trace, "trace.txt", read(f"{trace}.txt"), f"{trace}.txt")
        is_file(trace, "run.txt", read(f"{run}.txt"), f"{run}.txt")
        shown = "--- status 0\n--- output as in run.txt\n"
        is_answer(trace, "pcal trace M.tla run.cfg trace.txt", shown, f"{trace}.txt")


errors()
examples()
for d in differ:
    print(d)
sys.exit(1 if differ else 0)
