#!/usr/bin/env python3
"""Says how long each function of a crate takes to prove: `python3 tools/times.py CRATE`.

The crate is checked from nothing, by one process; the crates below are built first where they aren't.
For each function stand the seconds of processor time since the one before it, the dearest first.
The first one that is proved has the loading of the crates below in it, and the first one that stands on a file of
specs/ or of proofs/ the check of that file.
Then stand the seconds between the modules that the check kept, which it makes of a function in several steps: by steps
(`Lts` is about how long values last), and the dearest modules.
"""
import os
import re
import shutil
import subprocess
import sys

TOP = os.path.dirname(os.path.dirname(os.path.abspath(__file__)))
TICKS = os.sysconf("SC_CLK_TCK")


def spent(top):
    """The seconds of processor time of a process and of those that it started."""
    above, ticks = {}, {}
    for pid in filter(str.isdigit, os.listdir("/proc")):
        try:
            with open(f"/proc/{pid}/stat", encoding="utf-8", errors="replace") as f:
                told = f.read().rpartition(")")[2].split()
        except OSError:
            continue
        above[int(pid)], ticks[int(pid)] = int(told[1]), sum(map(int, told[11:15]))

    def is_below(pid):
        while pid and pid != top:
            pid = above.get(pid, 0)
        return pid == top

    return sum(ticks[pid] for pid in ticks if is_below(pid)) / TICKS


def times(crate):
    """The seconds of each function, in the order in which they are proved, and the last line of the check."""
    folder = os.path.join(TOP, "crates", crate)
    shutil.rmtree(os.path.join(folder, "out", "incremental"), ignore_errors=True)
    words = ["rt", "check", "--jobs", "1", "--progress"]
    check = subprocess.Popen(words, cwd=folder, stdout=subprocess.PIPE, stderr=subprocess.STDOUT, text=True, errors="replace")
    before, found, last = 0.0, [], ""
    for line in check.stdout:
        now = spent(check.pid)
        name = re.match(r"checked (.*), \d+ of \d+", line)
        if name:
            found.append((now - before, name[1]))
        else:
            last = line
        if name or line.startswith("rt: "):
            before = now
    check.wait()
    return found, last.strip()


def modules(crate):
    """The modules that the check of a crate kept, each with the seconds since the one before it."""
    kept = []
    for at, _, names in os.walk(os.path.join(TOP, "crates", crate, "out", "incremental")):
        for name in names:
            if name.endswith(".oantt"):
                when = os.stat(os.path.join(at, name)).st_mtime_ns / 1e9
                kept.append((when, name[: -len(".oantt")].partition(f"-{crate}-")[2]))
    kept.sort()
    return [(now - before, name) for (before, _), (now, name) in zip(kept, kept[1:])]


def told(rows, most):
    """Prints seconds and names, the dearest first, so many of them."""
    for seconds, name in sorted(rows, reverse=True)[:most]:
        print(f"{seconds:7.1f}  {name}")


if len(sys.argv) != 2:
    sys.exit(__doc__)
found, last = times(sys.argv[1])
told(found, len(found))
print(f"{sum(seconds for seconds, _ in found):7.1f}  together; {last}")
kept = modules(sys.argv[1])
steps = {}
for seconds, name in kept:
    step = re.sub(r"-.*$", "", name.rpartition(".")[2])
    steps[step] = steps.get(step, 0) + seconds
print("\nby steps:")
told([(seconds, step) for step, seconds in steps.items()], 12)
print("\nthe dearest modules:")
told(kept, 30)
