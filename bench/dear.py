#!/usr/bin/env python3
"""Ranks what was dear to prove, module by module, from the times at which checks by one process left their modules.

    python3 tools/build.py --keep; python3 bench/dear.py [NAME..] [--rows N]

Such a check writes its modules in the order in which it ends with them, so the time from one to the next is about what a module took. It
tells of what the last build proved from nothing. Kinds: `Lts` the steps of a function's code; `Proof`, `Answers`, `Invariants` its proof;
`Tie` its contract joined with its code; other names are files of specs and proofs, and the fixed price of the crate.
"""
import os
import sys

TOP = os.path.dirname(os.path.dirname(os.path.abspath(__file__)))
KINDS = ("Lts", "Proof", "Answers", "Invariants", "Tie", "Code", "Met", "Statement")
# Two modules that are further apart, in seconds, belong to two checks.
APART = 600


def kept():
    """The folders in which checks left their modules, by crate."""
    trees = [TOP]
    if os.path.isdir(f"{TOP}/out/build"):
        trees += [f"{TOP}/out/build/{it}" for it in os.listdir(f"{TOP}/out/build")]
    for tree in trees:
        for name in os.listdir(f"{tree}/crates") if os.path.isdir(f"{tree}/crates") else ():
            folder = f"{tree}/crates/{name}/out/incremental"
            if os.path.isdir(folder):
                yield name, folder


def written(folder):
    found = []
    for place, _, files in os.walk(folder):
        for name in files:
            found.append((os.stat(f"{place}/{name}").st_mtime, name.removesuffix(".oantt").removesuffix(".decls")))
    return sorted(found)


def main(words):
    most = int(words.pop(words.index("--rows") + 1)) if "--rows" in words else 40
    names = {it for it in words if it != "--rows"}
    rows, kinds = [], {}
    for crate, folder in kept():
        if names and crate not in names:
            continue
        files = written(folder)
        for (before, _), (after, name) in zip(files, files[1:]):
            if after - before > APART:
                continue
            shown = name.replace(f"Rattle-{crate}-proofs.", "").replace(f"Rattle-{crate}-specs.", "specs ")
            kind = shown.rsplit(".", 1)[-1].split("-")[0]
            kinds[kind if kind in KINDS else "other"] = kinds.get(kind if kind in KINDS else "other", 0) + after - before
            rows.append((after - before, crate, shown))
    for took, crate, shown in sorted(rows, reverse=True)[:most]:
        print(f"{took:7.1f} s  {crate:18} {shown[:100]}")
    print("by kind: " + ", ".join(f"{kind} {took:.0f} s" for kind, took in sorted(kinds.items(), key=lambda it: -it[1])))


main(sys.argv[1:])
