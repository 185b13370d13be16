#!/usr/bin/env python3
"""Tells what is dear in a crate's proof: `cd crates/NAME; rm -rf out; rt check --jobs 1; python3 ../../programs/modules.py`.

With one job the checker saves one module after another, so a module took the time since the one before it. Each line has a function, or a file of
proofs, its seconds, and those of its kinds of module: Lts, Layout, Tie and Reads are of the code's form, Goals, Answers and Proof of what is proved of it.
What is read of the libraries below counts for the first function that wants it. `rt check` begins with what another checkout kept, and then tells little.
"""
import collections
import os
import re
import sys

KINDS = set("Answers Code Given Goals Invariants Key Kinds Layout Lts Met Mir Named Proof Reads Statement TheLink Tie View".split())


def saved(folder):
    """The modules below a folder, the first saved first: when, and the name."""
    found = []
    for at, _, files in os.walk(folder):
        found += [(os.stat(f"{at}/{it}").st_mtime, it.removesuffix(".oantt").removesuffix(".decls")) for it in files if it.endswith(".oantt")]
    return sorted(found)


def parted(name):
    """The function or file that a module is of, and its kind."""
    words = re.sub(r"^(records\.)?Rattle-\w+?-(proofs|specs\.contracts|specs\.declared|specs)\.?", "", name).split(".")
    kind = ""
    while len(words) > 1 and words[-1] in KINDS:
        kind = words.pop() if not kind else (words.pop() and kind)
    return ".".join(words), kind or "file"


def main():
    modules = saved("out/incremental")
    if not modules:
        sys.exit("modules: there is nothing in out/incremental; rt check leaves it")
    seconds = collections.defaultdict(collections.Counter)
    for (before, _), (at, name) in zip(modules, modules[1:]):
        whose, kind = parted(name)
        seconds[whose][kind] += at - before
    for whose, kinds in sorted(seconds.items(), key=lambda it: -sum(it[1].values()))[:40]:
        print(f"{sum(kinds.values()):6.1f} {whose}  " + " ".join(f"{kind} {it:.1f}" for kind, it in kinds.most_common(5)))


if __name__ == "__main__":
    main()
