#!/usr/bin/env python3
"""Runs a command, as `programs/times.py rt ci --anew`, and tells the processor seconds of the checker beneath it, crate by crate.

Each line has a crate, the seconds of its own proof, of its tests' and of its must-fail edits, the number of edits that were tried, and the
greatest memory of one process in megabytes; then come the forty dearest edits. A process is looked at four times a second, so up to a quarter
second of each is not seen. Only the command's own descendants count.
"""
import collections
import functools
import glob
import os
import re
import subprocess
import sys
import time

TICKS = os.sysconf("SC_CLK_TCK")


def look(pid):
    """A process's parent, processor ticks with those of its ended children, when it began, peak megabytes, words and folder."""
    with open(f"/proc/{pid}/stat", encoding="utf-8", errors="replace") as it:
        fields = it.read().rsplit(") ", 1)[1].split()
    with open(f"/proc/{pid}/cmdline", encoding="utf-8", errors="replace") as it:
        words = it.read().split("\0")
    with open(f"/proc/{pid}/status", encoding="utf-8", errors="replace") as it:
        peak = next((int(line.split()[1]) // 1024 for line in it if line.startswith("VmHWM")), 0)
    return int(fields[1]), sum(int(it) for it in fields[11:15]), int(fields[19]), peak, words, os.readlink(f"/proc/{pid}/cwd")


def kind_of(words, folder):
    if "/rt-edit" in folder:
        return "edits"
    return "tests" if "--test" in words else "proof"


def edit_of(crate, folder):
    """The name of the edit that was made in a copy of the crate, or 'base' of a copy without one."""
    for edit in sorted(glob.glob(f"crates/{crate}/must-fail/*.edit")):
        with open(edit, encoding="utf-8") as it:
            text = it.read()
        file, changes = re.search(r"file: (.*)", text)[1], re.findall(r"old: (.*)\nnew: ?(.*)", text)
        try:
            with open(f"crates/{crate}/{file}", encoding="utf-8") as own, open(f"{folder}/{file}", encoding="utf-8") as it:
                changed = functools.reduce(lambda it, change: it.replace(*change), changes, own.read())
                if changed == it.read():
                    return os.path.basename(edit)[: -len(".edit")]
        except OSError:
            return "?"
    return "base"


def sample(top, seen, edits):
    found = {}
    for pid in filter(str.isdigit, os.listdir("/proc")):
        try:
            found[int(pid)] = look(pid)
        except (OSError, IndexError):
            pass
    below = {top}
    for _ in range(8):
        below |= {pid for pid, it in found.items() if it[0] in below}
    for pid in below & found.keys():
        parent, ticks, begun, peak, words, folder = found[pid]
        is_checker = os.path.basename(words[0]) == "rattle" and "--crate-name" in words
        parent_words = found.get(parent, (0, 0, 0, 0, [""], ""))[4]
        if not is_checker or os.path.basename(parent_words[0]) == "rattle":
            continue
        # What its living children have used comes to it once they end.
        ticks += sum(it[1] for it in found.values() if it[0] == pid)
        crate = words[words.index("--crate-name") + 1]
        one = pid, begun  # A number comes again within the hour.
        if "/rt-edit" in folder and one not in edits:
            edits[one] = edit_of(crate, folder)
        old = seen.get(one, (0, 0, 0, 0))
        seen[one] = crate, kind_of(words, folder), max(ticks, old[2]), max(peak, old[3])


def main():
    begun, seen, edits = time.monotonic(), {}, {}
    ran = subprocess.Popen(sys.argv[1:])
    while ran.poll() is None:
        sample(ran.pid, seen, edits)
        time.sleep(0.25)
    rows = collections.defaultdict(lambda: collections.defaultdict(float))
    for crate, kind, ticks, peak in seen.values():
        row = rows[crate]
        row[kind] += ticks / TICKS
        row["tried"] += kind == "edits"
        row["peak"] = max(row["peak"], peak)
    for crate, row in rows.items():
        print(f"{crate} proof {row['proof']:.0f} tests {row['tests']:.0f} edits {row['edits']:.0f} tried {row['tried']:.0f} peak {row['peak']:.0f}")
    for one in sorted(edits, key=lambda it: -seen[it][2])[:40]:
        print(f"edit {seen[one][0]}/{edits[one]} {seen[one][2] / TICKS:.0f}")
    tried = [seen[one][2] / TICKS for one, name in edits.items() if name not in ("base", "?")]
    print(f"edits: {len(tried)} tried, {sum(tried) / max(len(tried), 1):.1f} each on average")
    used = sum(row[kind] for row in rows.values() for kind in ("proof", "tests", "edits"))
    print(f"all: {time.monotonic() - begun:.0f} seconds, {used:.0f} of processors")
    sys.exit(ran.returncode)


if __name__ == "__main__":
    main()
