"""Compares a system's answers with the program's: its requests are given to `tpcc script`."""
import subprocess

from tables import TABLES

# the words that a screen begins with, and no other line of one
BEGINS = ("new-order", "payment", "order-status", "delivery", "delivered", "stock-level", "refused")


def screens_of(text):
    """The screens, of which only the first words tell where each begins."""
    screens = []
    for line in text.splitlines(keepends=True):
        if line.split(" ")[0] in BEGINS or line == "no delivery queued\n":
            screens.append(line)
        else:
            screens[-1] += line
    return screens


def parts_of(text):
    """The parts that `--show` writes, by their names."""
    parts = {}
    for part in ("\n" + text).split("\n== ")[1:]:
        name, _, body = part.partition("\n")
        parts[name] = body if body.endswith("\n") else body + "\n"
    return parts


def first_difference(expected, found):
    """The first line in which two texts differ, of each."""
    ours, theirs = expected.splitlines() + ["(its end)"], found.splitlines() + ["(its end)"]
    return next((one, other) for one, other in zip(ours, theirs) if one != other)


def in_rows_order(name, text):
    """HISTORY has no key, so its rows are compared in the order of their text."""
    return "".join(sorted(text.splitlines(keepends=True))) if name == "HISTORY" else text


def compare(tpcc, opening, transcript, tables):
    """What differs: where, what it is, the program's line, the other system's.

    `transcript` is pairs of a request and its screen in serial order, `tables` the nine as CSV.
    """
    shows = [word for part in ("screens", "check", *TABLES) for word in ("--show", part)]
    script = "".join(f"{request}\n" for request, _ in transcript)
    ran = subprocess.run([tpcc, "script", *opening, *shows], input=script, text=True,
                         stdout=subprocess.PIPE, check=True)
    parts = parts_of(ran.stdout)
    screens = screens_of(parts["screens"])
    differences = []
    for place, ((request, found), expected) in enumerate(zip(transcript, screens), 1):
        if found != expected:
            differences.append((f"request {place}", request, *first_difference(expected, found)))
    for name in TABLES:
        expected, found = in_rows_order(name, parts[name]), in_rows_order(name, tables[name])
        if found != expected:
            differences.append(("table", name, *first_difference(expected, found)))
    if parts["check"] != "consistent\n":
        differences.append(("check", parts["check"].strip(), "consistent", ""))
    return differences
