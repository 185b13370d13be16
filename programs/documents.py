#!/usr/bin/env python3
"""Tests that the commands in the documents do what stands there. TPCC is the program (crates/tpcc/out/tpcc).

Each document's commands run one after another, by bash, in a folder that looks like the top of a checkout: its entries are links to those of this
one, crates/tpcc/out/tpcc and the `tpcc` on the PATH are the program, and what a command writes stays there. A line that sets a variable holds for
the lines after it. A command ends with status 0, and with no `fault` on standard error, unless the text says one; the status of a fault is that of
the table in README.md. What stands in a block, or in code within a line, is

- a command (`tpcc`, `$tpcc`, `crates/tpcc/out/tpcc`, or a loop): it is run, and lines under it in the block are what it writes to standard output;
- a synopsis, which has one of PLACEHOLDERS: the program's usage must have its command and its options. The commands of the synopses with [OPTIONS]
  are all that the usage has, and so are the options in the documents' tables, with the same ranges and defaults;
- a command that needs the kit or a proved tree (`rt`, `programs/`, `.ci/`, `bench/`, `seal/`, `find`): the files that it names must be there;
- a request: a block of requests is a script, and a block under the next paragraph is what it writes. In a table, requests are a script that meets no
  refusal;
- under a paragraph with code: what its last command writes, given the requests behind it, or all code after 'on the lines', as a script; where it has
  requests alone, the screen of the last one. 'Ten times' (10 times) before a request stands for ten of it. Where the text says 'may say A to B', the
  first line's number lies there; where it ends in 'may say', the block is on standard error, and numbers may be others with as many decimals.

A block that is none of these fails. A line of output that is indented further goes on with the line above, after one space; of one that ends in ...
only what is before it is compared. All else is compared byte for byte.
"""
import os
import pty
import re
import subprocess
import sys
import tempfile
import textwrap

TOP = os.path.dirname(os.path.dirname(os.path.abspath(__file__)))
PROGRAM = os.path.realpath(os.environ.get("TPCC", f"{TOP}/crates/tpcc/out/tpcc"))
PAGES = ["README.md", "docs/formats.md", "docs/calling.md", "examples/README.md", "CONTRIBUTING.md"]
# of these only the files that commands name
OTHER_PAGES = ["docs/GATE.md", "docs/BENCH.md"]
COMMANDS = {"script", "run", "dump", "requests"}
REQUESTS = {"new-order", "payment", "status", "stock", "delivery", "deliver", "check", "results"}
# what a reader puts something in place of, in a synopsis and in a request
PLACEHOLDERS = {"[OPTIONS]", "TABLE", "PART", "T", "N", "OPENING", "SCRIPT", "SCREENS", "REPORT", "RECORDS"}
REQUEST_PLACEHOLDERS = {"W", "MOMENT"}
PROGRAMS = ("tpcc", "$tpcc", "crates/tpcc/out/tpcc")
KIT = re.compile(r"(\(cd \S+ && )?(rt |rt$|python3 |find |(\.\./\.\./)?(programs|\.ci|bench|seal)/)")
SECONDS = 100

outcomes = []


def report(where, what):
    """Counts what was tried, and prints it where it failed."""
    outcomes.append(not what)
    if what:
        print(f"{where}: {what}")


# ---- what stands in a document


def pieces(page):
    """Paragraphs, rows of tables and blocks: kind, number of the first line, text."""
    with open(f"{TOP}/{page}", encoding="utf-8") as it:
        lines = it.read().split("\n")
    found, kind, fence = [], None, False
    for number, line in enumerate(lines, 1):
        if line.lstrip().startswith("```"):
            fence, kind = not fence, None
        elif not line.strip() and not fence:
            if kind != "block":
                kind = None
            else:
                found[-1][2].append("")
        elif fence or (line.startswith("    ") and kind in (None, "block")):
            if kind != "block":
                found.append(["block", number, []])
                kind = "block"
            found[-1][2].append(line)
        elif line.startswith("|"):
            kind = "row"
            found.append(["row", number, [line]])
        else:
            if kind != "text":
                found.append(["text", number, []])
                kind = "text"
            found[-1][2].append(line)
    return [(kind, number, textwrap.dedent("\n".join(text)).rstrip("\n")) for kind, number, text in found]


def spans(text):
    """The code within a text, each as one line with what is before it."""
    parts = re.sub(r"\s+", " ", text).split("`")
    return list(zip(parts[1::2], parts[0::2]))


def has_placeholder(words):
    return not PLACEHOLDERS.isdisjoint(words.split())


def is_request(words):
    return words.split(" ")[0] in REQUESTS and (" " in words or words in ("check", "results")) and REQUEST_PLACEHOLDERS.isdisjoint(words.split())


def as_command(words):
    """A command with the program's name, or none."""
    first, *others = words.split() or [""]
    if (first in PROGRAMS and others and not others[0][0].isdigit()) or first == "for":
        return words
    return f"tpcc {words}" if first in COMMANDS and " " in words else None


def is_whole(lines):
    """Whether a command ends with the last of these lines."""
    if lines[0].startswith("for "):
        return re.search(r"\bdone$", lines[-1]) is not None
    return not lines[-1].endswith(("\\", "|"))


def times_said(before):
    return 10 if re.search(r"(ten|10) times $", before, re.IGNORECASE) else 1


# ---- how it is tried


def usage():
    """What --help writes to a terminal: the commands, and the text of each option by command."""
    terminal, end = pty.openpty()
    with subprocess.Popen([PROGRAM, "--help"], stdin=subprocess.DEVNULL, stdout=end, stderr=end) as ran:
        os.close(end)
        text = b""
        try:
            while more := os.read(terminal, 65536):
                text += more
        except OSError:  # as Linux reports that the other end is closed
            pass
        ran.wait()
    os.close(terminal)
    text = text.decode().replace("\r\n", "\n")
    listed = re.search(r"\nCommands:\n((?: .*\n)+)", text)
    commands = {it.split()[0] for it in listed.group(1).splitlines()} - {"help"} if listed else set()
    parts = re.split(r"^Usage: tpcc (\w+)", text, flags=re.MULTILINE)
    return commands, {name: dict(re.findall(r"--(\w+)(?: <\w+>)? {2,}(.*)", it)) for name, it in zip(parts[1::2], parts[2::2])}


class Page:
    """One document, and the folder in which its commands run."""

    def __init__(self, page, room, known):
        self.page, self.room, self.known, self.statuses = page, room, known, fault_statuses()
        self.sets, self.synopses, self.listed = [], set(), {}
        os.makedirs(f"{room}/crates/tpcc/out")
        os.makedirs(f"{room}/bin")
        for at in ("", "crates", "crates/tpcc"):
            for name in os.listdir(f"{TOP}/{at}"):
                if not os.path.lexists(f"{room}/{at}/{name}"):
                    os.symlink(f"{TOP}/{at}/{name}", f"{room}/{at}/{name}")
        os.symlink(PROGRAM, f"{room}/crates/tpcc/out/tpcc")
        os.symlink(PROGRAM, f"{room}/bin/tpcc")

    def run(self, command, script):
        paths = dict(os.environ, PATH=f"{self.room}/bin:{os.environ['PATH']}")
        words = ["timeout", str(SECONDS), "bash", "-o", "pipefail", "-c", "\n".join([*self.sets, command])]
        ran = subprocess.run(words, cwd=self.room, env=paths, input=script.encode(), capture_output=True, check=False)
        return ran.returncode, ran.stdout.decode(errors="replace"), ran.stderr.decode(errors="replace")

    def ended(self, command, script="", fault=""):
        """What a command wrote to both outputs, and how it ended otherwise than the text says."""
        status, out, err = self.run(command, script)
        wanted = self.statuses.get(fault.split()[2], 0) if fault else 0
        told = next((it for it in err.splitlines() if it.startswith("fault ")), "")
        if status != wanted or told != fault:
            return out, err, f"`{command}` ended with status {status} and '{told or err.strip()}', not {wanted} and '{fault}'"
        return out, err, ""

    def try_command(self, number, command, wanted=None, script="", fault="", bounds=None):
        out, _, what = self.ended(command, script, fault)
        report(f"{self.page}:{number}", what or ("" if wanted is None else difference(command, wanted, out, bounds)))

    def try_synopsis(self, number, words):
        command = next(iter(as_command(words).split()[1:]), "")
        unknown = [it for it in re.findall(r"--(\w+)", words) if it not in self.known.get(command, {})]
        if "[OPTIONS]" in words:
            self.synopses.add(command)
        what = f"the usage of {command} has no {unknown}" * bool(unknown)
        report(f"{self.page}:{number}", what if command in self.known else f"the usage has no command '{command}'")

    def try_files(self, number, words):
        folder = re.match(r"\(cd (\S+) &&", words)
        named = [it.strip("()") for it in words.split("#")[0].split() if "/" in it and "*" not in it and "'" not in it]
        at = folder.group(1) if folder else "crates/tpcc" if "../../" in words else "."
        missing = [it for it in named if not os.path.exists(f"{TOP}/{it}") and not os.path.exists(f"{TOP}/{at}/{it}")]
        report(f"{self.page}:{number}", f"there is no {' '.join(missing)}" * bool(missing))

    def try_requests(self, number, asked):
        out, _, what = self.ended("tpcc script", "".join(f"{it}\n" for it in asked))
        refused = [it for it in out.splitlines() if it.startswith("refused ")]
        report(f"{self.page}:{number}", what or f"{asked} meets '{' '.join(refused)}'" * bool(refused))

    # ---- blocks

    def try_block(self, number, text, before, script):
        """One block; gives the script that it is, if it is one."""
        lines = text.split("\n")
        if as_command(lines[0]) or KIT.match(lines[0]) or re.match(r"\w+=", lines[0]):
            self.try_commands(number, lines)
        elif all(map(is_request, lines)) and not any(is_request(it) or as_command(it) for it, _ in spans(before)):
            script = "".join(f"{it}\n" for it in lines)
            self.try_requests(number, lines)
            return script
        elif script and not spans(before):
            self.try_command(number, "tpcc script", text, script)
        else:
            self.try_output(number, text, before)
        return None

    def try_commands(self, number, lines):
        at = 0
        while at < len(lines):
            first = at
            at += 1
            while at < len(lines) and not is_whole(lines[first:at]):
                at += 1
            command = "\n".join(lines[first:at])
            under = at
            while at < len(lines) and lines[at] and not (as_command(lines[at]) or KIT.match(lines[at]) or re.match(r"\w+=", lines[at])):
                at += 1
            wanted = "\n".join(lines[under:at]) if at > under else None
            while at < len(lines) and not lines[at]:
                at += 1
            if re.match(r"\w+=", command):
                self.sets.append(command)
                report(f"{self.page}:{number + first}", "" if self.run("true", "")[0] == 0 else f"bash does not take `{command}`")
            elif KIT.match(command):
                self.try_files(number + first, command)
            elif has_placeholder(command.split("#")[0]):
                self.try_synopsis(number + first, command)
            else:
                self.try_command(number + first, command, wanted)

    def try_output(self, number, text, before):
        """A block under a paragraph: what its command or its requests write."""
        said = [(it, front) for it, front in spans(before)]
        last = max((at for at, (it, _) in enumerate(said) if as_command(it) and not has_placeholder(it)), default=None)
        behind = said if last is None else said[last + 1 :]
        fault = next((it for it, _ in behind if it.startswith("fault ")), "")
        given = [it for it, _ in said].index(fault) - len(said) + len(behind) if fault else len(behind)
        every = any("on the lines" in front for _, front in behind)
        asked = [it for it, front in behind[:given] if every or is_request(it) for _ in range(times_said(front))]
        if last is None and not asked:
            report(f"{self.page}:{number}", "the block is no command and no output of one")
            return
        script = "".join(f"{it}\n" for it in asked)
        bounds = re.search(r"may say (\d+) to (\d+)", re.sub(r"\s+", " ", before))
        if last is None:
            earlier, _, what = self.ended("tpcc script", "".join(f"{it}\n" for it in asked[:-1]))
            out, _, then = self.ended("tpcc script", script)
            report(f"{self.page}:{number}", what or then or difference(script.strip().split("\n")[-1], text, out[len(earlier) :], None))
        elif before.rstrip().endswith("may say"):
            _, err, what = self.ended(as_command(said[last][0]), script)
            report(f"{self.page}:{number}", what or difference(said[last][0], masked(text), masked(err), None))
        else:
            self.try_command(number, as_command(said[last][0]), text, script, fault, bounds)

    def try_spans(self, kind, number, text, is_sample):
        """Code within a paragraph or a row: what is not the sample of a block below it."""
        asked = []
        for words, before in spans(text):
            if KIT.match(words):
                if "/" in words:
                    self.try_files(number, words)
            elif as_command(words):
                if has_placeholder(words):
                    self.try_synopsis(number, words)
                elif not is_sample:
                    self.try_command(number, as_command(words))
            elif kind == "row" and is_request(words) and " " in words:
                asked += [words] * times_said(before)
        if asked:
            self.try_requests(number, asked)

    def try_option(self, number, text):
        """A row of a table of options."""
        cells = [it.strip() for it in text.strip("|").split("|")]
        name = re.fullmatch(r"`--(\w+)`", cells[0])
        if not name or len(cells) != 3:
            return
        self.listed[name.group(1)] = number
        figures = [it.replace(",", "") for it in re.findall(r"\d[\d,]*\d|\d", cells[2].split(" of ")[0].split(";")[0].split(" seconds")[0])[:2]]
        default = cells[1] if re.fullmatch(r"\d+", cells[1]) else None
        for command, options in self.known.items():
            helped = options.get(name.group(1))
            bounds = re.search(r"(\d+) to (\d+)", helped or "")
            what = ""
            if bounds and list(bounds.groups()) != figures:
                what = f"--{name.group(1)} is {' to '.join(figures)}, and in the usage of {command} '{helped}'"
            if bounds and default != re.search(r"else (\d+)", helped).group(1):
                what = f"--{name.group(1)} is {default} by default, and in the usage of {command} '{helped}'"
            if helped is not None:
                report(f"{self.page}:{number}", what)
        report(f"{self.page}:{number}", "" if any(name.group(1) in it for it in self.known.values()) else f"the usage has no --{name.group(1)}")

    def try_all(self):
        found, script, before = pieces(self.page), None, ""
        for at, (kind, number, text) in enumerate(found):
            if kind == "block":
                script = self.try_block(number, text, before, script)
                before = ""
            else:
                next_kind = found[at + 1][0] if at + 1 < len(found) else ""
                before = text if kind == "text" else ""
                self.try_spans(kind, number, text, next_kind == "block")
                if kind == "row":
                    self.try_option(number, text)


def fault_statuses():
    """The status of each fault, by its name, from README.md's table."""
    found = {}
    for kind, _, text in pieces("README.md"):
        if kind == "row" and "`fault " in text:
            cells = text.strip("|").split("|")
            for name in re.findall(r"(?:\d|N) ([A-Z]\w+)", cells[0]):
                found[name] = int(cells[-1])
    return found


def masked(text):
    """A text whose numbers are gone, but for how many decimals they have."""
    return re.sub(r"\d+(\.\d+)?", lambda it: "N" + "n" * len(it.group(1) or ""), text).rstrip("\n")


def difference(command, wanted, out, bounds):
    """How an output is other than a block says."""
    want = re.sub(r"\n +", " ", wanted).split("\n")
    lines = out.split("\n")
    if lines[-1] == "":
        lines.pop()
    for number, (one, other) in enumerate(zip(want, lines), 1):
        if number == 1 and bounds:
            figures = re.fullmatch(r"\w+ (\d+)", other)
            if not figures or not int(bounds.group(1)) <= int(figures.group(1)) <= int(bounds.group(2)):
                return f"`{command}` writes '{other}', not {bounds.group(0)}"
        elif one.endswith("..."):
            if not other.startswith(one[:-3]):
                return f"line {number} of `{command}` is '{other}', not '{one}'"
        elif one != other:
            return f"line {number} of `{command}` is '{other}', not '{one}'"
    return f"`{command}` writes {len(lines)} lines, not {len(want)}" * (len(want) != len(lines))


def main():
    if not os.access(PROGRAM, os.X_OK):
        sys.exit(f"documents: there is no program at {PROGRAM}; (cd crates/tpcc && rt run) builds it")
    commands, known = usage()
    synopses, listed = set(), set()
    with tempfile.TemporaryDirectory(prefix="tpcc-documents-") as room:
        for page in PAGES:
            it = Page(page, f"{room}/{page.replace('/', '-')}", known)
            it.try_all()
            synopses |= it.synopses
            listed |= set(it.listed)
        for page in OTHER_PAGES:
            it = Page(page, f"{room}/{page.replace('/', '-')}", known)
            for _, number, text in pieces(page):
                for words, _ in spans(text):
                    if KIT.match(words) and "/" in words:
                        it.try_files(number, words)
    report("the synopses", f"they have {sorted(synopses)}, and the usage has {sorted(commands)}" * (synopses != commands))
    for name in sorted(set().union(*known.values())):
        report("the tables of options", f"none has --{name}" * (name not in listed and name != "help"))
    print(f"documents: {sum(outcomes)} passed, {len(outcomes) - sum(outcomes)} failed")
    return 0 if all(outcomes) else 1


if __name__ == "__main__":
    sys.exit(main())
