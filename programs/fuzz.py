#!/usr/bin/env python3
"""Runs the program and the plain program of bench/plain beside it on inputs that are drawn from a seed, and compares standard output, standard error
and exit status byte for byte. TPCC is the program (crates/tpcc/out/tpcc); PLAIN is the plain one where it is built already.

An input is words of a command line and a script: random bytes; lines that the plain program drew, clean or with bytes, words, numbers or lines changed,
cut, doubled or put elsewhere; lines of about 4,096 bytes; about 1,000,000 lines; words and options that are at, within or past their limits, in any
order, among words that are none. A run whose terminals ask is compared by its status, its fault and what was paid, since its threads do as they like.
Of seconds that are told only how they are written is compared.

A line for each difference says how to have it again; --only NUMBER tells more of one input, and --keep FOLDER leaves its files there. The last line
counts the inputs, and the status is 1 where one differs. Where there is no rustc to build the plain program it says so, and ends with status 0.
"""
import argparse
import os
import random
import re
import shlex
import shutil
import subprocess
import sys
import tempfile

TOP = os.path.dirname(os.path.dirname(os.path.abspath(__file__)))
PROGRAM = os.path.realpath(os.environ.get("TPCC", f"{TOP}/crates/tpcc/out/tpcc"))
SECONDS = 60

TABLES = ["WAREHOUSE", "DISTRICT", "CUSTOMER", "HISTORY", "ORDER", "ORDER-LINE", "NEW-ORDER", "ITEM", "STOCK"]
PARTS = ["screens", "report", "journal", "results", "check"] + TABLES
# a script has none
RUN_PARTS = PARTS + ["receipts"]
# An option's values that cost little, and its limits.
NUMBERS = {
    "warehouses": ([1, 1, 2, 3], 1, 100),
    "customers": ([10, 10, 20, 50], 10, 3000),
    "items": ([100, 100, 101, 137], 100, 100000),
    "seed": ([0, 1, 7, 4294967296], 0, 18446744073709551615),
    "moment": ([0, 86400, 951782400], 0, 4102444799),
    "terminals": ([1, 2, 3], 1, 999),
    "servers": ([1, 2, 4], 1, 16),
    "cards": ([0, 0, 0, 1, 5], 0, 100000),
    "retire": ([0, 1, 3], 0, 100000),
    "terminal": ([1, 2, 77], 1, 1000),
}
OPENING = ["warehouses", "customers", "items", "seed", "moment", "seeded"]
OPTIONS = {
    "script": OPENING + ["time", "show", "show"],
    "run": OPENING + ["time", "show", "show", "terminals", "servers", "cards", "cards", "retire", "direct"],
    "dump": OPENING,
    "requests": OPENING + ["terminal", "cards"],
}
FLAGS = ["seeded", "time", "direct"]
ODD_WORDS = ["", "-", "--", "-x", "-h", "-V", "--help", "--version", "help", "--unknown", "---seed", "--seed", "--Seed", "1", "0", "script", "run", "dump",
             "requests", "receipts", "dumps", "Script", "ITEM", "item", "ORDER_LINE", "journal", "--show", "--seeded=true", "--seeded=", "=", "--=", "\udcff", "ä", " ", "ITEM "]
# Requests, each word a field, and the least and the greatest of a field's numbers; the greatest warehouse, customer and item are of the opening.
REQUESTS = ["new-order W D C M I:W:Q I:W:Q I:W:Q I:W:Q I:W:Q", "payment W D W D C A M", "status W D C", "stock W D T", "delivery W Q M", "deliver M"]
FIELDS = {"W": (1, 1), "D": (1, 10), "C": (1, 10), "M": (0, 4102444799), "I": (1, 100), "Q": (1, 10), "T": (10, 20)}
# What may stand in the place of a number, if seldom rightly.
ODD_FIELDS = ["0{}", "00", "+{}", "-{}", "-0", "", " {}", "{} ", "{}\t", "{}\r", "{}\0", "{}.0", "{}.00", "{}e0", "0x{}", "{}x", "{},0", "{}:1", ":{}", "4294967295", "4294967296",
              "18446744073709551617", "4102444800", "99999999999999999999999", "\udcc3", "A", "BARBARBAR", "ABCDEFGHIJKLMNOP", "ABCDEFGHIJKLMNOPQ", "bar", "BAR1", "{}A", "BAR BAR"]
# A script's limits: of districts, carriers, quantities, lines, thresholds, items, amounts, names, moments and numbers.
LIMITS = [0, 1, 5, 10, 15, 20, 100, 999, 1000, 3000, 5000, 99999, 1000000, 9999999, 999999999, 4102444799, 4294967295, 9999999999, 18446744073709551615]
AMOUNTS = ["0.00", "0.01", "0.99", "1.00", "4999.99", "5000.00", "5000.01", "9999999999.99", "10000000000.00", "1.0", "1.000", ".50", "1.", "01.00", "1,00"]
WORDS = ["new-order", "payment", "status", "stock", "delivery", "deliver", "check", "results", "BARBARBAR", "ABCDEFGHIJKLMNOP", "ABCDEFGHIJKLMNOPQ", "A",
         "BAR1", "bar", "1:1:1", "1:1", "1:1:1:1", "::", "1::1", "#", "", "x", "\r", "\t", "\0", "\x1a", "\udcff", "-1", "1e3", "0x1"]


def bytes_of(text):
    return text.encode("utf-8", "surrogateescape")


class Author(random.Random):
    """Draws one input."""

    def __init__(self, seed, number, plain):
        super().__init__(f"{seed} {number}")
        self.plain = plain

    def once_in(self, times):
        return self.randrange(times) == 0

    # ---- scripts

    def lines(self, count, options):
        """A script that the plain program draws, for an opening of this scale."""
        scale = [word for name, value in options.items() if name in OPENING[:3] for word in (f"--{name}", str(value))]
        kind = self.choice(["valid", "mixed", "hostile", "tour"])
        words = ["generate", "--kind", kind, "--lines", str(count), "--seed", str(self.getrandbits(63)), *scale]
        return subprocess.run([self.plain, *words], stdout=subprocess.PIPE, check=True).stdout

    def noise(self):
        """Random bytes, from few or from all that there are."""
        bytes_there = self.choice([bytes(range(256)), b"\n\n x", b"0123456789 .:\n", b"newordrpaymtschkliv- \n0123456789:.ABR", bytes(range(32, 127)) + b"\n"])
        return bytes(self.choices(bytes_there, k=self.choice([0, 1, 2, 10, 100, 5000, 20000])))

    def number(self):
        """A number at or about a limit, as it is written or as it must not be."""
        number = str(self.choice(LIMITS) + self.choice([-1, 0, 0, 1]))
        form = self.choice(["{}"] * 8 + ["0{}", "+{}", "-{}", "{}.00", "{}0", " {}", "{} ", "{}:1", "{}\0"])
        return bytes_of(form.format(number))

    def changed(self, script):
        """A script with one change."""
        if not script:
            return self.noise()
        place, other = sorted(self.randrange(len(script) + 1) for _ in range(2))
        lines = script.splitlines(keepends=True)
        line = self.randrange(len(lines))
        kind = self.randrange(14)
        if kind == 0:  # a byte is another, or is not there, or is new
            byte = bytes([self.choice([self.randrange(256), *b" \n\r\t.:-0A\0"])])
            return script[:place] + byte * self.randrange(2) + script[place + self.randrange(2):]
        if kind == 1:  # a few bytes are missing, or there twice
            other = min(other, place + self.choice([1, 2, 9]))
            return script[:place] + script[place:other] * self.choice([0, 2]) + script[other:]
        if kind == 2:
            return script[:place]
        if kind == 3:
            return script.removesuffix(b"\n")
        if kind in (4, 5, 6):  # a number or a word is another
            pattern, drawn = (rb"[0-9]+", self.number()) if kind < 6 else (rb"[^ \n]+", bytes_of(self.choice(WORDS)))
            if b"." in script and self.once_in(4):
                pattern, drawn = rb"[0-9]+\.[0-9]+", bytes_of(self.choice(AMOUNTS))
            found = list(re.finditer(pattern, script))
            if not found:
                return script
            it = self.choice(found)
            return script[:it.start()] + drawn + script[it.end():]
        if kind == 7:  # a line is missing, or there more often
            lines[line:line + 1] *= self.choice([0, 2, 3])
        elif kind == 8:
            lines.insert(self.randrange(len(lines)), lines.pop(line))
        elif kind == 9:  # two lines are one
            lines[line] = lines[line].rstrip(b"\n")
        elif kind == 10:  # words more or less
            words = lines[line].rstrip(b"\n").split(b" ")
            at = self.randrange(len(words) + 1)
            words[at:at + self.randrange(2)] = [self.choice([*words, b"0", b"1:1:1"])] * self.choice([0, 1, 1, 2, 40])
            lines[line] = b" ".join(words) + b"\n"
        elif kind == 11:
            lines[line] = self.long_line()
        elif kind == 12:
            lines[line] = self.choice([b"", b" ", b"\r", b"#", b"check ", b" check", b"check\r", b"results results", b"deliver"]) + b"\n"
        else:
            lines[line] = self.noise()
        return b"".join(lines)

    def long_line(self):
        """A line of about the greatest length, of an order or of one word."""
        length = self.choice([4094, 4095, 4096, 4097, 4098, 8191, 8192, 8193, 70000])
        head = self.choice([b"", b"new-order 1 1 1 0", b"check", b"payment 1 1 1 1 "])
        fill = {b"new-order 1 1 1 0": b" 1:1:1", b"payment 1 1 1 1 ": b"1"}.get(head, b"x")
        line = (head + fill * (length // len(fill) + 1))[:length]
        return line + self.choice([b"\n", b"\n", b"\n", b""])

    def request(self, options, is_odd):
        """A request whose numbers are at their limits and one past them; of an odd one, one field is something else."""
        most = {"W": options.get("warehouses", 1), "C": options.get("customers", 10), "I": options.get("items", 100)}

        def field(letter):
            if letter == "A":
                return self.choice(AMOUNTS[:9])
            least, last = FIELDS[letter]
            ends = [least - 1, least, most.get(letter, last), most.get(letter, last) + 1]
            return str(max(0, self.choice([self.randint(*ends[1:3]), *ends] if self.once_in(4) else [self.randint(*ends[1:3])])))

        parts = re.split(r"([A-Z])", self.choice(REQUESTS))
        odd = self.choice(range(1, len(parts), 2)) if is_odd else 0
        for at in range(1, len(parts), 2):
            letter = parts[at]
            parts[at] = field(letter)
            if at == odd:
                parts[at] = self.choice(AMOUNTS if letter == "A" and self.once_in(2) else ODD_FIELDS).format(parts[at])
        return bytes_of("".join(parts)) + b"\n"

    def script(self, options):
        kind = self.randrange(100)
        if kind < 10:
            return self.noise()
        if kind == 10:
            return b"results\n" * self.choice([999999, 1000000, 1000001]) + self.choice([b"", b"x", b"\n"])
        if kind < 16:
            return b"check\n" * self.choice([0, 1, 1364, 1365]) + self.long_line() + self.choice([b"", b"check\n"])
        if kind >= 50:
            return b"".join(self.request(options, False) for _ in range(self.choice([0, 1, 5]))) + self.request(options, True) + self.choice([b"", b"", b"check\n"])
        script = self.lines(self.choice([1, 3, 10, 10, 60, 400]), options)
        for _ in range(0 if kind < 25 else self.choice([1, 1, 2, 5])):
            script = self.changed(script)
        return script

    # ---- command lines

    def options(self, command, is_clean):
        """Names and values, of which clean ones cost little and are within their limits; else one is at or past a limit, or no number."""
        options = dict.fromkeys(self.sample(OPTIONS[command], self.randrange(5)))
        for name in options:
            if name in NUMBERS:
                options[name] = self.choice(NUMBERS[name][0])
        if not is_clean:
            name = self.choice([name for name in OPTIONS[command] if name in NUMBERS])
            _, least, most = NUMBERS[name]
            odd = ["", "x", "-1", "1.0", "1e3", f"0{least}", f"+{least}", f" {least}", 4294967296]
            options[name] = self.choice([least - 1, least, most, most, most + 1, most + 1, self.choice(odd)])
        return options

    def words_of(self, command, options):
        words = []
        for name, value in options.items():
            if name == "show":
                for part in self.choices(RUN_PARTS if command == "run" or self.once_in(20) else PARTS, k=self.choice([1, 1, 2, 4, 16])):
                    words += [f"--show={part}"] if self.once_in(4) else ["--show", part]
            elif value is None:
                words.append(f"--{name}")
            else:
                words += [f"--{name}={value}"] if self.once_in(4) else [f"--{name}", str(value)]
        return words

    def spoiled(self, words):
        """Words of which one is odd, missing, there twice or elsewhere."""
        place = self.randrange(len(words) + 1)
        kind = self.randrange(5)
        if kind == 0:
            words.insert(place, self.choice(ODD_WORDS))
        elif kind == 1:
            del words[place:place + 1]
        elif kind == 2:
            words[place:place + 1] *= 2
        elif kind == 3 and words:
            words.insert(place, words.pop(self.randrange(len(words))))
        elif place < len(words):
            words[place] = self.choice([words[place][:-1], words[place] + "x", words[place].upper(), self.choice(ODD_WORDS)])
        return words

    def input(self):
        """The words and the script."""
        if self.randrange(100) < 65:
            options = self.options("script", True)
            return ["script", *self.words_of("script", options)], self.script(options)
        command = self.choice(list(OPTIONS))
        words = self.words_of(command, self.options(command, self.once_in(2)))
        if command == "dump":
            words.insert(self.choice([0, len(words)]), self.choice(TABLES))
        words.insert(0, command)
        for _ in range(self.choice([0, 0, 1, 2])):
            words = self.spoiled(words)
        return cheap(words), b"check\ndelivery 1 1 0\ndeliver 0\nx\n"[:self.choice([6, 23, 33, 34, 35])]


# ---- what is compared


def given(words, name, default):
    """The numbers that an option is given, or its default; what is no number is 0."""
    text = "\n".join(words)
    found = re.findall(rf"^--{name}[=\n](.*)$", text, re.MULTILINE)
    return [int(value) if re.fullmatch(r"\+?[0-9]+", value) else 0 for value in found] or [default]


def cheap(words):
    """Words that would take long are given a scale that is refused once all of them are judged."""
    scale = max(given(words, "warehouses", 1)) * (100 * max(given(words, "customers", 10)) + max(given(words, "items", 100)))
    asked = max(given(words, "terminals", 2)) * (1 + max(given(words, "cards", 23))) if words[:1] == ["run"] else max(given(words, "cards", 23)) // 100
    if scale < 200000 and asked < 200:
        return words
    text, count = re.subn(r"^--warehouses[=\n].*$", "--warehouses=0", "\n".join(words), flags=re.MULTILINE)
    return (text if count else text + "\n--warehouses=0").split("\n")


def comparable(words, ended):
    """What must be the same of both programs: the status, standard error and standard output."""
    status, out, err = ended
    if "--time" in words:
        err = re.sub(rb"(?m)^(opening|requests [0-9]+ in) [0-9]+\.[0-9]{3} s(, [0-9]+ a second)?$", rb"\1 N s", err)
    if words[:1] == ["run"] and status == 0 and given(words, "cards", 23) != [0]:
        err = b""
        out = b"\n".join(line for line in out.splitlines() if re.match(rb"(paid|rise) ", line)) if "--show" not in " ".join(words) else b""
    return {"status": status, "stderr": err, "stdout": out}


def run(program, words, script):
    try:
        ended = subprocess.run([program, *map(bytes_of, words)], input=script, stdout=subprocess.PIPE, stderr=subprocess.PIPE, timeout=SECONDS, check=False)
    except subprocess.TimeoutExpired:
        return f"not within {SECONDS} seconds", b"", b""
    return ended.returncode, ended.stdout, ended.stderr


def compared(plain, seed, number):
    """The input, what each program made of it, and what of that differs."""
    words, script = Author(seed, number, plain).input()
    ends = [run(program, words, script) for program in (PROGRAM, plain)]
    ours, theirs = (comparable(words, ended) for ended in ends)
    return words, script, ends, [what for what in ours if ours[what] != theirs[what]]


def keep(folder, script, ends):
    """Leaves an input's files in a folder."""
    os.makedirs(folder, exist_ok=True)
    files = {"stdin": script}
    for name, (status, out, err) in zip(("program", "plain"), ends):
        files |= {f"{name}.status": b"%s\n" % str(status).encode(), f"{name}.stdout": out, f"{name}.stderr": err}
    for name, content in files.items():
        with open(f"{folder}/{name}", "wb") as it:
            it.write(content)


def built(folder):
    """The plain program, or None where it can't be built."""
    if os.environ.get("PLAIN"):
        return os.path.realpath(os.environ["PLAIN"])
    if not shutil.which("rustc"):
        return None
    subprocess.run(["rustc", "--edition", "2021", "-O", "-o", f"{folder}/plain", f"{TOP}/bench/plain/main.rs"], check=True)
    return f"{folder}/plain"


def main():
    arguments = argparse.ArgumentParser(description="Compares the program with bench/plain on inputs that are drawn from a seed.")
    arguments.add_argument("--inputs", type=int, default=500, help="how many inputs (500)")
    arguments.add_argument("--seed", type=int, default=1, help="what they are drawn from (1)")
    arguments.add_argument("--only", type=int, help="this input alone")
    arguments.add_argument("--keep", help="a folder for the files of the last input that differs, or of the only one")
    asked = arguments.parse_args()
    sys.stdout.reconfigure(errors="backslashreplace")
    if not os.access(PROGRAM, os.X_OK):
        sys.exit(f"fuzz: there is no program at {PROGRAM}; (cd crates/tpcc && rt run) builds it")
    numbers = range(1, asked.inputs + 1) if asked.only is None else [asked.only]
    passed = failed = 0
    with tempfile.TemporaryDirectory() as folder:
        plain = built(folder)
        if not plain:
            print("fuzz: skipped, since there is no rustc on the PATH to build bench/plain")
            return 0
        for number in numbers:
            words, script, ends, differences = compared(plain, asked.seed, number)
            if differences:
                failed += 1
                print(f"fuzz: programs/fuzz.py --seed {asked.seed} --only {number} differs in {', '.join(differences)}: tpcc {shlex.join(words)}", flush=True)
            else:
                passed += 1
            if asked.only is not None:
                print(f"tpcc {shlex.join(words)} < {len(script)} bytes: {[(status, len(out), err[:200]) for status, out, err in ends]}")
            if asked.keep and (differences or asked.only is not None):
                keep(asked.keep, script, ends)
    print(f"fuzz: {passed} passed, {failed} failed")
    return 1 if failed else 0


if __name__ == "__main__":
    sys.exit(main())
