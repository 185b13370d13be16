"""Reads crates/*/specs/ and crates/*/src/: each definition, type, trait and function's contract, and what each name in it stands for.

It goes by the layout that `rt fmt` and programs/layout.sh hold: what begins a definition or an item stands at the left, members four columns in.
"""
import itertools
import re
from collections import defaultdict
from pathlib import Path

ROOT = Path(__file__).resolve().parent.parent
PLACES = itertools.count()
USE = re.compile(r"^( *)(?:pub )?(?:ghost )?use Rattle\.(\w+)\.specs\.([^\s{};]+?)(?:\.\{([^}]*)\}|(?: as (\S+?))?);?$", re.M)
HEAD = re.compile(r"^( *)(?:abbrev |unfoldable )?pub (?:abbrev |unfoldable )?(record |data )?([^\s:]+)(?= |$)")
ITEM = re.compile(r"^(pub(?:\([^)]*\))? )?(struct|enum|trait|type|const|fn|impl)\b", re.M)
CLAUSE = re.compile(r"\s*(?:requires|ensures)\b[^{]*")


class Node:
    """A definition of specs/ or an item of src/: where it stands, what its names stand for, and the pieces of its text in which names count: `how`
    are those of a `Model` that tell how a value is seen, `pieces` all others."""

    def __init__(self, crate, module, file, name, text, names, pieces, how=()):
        self.crate, self.module, self.file, self.name, self.text = crate, module, file, name, text
        self.names, self.pieces, self.how, self.at = names, pieces, list(how), next(PLACES)
        self.is_spec = file.suffix == ".antt"
        self.is_lemma = self.is_spec and bool(re.match(r" *pub (?!record |data )", text))
        self.is_type = not self.is_spec and bool(re.match(r"(pub\S* )?(struct|enum|trait|type|const|impl)\b", text))
        self.lines = sum(1 for line in text.split("\n") if line.strip() and not line.strip().startswith(("--", "#[")))


def balanced(text, at):
    """The place behind the brace that closes the one at a place."""
    depth = 0
    for k in range(at, len(text)):
        depth += (text[k] == "{") - (text[k] == "}")
        if depth == 0:
            return k + 1
    raise SystemExit(f"definitions: a brace is not closed: {text[at:at + 60]!r}")


def imports(text, indent=None):
    """What the `use` lines of a text bind: a name to (crate, module, name there), or, as an alias, to (crate, module, None)."""
    bound = {}
    for space, crate, module, names, alias in USE.findall(text):
        if indent is None or len(space) == indent:
            for it in names.split(",") if names else []:
                name, _, other = it.strip().partition(" as ")
                bound[other or name] = (crate, module, name)
            if not names:
                bound[alias or module.split(".")[-1]] = (crate, module, None)
    return bound


def paths(text):
    """What Rust's `use` lines bind: a name to its path, and whether it is passed on."""
    bound = {}
    for public, path in re.findall(r"^(pub(?:\([^)]*\))? )?use ([^;]+);", text, re.M):
        base, _, group = re.sub(r"\s+", " ", path).partition("{")
        for it in group.rstrip("} ").split(",") if group else [""]:
            whole, _, other = (base + it.strip()).partition(" as ")
            bound[other or whole.split("::")[-1]] = (whole.split("::"), public == "pub ")
    return bound


def contract(text, at):
    """The name of the function at a place, and its signature with its clauses."""
    end = re.compile(r"\{|;|\n *(?:requires|ensures)\b").search(text, at).start()
    pieces, k = [text[at:end]], end
    while found := CLAUSE.match(text, k):
        k = balanced(text, found.end())
        pieces.append(text[found.end() + 1:k - 1])
    return re.search(r"\bfn (\w+)", pieces[0])[1], "\n".join(pieces)


def members(body):
    """The functions of a block: each name with its contract, and whether it is public."""
    return [(*contract(body, at.start()), bool(at[1])) for at in re.finditer(r"^    (pub )?fn ", body, re.M)]


def ghosts(body, only=None):
    """The ghost members or fields of a block, those of these names alone."""
    return [body[at.end() - 1:balanced(body, at.end() - 1)] for at in re.finditer(r"ghost (\w+)(?::| =) \{", body) if not only or at[1] in only]


class Sources:
    def __init__(self):
        self.specs, self.passed_on = {}, defaultdict(list)  # the definitions of a module of specs/, and what a crate's Lib.antt passes on
        self.items, self.uses, self.files = defaultdict(dict), {}, {}  # of a module of src/: its items, what it imports, its file
        self.impls, self.methods, self.public = [], defaultdict(dict), set()
        self.crates = sorted(it.name for it in (ROOT / "crates").iterdir())
        for crate in self.crates:
            for kind, read in (("specs/*.antt", self.read_specs), ("src/*.rt", self.read_source)):
                folder, _, pattern = kind.partition("/")
                for file in sorted((ROOT / "crates" / crate / folder).rglob(pattern)):
                    read(crate, file, file.relative_to(ROOT / "crates" / crate / folder).with_suffix("").parts)

    def read_specs(self, crate, file, parts):
        text, module = file.read_text(), ".".join(parts)
        if module == "Lib":
            self.passed_on[crate] = re.findall(r"^pub use Rattle\.(\w+)\.specs\.(\S+)$", text, re.M)
        names, defs, held, under = imports(text), {}, [], ""
        for line in text.split("\n"):
            head = HEAD.match(line)
            if line.startswith(("module ", "use ", "infix", "pub mod ", "pub use ")):
                under, held = (line if line.startswith("module ") else under), []
            elif head and len(head[1]) <= (2 if under else 0):
                under = under if head[1] else ""
                defs[head[3]] = held = [under.replace("module _", ""), line]
            elif held and line.strip() and not line.strip().startswith("--"):
                held.append(line)
        nodes = {}
        for name, (parameters, *lines) in defs.items():
            column = len(lines[0]) - len(lines[0].lstrip())
            pieces = [parameters]
            for line in lines:  # the type, and each equation by itself
                if len(line) - len(line.lstrip()) == column:
                    pieces.append(line)
                else:
                    pieces[-1] += "\n" + line
            body = "\n".join(lines)
            nodes[name] = Node(crate, module, file, name, body, names, pieces)
            if HEAD.match(lines[0])[2] == "data ":
                nodes.update({it: nodes[name] for it in re.findall(r"^ +(\S+) :", body, re.M)})
        for node in nodes.values():
            node.names = {**names, **{it: (crate, module, it) for it in nodes}}
        self.specs[crate, module] = nodes

    def read_source(self, crate, file, parts):
        module = () if parts in (("lib",), ("main",)) else parts
        text = re.sub(r"//.*", "", file.read_text())
        text = re.sub(r"b?'(?:[^'\\]|\\.)'|\"(?:[^\"\\]|\\.)*\"", lambda it: "_" * len(it[0]), text)
        names = imports(text, 0)
        self.uses[crate, module], self.files[crate, module] = paths(text), file
        for at in ITEM.finditer(text):
            start, kind = at.start(), at[2]
            if kind == "fn":
                name, clauses = contract(text, start)
                self.items[crate, module][name] = node = Node(crate, module, file, name, clauses, names, [clauses])
                self.public |= {node} if at[1] == "pub " else set()
                continue
            brace, semi = text.find("{", start), text.find(";", start)
            whole = kind in ("const", "type") or 0 <= semi and (semi < brace or brace < 0)
            body = text[start:semi + 1 if whole else balanced(text, brace)]
            scope = {**names, **imports(body)}
            if kind == "impl":
                self.read_impl(crate, module, file, body, scope)
                continue
            pieces = [body]
            if kind == "trait":
                pieces = [body[:body.find("{")], *ghosts(body), *(it for _, it, _ in members(body)), *re.findall(r"^    type .*", body, re.M)]
            elif kind == "struct":
                held = ghosts(body)
                pieces = [re.sub("|".join(map(re.escape, held)), "", body) if held else body, *held]
            name = re.search(r"\w+", text[at.end():])[0]
            self.items[crate, module][name] = Node(crate, module, file, name, body, scope, pieces)

    def read_impl(self, crate, module, file, body, scope):
        head = body[:body.find("{")]
        flat = re.sub(r"\s+", " ", head.replace("->", ""))
        while re.search(r"<[^<>]*>", flat):
            flat = re.sub(r"<[^<>]*>", "", flat)
        found = re.match(r"impl (?:([\w:]+) for )?&?(?:\w+::)*(\w+)", flat)
        if not found:
            return
        trait, kind = found[1] and found[1].split("::")[-1], found[2]
        pieces = ghosts(body, {"Value"} if trait == "Model" else None) + re.findall(r"^    type .*", body, re.M)
        how = ghosts(body, {"view", "invariant"}) if trait == "Model" else []
        self.impls.append((trait, kind, Node(crate, module, file, f"{trait} for {kind}", body, scope, pieces, how)))
        for name, clauses, public in members(body) if trait is None else []:
            self.methods[crate, kind][name] = node = Node(crate, module, file, f"{kind}::{name}", clauses, scope, [head, clauses])
            self.public |= {node} if public else set()

    # what a name stands for

    def definition(self, crate, module, name):
        """The node of a name of a module of specs/, or of the item of src/ that it declares."""
        if module.startswith("declared."):
            crate = next((there for there, other in self.passed_on[crate] if module.startswith(other)), crate)
            path = module.split(".")[1:]
            kinds = [it for it in path if it[0].isupper() and not it.startswith("The")]
            return self.item(crate, tuple(it for it in path if it[0].islower()), name if path[-1] == "TheConstants" else kinds[-1])
        if (crate, module) in self.specs:
            return self.specs[crate, module].get(name)
        return next((self.definition(there, module, name) for there, other in self.passed_on[crate] if other == module), None)

    def item(self, crate, module, name, seen=()):
        """The item of a name in a module of src/: its own, or by `use`."""
        if (crate, module, name) in seen or (crate, module) not in self.uses:
            return None
        if name in self.items[crate, module]:
            return self.items[crate, module][name]
        path = self.uses[crate, module].get(name, ([], False))[0]
        return self.path(crate, module, path, (*seen, (crate, module, name))) if path else None

    def path(self, crate, module, path, seen=()):
        """The item of a path that is written in a module of src/."""
        first, *rest = path
        if first == "crate":
            whole = rest
        elif first in ("self", "super"):
            whole = [*(module if first == "self" else module[:-1]), *rest]
        elif (first, ()) in self.uses:
            crate, whole = first, rest
        else:
            whole = [*module, *path]
        return self.item(crate, tuple(whole[:-1]), whole[-1], seen) if whole else None
