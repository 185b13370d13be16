#!/usr/bin/env python3
"""Lists the definitions that the contracts of the headline's public calls reach, by file: what has to be read to know what is promised.

    programs/definitions.py                        prints the list
    programs/definitions.py --write docs/PROOF.md  puts it between the two marks of that page
    programs/definitions.py --check docs/PROOF.md  fails where the list there is another one
    programs/definitions.py --public               prints of each file of specs/ how many definitions the headline reaches, how many any public
                                                   contract, and which none does; fails where a file stands in the wrong folder

It begins with the signatures and clauses (`requires`, `ensures`) of the calls in HEADLINE, and follows each name:
- in specs/, to what it stands for in that file, its own or by `use`: the whole definition or record. A lemma is proved, and nothing to believe;
- in src/, to the type, trait, alias or constant: of a type with a `Model` the value, the public fields and, for how it is seen, the view, the
  invariant and the fields that they read; of any other type all fields; of a trait its members' clauses; and the ghost members of an `impl`
  whose trait and type are reached. What a type has by the kit's traits, as `Display`, is left out.
Names of the kit end there; a name of the repository that nothing defines is an error. Lines are counted without comments and blank lines.
"""
import re
import sys
from collections import defaultdict
from pathlib import Path

sys.dont_write_bytecode = True
from sources import HEAD, ROOT, Sources  # noqa: E402

HEADLINE = """tpcc_program perform, tpcc_run run, tpcc_run run_shown, tpcc_script run_script, tpcc_script show_script, tpcc_program put_requests, tpcc_show dump_to,
    tpcc_book Book::serve, tpcc_book Book::serve_by, tpcc_book Book::audit, tpcc_book Book::gather, tpcc_book Register::turn,
    tpcc_turns Turns::serve, tpcc_turns Turns::serve_by, tpcc_turns Turns::gather, tpcc_turns Turns::serve_held,
    tpcc_server ask, tpcc_server serve_until_closed, tpcc_audit settle"""
INSIDE = "Internal"  # the folder of specs/ for what no public contract reaches
MARKS = "<!-- definitions -->\n", "<!-- end of definitions -->\n"


def words(text, patterns):
    """The names of a text that may stand for a definition, each with what is behind its first dot: no projections, labels or variables."""
    text = re.sub(r'"(?:[^"\\]|\\.)*"', " ", re.sub(r"--.*", "", text))
    bound = {it for it in re.findall(r"[^\s(){},]+", patterns) if "." not in it and not it[0].isupper()}
    for group in [*re.findall(r"[({]([^(){}:=]*) : ", text), *re.findall(r"λ ?([^.]*?)\. ", text), *re.findall(r"\blet \(?([^=:]*?)\)? [=:]", text)]:
        bound.update(re.findall(r"[^\s(),]+", group))
    found, depth, before = [], 0, ""
    for token in re.findall(r"[(){}\[\];,]|[^\s(){}\[\];,]+", text):
        depth += (token == "{") - (token == "}")
        if token == "=" and depth and found and found[-1][2] == before:  # the label of a record
            found.pop()
        head, _, tail = token.rstrip(".").partition(".")
        found += [(head, tail.split(".")[0], token)] if head else []
        before = token
    return [(head, tail) for head, tail, _ in found if head not in bound]


class Reach(Sources):
    def named(self, node, piece):
        """The nodes that a piece of a node's text names."""
        if node.is_spec:
            patterns = "" if HEAD.match(piece) else " ".join(re.split(r"\s=\s", piece)[0].split()[1:])
        else:
            patterns = " ".join(re.findall(r"\b([a-z]\w*): ", piece))
            piece = re.sub(r":(?=\s)", " : ", re.sub("[<>&]", " ", piece.replace("::", ".")))
        for head, tail in words(piece, patterns):
            for name in (head, f"◌{head}◌", "◌>>=◌" if head == "do" else head):  # an operator, and what joins the steps of a `do`
                if name in node.names:
                    crate, module, there = node.names[name]
                    found = self.definition(crate, module, there or tail)
                    if not found and crate in self.crates and not module.startswith("contracts."):
                        sys.exit(f"definitions: {node.crate} {node.name} names {crate} {module} {there or tail}, and nothing defines it")
                    yield found
                elif not node.is_spec and name[0].isupper():
                    yield self.item(node.crate, node.module, name)

    def reached(self, starts, how):
        """All nodes that these reach: by clauses and values alone, or also by how values are seen."""
        seen, todo = set(), list(starts)
        while todo or (todo := [node for node in self.joined(seen) if node not in seen]):
            node = todo.pop()
            if node and node not in seen and not node.is_lemma:
                seen.add(node)
                todo += [it for piece in self.counted(node, how) for it in self.named(node, piece)]
        return seen

    def joined(self, seen):
        """The impls of types that are reached, or the kit's, whose trait is `Model` or is reached."""
        for trait, kind, node in self.impls:
            whose, what = self.item(node.crate, node.module, kind), self.item(node.crate, node.module, trait) if trait else None
            if (whose in seen and trait == "Model") or (what in seen and (whose is None or whose in seen)):
                yield node

    def counted(self, node, how):
        """The pieces of a node that count."""
        model = next((it for trait, kind, it in self.impls if trait == "Model" and self.item(it.crate, it.module, kind) is node), None)
        if not model:
            return node.pieces + (node.how if how else [])
        shown = "".join(model.how + [it.text for piece in model.how for it in self.named(model, piece) if it and it.is_spec])
        read = set(re.findall(r"\.(\w+)", shown)) if how else set()
        fields = re.findall(r"^    (pub )?(\w+): ([^{}]*?),?$", node.pieces[0], re.M)
        # of a private field its type says what is read there, and the type's parameters do not
        return [kind if public else re.sub(r"<.*", "", re.sub(r"\b(?:Option|Vec|Box)<", "", kind)) for public, name, kind in fields if public or name in read]

    # where it begins

    def headline(self):
        for it in HEADLINE.split(","):
            crate, name = it.split()
            kind, _, method = name.rpartition("::")
            nodes = [self.methods[crate, kind].get(method)] if kind else [items.get(name) for (whose, _), items in self.items.items() if whose == crate]
            nodes = [node for node in nodes if node]
            if len(nodes) != 1:
                sys.exit(f"definitions: {crate} has {len(nodes)} functions {name}")
            yield nodes[0]

    def callable(self):
        """What the crates have for others, tests aside, and what their types have by the kit's traits."""
        nodes = {it for crate in self.crates if (crate, ()) in self.uses and crate != "tpcc_tests" for it in self.visible(crate)}
        return nodes | {it for trait, kind, it in self.impls if trait and self.item(it.crate, it.module, kind) in nodes}

    def visible(self, crate, module=()):
        """The public items of a module that other crates can name, and the public methods of the types among them."""
        nodes = [self.path(crate, module, path) for path, public in self.uses[crate, module].values() if public]
        nodes += [it for it in self.items[crate, module].values() if it in self.public or re.match("pub (?!fn)", it.text)]
        for node in filter(None, nodes):
            yield from [node, *(it for it in self.methods[node.crate, node.name].values() if it in self.public)]
        for child in re.findall(r"^pub mod (\w+);", self.files[crate, module].read_text(), re.M):
            yield from self.visible(crate, (*module, child))

    def every(self):
        return {it for nodes in self.specs.values() for it in nodes.values()}


def by_file(nodes):
    """The nodes of each crate and file, in the order in which they stand there."""
    files = defaultdict(list)
    for node in sorted(nodes, key=lambda it: it.at):
        files[node.crate, str(node.file.relative_to(ROOT / "crates" / node.crate))].append(node)
    return sorted(files.items())


def table(title, nodes):
    rows = [f"| {crate} | {file} | {len(held)} | {sum(it.lines for it in held)} | {', '.join(it.name for it in held)} |\n" for (crate, file), held in by_file(nodes)]
    return f"{title}: {len(nodes):,}, of {sum(it.lines for it in nodes):,} lines.\n\n| Crate | File | Definitions | Lines | Names |\n|---|---|---|---|---|\n{''.join(rows)}\n"


def page(them):
    """What stands between the marks."""
    every = {it for it in them.every() if not it.is_lemma}
    clauses, seen = (them.reached(them.headline(), how) for how in (False, True))
    types = {it for it in seen if it.is_type}
    return (f"Printed by `programs/definitions.py --write docs/PROOF.md`, which says how it follows a name. All\n"
            f"`specs/` have {len(every):,} definitions, of {sum(it.lines for it in every):,} lines. The contracts of the headline's calls reach these:\n\n"
            + table("By their clauses", clauses & every) + table("Further ones by how values are seen and what always holds of them", (seen - clauses) & every)
            + f"And {sum(' for ' not in it.name for it in types)} types, traits, aliases and constants of `src/`, of {sum(it.lines for it in types):,} lines with their models.\n")


def folders(them):
    """Prints how much of each file is reached; how many files are misplaced."""
    headline, public = them.reached(them.headline(), False), them.reached([*them.headline(), *them.callable()], False)
    wrong = 0
    for (crate, file), held in by_file(them.every()):
        count = [sum(it in nodes for it in held) for nodes in (headline, public)]
        misplaced = (count[1] > 0) == (f"/{INSIDE}/" in file)
        wrong += misplaced
        rest = [it.name for it in held if it not in public and count[1]]
        print(f"{'misplaced' if misplaced else '':9} {crate:16} {file:32} {len(held):3} headline {count[0]:3} public {count[1]:3}", *rest)
    return wrong


def main():
    them = Reach()
    match sys.argv[1:]:
        case []:
            print(page(them), end="")
        case ["--public"]:
            sys.exit(1 if folders(them) else 0)
        case ["--write" | "--check" as what, name]:
            text = Path(name).read_text()
            before, mark, rest = text.partition(MARKS[0])
            _, end, after = rest.partition(MARKS[1])
            if not mark or not end:
                sys.exit(f"definitions: {name} lacks a line {MARKS[1 if mark else 0].strip()}")
            new = before + mark + "\n" + page(them) + "\n" + end + after
            if what == "--write":
                Path(name).write_text(new)
            elif new != text:
                sys.exit(f"definitions: the list in {name} is another one: programs/definitions.py --write {name}")
        case _:
            sys.exit(__doc__)


if __name__ == "__main__":
    main()
