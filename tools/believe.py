#!/usr/bin/env python3
"""Prints which files of specs/ the program's promise reaches, and fails where a clause reaches a lemma.

    believe.py [--all]

From the clauses of what makes the promise it goes word by word to the definitions that the words name, and on
from these; from a type that a function takes or gives to what a clause sees of it. It prints a line for each
file, behind the files that it cites: how many of its definitions are reached, and how many lines these have.
With --all it does so from each public clause of each library.

It fails where a public clause leads to a lemma or into a file that ends in Lemmas, and tells the way; where an
import on the way names nothing; and where the list in docs/believe.md has other files than the promise reaches.

What it doesn't see: it knows no types, so a variable that is named as an import counts as that import; and it
goes nowhere from std, the kit, invariants, codings and proofs, nor from the proofs that an impl gives its trait.
"""
import re, sys
from collections import defaultdict
from dataclasses import dataclass, field
from pathlib import Path

ROOT = Path(__file__).resolve().parent.parent
PAGE = "docs/believe.md"
PROMISE = {
    "pgapply_command": ["execute", "execute_on"],
    "leader": ["run", "run_on", "run_spooled", "run_spooled_on", "report"],
    "snapshot": ["Reader", "Watch"],
}
DEFINITIONS = ("abbrev", "unfoldable", "record", "data")


class Fault(Exception):
    pass


class Scope:
    """What names mean in a file or a block: what its imports bring in, then what those around it do."""

    def __init__(self, around=None):
        self.names, self.modules, self.around = {}, {}, around

    def bring(self, line):
        path, names, alias = re.match(r"use ([\w.]+?)(?:\.\{(.*)\}| as (\S+))?$", " ".join(line.split())).groups()
        if names is None:
            self.modules[alias or path.rpartition(".")[2]] = path
        for name in filter(None, map(str.strip, (names or "").split(","))):
            self.names[name.split(" as ")[-1]] = path, name.split(" as ")[0]

    def find(self, word):
        """The module and the name that a word stands for; behind a module's name stands a dot."""
        head, _, rest = word.partition(".")
        if head in self.names:
            return self.names[head]
        if head in self.modules:
            return self.modules[head], rest.partition(".")[0]
        return self.around.find(word) if self.around else None


def words_of(term):
    """The words of a term, with what stands behind their dots. An operator is imported with its holes."""
    for word in re.findall(r"(?<![^\s(){}\[\],;])[^\s(){}\[\],;.]+(?:\.[^\s(){}\[\],;.]+)*", term):
        yield from (word, f"◌{word}◌")
        if word == "do":
            yield "◌>>=◌"


@dataclass(eq=False)
class Item:
    """A definition or a lemma of specs/; or a function, a type, a trait or an impl of src/."""
    file: object
    line: int
    name: str
    kind: str
    public: bool = True
    # of specs/: how many lines it has
    lines: int = 1
    # what it says, each by a name and in a scope
    terms: list = field(default_factory=list)
    # of src/: the Rust names in its head; the type it belongs to; the names in each field of a type; its model
    types: str = ""
    of: str = ""
    fields: dict = field(default_factory=dict)
    model: dict = field(default_factory=dict)

    def __str__(self):
        return f"{self.file.path}:{self.line} {self.of + '::' if self.of else ''}{self.name}"

    def is_spec(self):
        return isinstance(self.file, Specs)

    def is_lemma(self):
        return self.is_spec() and self.kind not in DEFINITIONS


# ---- specs/


class Specs(Scope):
    """A file of specs/: its items, and which names mean them."""

    def __init__(self, path):
        super().__init__()
        self.path, self.items = path, {}
        # modules around a line, by their indent and head; the item that a line belongs to; a head that isn't whole
        blocks, item, head = [(0, "")], None, ""
        for number, line in enumerate((ROOT / path).read_text().split("\n"), 1):
            line = re.sub(r'"(?:\\.|[^"\\])*"', '""', re.sub(r"(^|\s)--(\s.*|-*)$", "", line)).rstrip()
            text, indent = line.strip(), len(line) - len(line.lstrip())
            if not text:
                continue
            if head:
                if not head.endswith(" where"):
                    head = f"{head} {text}"
                    continue
                blocks.append((indent, f"{blocks[-1][1]} {head}"))
                item, head = None, ""
            while indent < blocks[-1][0]:
                blocks.pop()
                item = None
            begun = None
            if indent == blocks[-1][0]:
                if text.startswith(("use ", "pub use ")):
                    self.bring(text.removeprefix("pub "))
                    continue
                if text.startswith(("infix", "pub mod ")):
                    continue
                if re.match(r"(pub )?module ", text):
                    head = text
                    continue
                begun = self.begin(item, text)
            if begun:
                kind, name = begun
                item = self.items[name] = Item(self, number, name, kind, terms=[["", blocks[-1][1], self]])
            else:
                if item is None:
                    raise Fault(f"{path}:{number}: a line of no definition")
                item.lines += 1
                made = re.match(r"((?:[^\s:(){}]+ )+):( |$)", text)
                if item.kind == "data" and made:
                    self.items.update({name: item for name in made[1].split()})
            item.terms[0][1] += f" {text}"

    def begin(self, item, text):
        """The kind and the name of what a line begins, if it doesn't go on with the last item."""
        found = re.match(r"(abbrev |unfoldable |)(pub |)(record |data |)([^\s:(){}]+)( :(?: |$)|$|)", text)
        if not found or (item and found[4] == item.name):
            return None
        begins = any(found.groups()[:3]) or found[5] or text == found[4]
        return ((found[1] or found[3] or "lemma").strip(), found[4]) if begins else None

    def means(self, name):
        """What the name of an item of this file means, or one that it passes on."""
        return self.items.get(name) or self.names.get(name)


# ---- src/


BLANK = re.compile(r"""//[^\n]*|/\*.*?\*/|b?"(?:\\.|[^"\\])*"|b?r(\#*)".*?"\1|b?'(?:\\[^']*|[^'\\])'""", re.S)
HEAD = re.compile(r"(pub(?:\([^)]*\))?\s+|)(?:(?:unsafe|default|async|const(?=\s+fn))\s+)*"
                  r"(ghost|use|mod|fn|struct|enum|union|type|trait|impl|macro_rules!|const|static|extern)\b\s*(\w*)")


class Source:
    """A file of src/: its items, and what its `use` lines bring in."""

    def __init__(self, crate, module, path):
        self.crate, self.module, self.path = crate, module, path
        self.uses, self.names, self.modules, self.items = {}, {}, {}, []
        # without comments and texts, each letter where it was
        self.text = BLANK.sub(lambda found: re.sub(r"[^\n]", " ", found[0]), (ROOT / path).read_text())
        self.read(0, len(self.text), Scope(), None)

    def close(self, i):
        """Behind the bracket that closes the one here."""
        depth = 0
        for found in re.compile(r"[(\[{]|[)\]}]").finditer(self.text, i):
            depth += 1 if found[0] in "([{" else -1
            if depth == 0:
                return found.end()
        raise Fault(f"{self.path}: a bracket is open")

    def next(self, i, signs):
        """The next of these signs that stands in no brackets."""
        while self.text[i] not in signs:
            i = self.close(i) if self.text[i] in "([{" else i + 1
        return i

    def read(self, i, end, scope, owner):
        """The items of a file, or of the block of an owner."""
        while True:
            while i < end and (self.text[i].isspace() or self.text[i] == "#"):
                i = self.close(self.text.index("[", i)) if self.text[i] == "#" else i + 1
            if i >= end:
                return
            found = HEAD.match(self.text, i)
            if not found:
                # a macro's call
                i = self.next(i, ";{")
                i = self.close(i) if self.text[i] == "{" else i + 1
                continue
            public, word, name = found[1].strip() == "pub", found[2], found[3]
            line = self.text.count("\n", 0, i) + 1
            made = Item(self, line, name, "type" if word in ("struct", "enum", "union", "type") else word, public)
            i = self.item(found, made, scope, owner)

    def item(self, found, made, scope, owner):
        """Takes an item whose head was found, and answers where the next begins."""
        word, begin = found[2], found.end()
        if word == "fn":
            return self.function(begin, made, scope, owner)
        if word in ("ghost", "use", "type", "const", "static", "extern"):
            end = self.next(begin, ";")
            if word == "use":
                self.use(" ".join(self.text[found.start(3):end].split()), "", made.public)
            elif word == "ghost" and made.name == "use":
                scope.bring(self.text[found.start(3):end])
            elif word == "ghost":
                self.member(owner, made.name, self.text[self.next(begin, "{") + 1:end].rstrip(" }\n"), scope)
            elif word == "type" and owner:
                owner.types += self.text[begin:end]
            elif word == "type":
                made.fields[""] = self.text[begin:end]
                self.add(made)
            return end + 1
        open_ = self.next(begin, ";{" if made.kind in ("mod", "type") else "{")
        end = self.close(open_) if self.text[open_] == "{" else open_ + 1
        if word == "mod":
            self.modules[made.name] = made.public
        elif word == "trait":
            made.types = self.text[begin:open_]
            self.add(made)
            self.read(open_ + 1, end - 1, Scope(scope), made)
        elif word == "impl":
            self.impl(found.end(2), open_, end, made, scope)
        elif made.kind == "type":
            self.type(word, begin, open_, end, made, scope)
        return end

    def add(self, made):
        self.names[made.name] = made
        self.items.append(made)

    def member(self, owner, name, term, scope):
        """A ghost member of a trait or an impl."""
        if owner.kind == "Model":
            owner.model[name] = term, scope
        else:
            owner.terms.append([name, term, scope])

    def function(self, i, made, scope, owner):
        begin = i
        while True:
            open_ = self.next(i, ";{")
            clause = re.search(r"\b(?:requires|ensures)\*?(?:\s+\w+)?\s*$", self.text[begin:open_])
            end = self.close(open_) if self.text[open_] == "{" else open_ + 1
            if not clause:
                break
            made.types += self.text[begin:begin + clause.start()]
            made.terms.append([" ".join(clause[0].split()), self.text[open_ + 1:end - 1], scope])
            i = begin = end
        made.types += self.text[begin:open_]
        if owner and owner.kind == "trait":
            owner.terms += [[f"{made.name}, {name}", term, scope] for name, term, scope in made.terms]
            owner.types += made.types
        elif owner:
            made.of, made.types = owner.of, f"{made.types} {owner.types}"
            made.public = made.public or owner.kind != "impl"
            self.items.append(made)
        else:
            self.add(made)
        return end

    def type(self, word, begin, open_, end, made, scope):
        """The fields of a struct; all of an enum is one field, and so are fields without names."""
        self.add(made)
        if word != "struct" or self.text[open_] != "{":
            made.fields[""] = self.text[begin:end]
            return
        inner = Scope(scope)
        for found in re.finditer(r"ghost (use [^;]*);", self.text[open_:end]):
            inner.bring(found[1])
        for found in re.compile(r"ghost (\w+):\s*(?=\{)").finditer(self.text, open_, end):
            made.terms.append([found[1], self.text[found.end() + 1:self.close(found.end()) - 1], inner])
        parts = re.split(r"(?<!:)\b(\w+)\s*:(?!:)", self.text[open_ + 1:end - 1])
        made.fields.update(zip(parts[1::2], parts[2::2]))

    def impl(self, i, open_, end, made, scope):
        head = self.text[i:open_]
        while (shorter := re.sub(r"<[^<>]*>", "", head.replace("->", "  "))) != head:
            head = shorter
        trait, turn, name = re.sub(r"\bwhere\b.*", "", head, flags=re.S).rpartition(" for ")
        made.of = re.findall(r"\w+", name)[-1] if re.findall(r"\w+", name) else ""
        made.types, made.kind = self.text[i:open_], "impl"
        if turn:
            made.name = re.findall(r"\w+", trait)[-1]
            made.kind, made.public = "Model" if made.name == "Model" else "kept", True
            self.items.append(made)
        self.read(open_ + 1, end - 1, Scope(scope), made)

    def use(self, text, before, public):
        """Notes what a `use` brings in, with those in its braces."""
        path, braces, inner = text.strip().partition("{")
        if braces:
            # at the commas that stand in no braces
            for part in re.findall(r"(?:[^,{}]|\{(?:[^{}]|\{[^{}]*\})*\})+", inner[:-1]):
                self.use(part, before + path, public)
        elif path:
            path, _, alias = (before + path).partition(" as ")
            path = path.removesuffix("::self")
            self.uses[alias or path.rpartition("::")[2]] = path, public


# ---- all crates


class Crates:
    def __init__(self):
        self.specs, self.sources, self.known, self.unknown = {}, {}, {}, {}
        for path in sorted(ROOT.glob("crates/*/specs/**/*.antt")) + sorted(ROOT.glob("crates/*/src/**/*.rt")):
            path = path.relative_to(ROOT)
            crate, folder, *module = path.with_suffix("").parts[1:]
            if folder == "specs":
                self.specs[".".join([crate, *module])] = Specs(str(path))
            elif module[0] != "tests":
                module = tuple(part for part in module if part != "lib")
                self.sources[crate, module] = Source(crate, module, str(path))
        self.items = [item for source in self.sources.values() for item in source.items]
        self.models = {(item.file.crate, item.of): item for item in self.items if item.kind == "Model"}
        self.kept = {(item.of, item.name): item for item in self.items if item.kind == "kept"}

    # -- what a name means

    def rust(self, source, path, before=()):
        """The item of src/ that a Rust path means in a file, if there is one."""
        head, _, rest = path.partition("::")
        if not source or not head or (source, path) in before:
            return None
        before += (source, path),
        if head in ("crate", "self", "super"):
            module = {"crate": (), "self": source.module, "super": source.module[:-1]}[head]
            return self.rust(self.sources.get((source.crate, module)), rest, before)
        if not rest and head in source.names:
            return source.names[head]
        if head in source.uses:
            return self.rust(source, source.uses[head][0] + ("::" + rest if rest else ""), before)
        inside = (source.crate, source.module + (head,)) if head in source.modules else (head, ())
        return self.rust(self.sources.get(inside), rest, before)

    def types(self, item, text, way):
        """The types and traits that some Rust text names."""
        for path in re.findall(r"(?<!['\w])\w+(?:::\w+)*", text):
            while path:
                found = self.rust(item.file, path)
                if found and found.kind in ("type", "trait"):
                    yield found, way if found.kind == "type" else ""
                path = path.rpartition("::")[0]

    def meant(self, path, name):
        """What a name of a module means in the terms of clauses and specs/; nothing where it stands outside."""
        root, crate, *inner = path.split(".")
        if root != "Rattle" or (crate, ()) not in self.sources:
            return []
        if inner[0] != "specs":
            raise Fault(f"{path} is none of specs/")
        if inner[1] in ("declared", "contracts"):
            return self.declared(crate, inner[2:] + [name])
        file = self.specs.get(".".join([crate, *inner[1:]]))
        shown = self.specs[f"{crate}.Lib"].modules
        if not file and inner[1] in shown:
            return self.meant(".".join([shown[inner[1]], *inner[2:]]), name)
        found = file and file.means(name)
        if not found:
            raise Fault(f"{path} has no {name}")
        return [(found, "")] if isinstance(found, Item) else self.meant(*found)

    def declared(self, crate, names):
        """What is generated from src/: of a type what a clause sees of it; an impl is named for its type and trait."""
        for k, name in enumerate(names):
            source = self.sources.get((crate, tuple(part for part in names[:k] if part != "lib")))
            found = [item for item in (source.names.values() if source else [])
                     if name == item.name or ("TheImpl" in names and name.startswith(item.name))]
            if found:
                item = max(found, key=lambda item: len(item.name))
                return [(item, "value")] if item.kind == "type" else []
        if "TheConstants" in names:
            return []
        raise Fault(f"{crate} declares no {'.'.join(names)}")

    # -- what an item cites

    def words(self, item, term, scope):
        """What the words of a term mean; notes an import that names nothing."""
        own = item.file if item.is_spec() else None
        for word in words_of(term):
            found = own and own.items.get(word.partition(".")[0])
            if found:
                yield found, ""
            elif brought := scope.find(word):
                try:
                    yield from self.meant(*brought)
                except Fault as fault:
                    self.unknown[f"{item}: {fault}"] = True

    def cites(self, node):
        """What a node cites: an item, and of a type whether its value alone is meant or its view too."""
        if node not in self.known:
            self.known[node] = list(dict.fromkeys(self.found(*node)))
        return self.known[node]

    def found(self, item, way):
        for _, term, scope in item.terms:
            for found in self.words(item, term, scope):
                # what an impl gives its trait as a proof is no clause
                if item.kind != "kept" or not found[0].is_lemma():
                    yield found
            for of, trait in re.findall(r"⟦<(\w+)[^⟧]* as (\w+)[^⟧]*>⟧", term):
                if (of, trait) in self.kept:
                    yield self.kept[of, trait], ""
        if item.kind == "type":
            yield from self.seen(item, way)
        elif not item.is_spec():
            yield from self.types(item, item.types, "view")

    def seen(self, item, way):
        """What a clause sees of a type: its value, and in a function's head how the fields make it; or all fields."""
        model, parts = self.models.get((item.file.crate, item.name)), item.fields
        if model:
            for name, (term, scope) in model.model.items():
                if name == "Value" or (name == "view" and way == "view"):
                    yield from self.words(item, term, scope)
            if way == "value":
                return
            yield from self.types(model, model.types.replace(item.name, ""), "view")
            made_of = re.findall(r"\.(\w+)", model.model["view"][0]) if "view" in model.model else []
            parts = {name: text for name, text in parts.items() if not name or name in made_of}
        for text in parts.values():
            yield from self.types(item, text, way)

    # -- where to begin

    def shown(self, source):
        """What a file of src/ shows to other crates."""
        found = [item for item in source.names.values() if item.public]
        found += [self.rust(source, path) for path, public in source.uses.values() if public]
        for name, public in source.modules.items():
            inside = self.sources.get((source.crate, source.module + (name,)))
            if public and inside:
                found += self.shown(inside)
        return [item for item in found if item]

    def with_members(self, items):
        """These items, and the public functions and impls of the types among them."""
        of = {(item.file.crate, item.name) for item in items}
        more = [item for item in self.items if item.public and (item.file.crate, item.of) in of]
        more = [item for item in more if item.kind != "Model"]
        return sorted(dict.fromkeys(items + more), key=lambda item: (item.file.path, item.line))

    def public(self):
        libraries = [source for source in self.sources.values() if source.path.endswith("/src/lib.rt")]
        return self.with_members([item for source in libraries for item in self.shown(source)])

    def promise(self):
        found = []
        for crate, names in PROMISE.items():
            shown = {item.name: item for item in self.shown(self.sources[crate, ()])}
            found += [shown.get(name) for name in names]
        if None in found:
            raise Fault("a name of the promise isn't there")
        return self.with_members(found)

    # -- the walk

    def walk(self, items):
        """What is reached from these items, each node with the one that led to it first."""
        reached = {(item, "view" if item.kind == "type" else ""): None for item in items}
        queue = list(reached)
        for node in queue:
            for other in self.cites(node) if not node[0].is_lemma() else []:
                if other not in reached:
                    reached[other] = node
                    queue.append(other)
        return reached

    def way(self, reached, node):
        """The steps by which a node was reached, the last first."""
        while before := reached[node]:
            item = before[0]
            clauses = [name for name, term, scope in item.terms if name and node in self.words(item, term, scope)]
            yield f"    cited by {', '.join([str(item), *clauses[:1]])}"
            node = before

    def faults(self, reached):
        for node in reached:
            item = node[0]
            if item.is_lemma() or (item.is_spec() and item.file.path.endswith("Lemmas.antt")):
                what = "is a lemma" if item.is_lemma() else "stands among lemmas"
                yield "\n".join([f"{item} {what}", *self.way(reached, node)])

    def order(self, reached):
        """The files that are reached, crate by crate, each behind those that it cites."""
        cited = defaultdict(set)
        for node in reached:
            if node[0].is_spec():
                queue = [node]
                for at in queue:
                    queue += [other for other in self.cites(at) if not other[0].is_spec() and other not in queue]
                    cited[node[0].file.path] |= {other[0].file.path for other in self.cites(at) if other[0].is_spec()}
        heights, order = {}, []

        def height(crate):
            if crate not in heights:
                below = {other.split("/")[1] for path in cited if path.split("/")[1] == crate for other in cited[path]}
                heights[crate] = 1 + max((height(other) for other in sorted(below - {crate})), default=0)
            return heights[crate]

        def visit(path, before):
            for other in sorted(cited[path] - before):
                if other.split("/")[1] == path.split("/")[1]:
                    visit(other, before | {path})
            if path not in order:
                order.append(path)

        for path in sorted(cited, key=lambda path: (height(path.split("/")[1]), path)):
            visit(path, {path})
        return order


def tell(crates, reached):
    """Prints the files that are reached."""
    items = defaultdict(list)
    for item, _ in reached:
        if item.is_spec():
            items[item.file.path].append(item)
    print("definitions  lines  file")
    for path in crates.order(reached):
        print(f"{len(items[path]):11}  {sum(item.lines for item in items[path]):5}  {path.removeprefix('crates/')}")
    found = [item for file in items.values() for item in file]
    print(f"{len(found)} definitions of {sum(item.lines for item in found)} lines in {len(items)} files")


def check_page(reached):
    """What the list of the page has too much, or not."""
    files = {item.file.path.removeprefix("crates/") for item, _ in reached if item.is_spec()}
    page = ROOT / PAGE
    listed = re.findall(r"^- `([\w/]+\.antt)`", page.read_text(), re.M) if page.exists() else []
    yield from (f"{path} is reached by the promise, and isn't listed in {PAGE}" for path in sorted(files - set(listed)))
    yield from (f"{path} is listed in {PAGE}, and the promise doesn't reach it" for path in sorted(set(listed) - files))


def main():
    if sys.argv[1:] not in ([], ["--all"]):
        print(__doc__.strip())
        return 0 if sys.argv[1:] == ["--help"] else 2
    try:
        crates = Crates()
        promised, public = crates.walk(crates.promise()), crates.walk(crates.public())
    except Fault as fault:
        print(f"believe: {fault}")
        return 1
    tell(crates, public if sys.argv[1:] else promised)
    faults = [*crates.unknown, *crates.faults(public), *check_page(promised)]
    for fault in faults:
        print(f"believe: {fault}")
    return 1 if faults else 0


if __name__ == "__main__":
    sys.exit(main())
