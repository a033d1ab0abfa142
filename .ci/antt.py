"""The definitions, laws and contracts of crates/, for .ci/definitions and .ci/specs: the items of a file, the names that an item reaches, the calls, and the theorems that docs/DEMANDS.md names."""

import pathlib
import re

ROOT = pathlib.Path(__file__).resolve().parent.parent
CRATES = ROOT / "crates"
NAME = r"[^\s(){}\[\];,.:]+"
TOKEN = re.compile(r"(?<![^\s(\[{;,])\.?[^\s(){}\[\];,]+")
IMPORT = re.compile(r"^(?:ghost )?(?:pub )?use Rattle\.(\w+)\.(specs|proofs)\.([\w./'-]+?)(?:\.\{([^}]*)\}| as ([^\s;]+));?$", re.M)
DECLARED = re.compile(rf"^\s*(?:pub |abbrev |unfoldable )*(?:(?:record|data) )?({NAME})(?: [^:]*)? :(?: |$)")


class File:
    """A file of definitions or laws: its items, and what its names mean."""

    def __init__(self, path):
        self.path = path
        text = path.read_text()
        self.imports, self.aliases = {}, {}
        for crate, kind, module, names, alias in IMPORT.findall(text):
            where = CRATES / crate / kind / (module.replace(".", "/") + ".antt")
            if alias:
                self.aliases[alias] = where
            for name in filter(None, (part.strip() for part in names.split(","))):
                first, _, last = name.partition(" as ")
                self.imports[last or first] = (where, first)
        self.items = self.parsed(text)
        self.local = {name: number for number, item in reversed(list(enumerate(self.items))) for name in item.names}

    @staticmethod
    def parsed(text):
        """The items of a text: what is between blank lines; indented lines after one belong to the item above."""
        items = []
        for part in re.split(r"\n\n+", text):
            lines = [line for line in part.split("\n") if line.strip() and not line.lstrip().startswith("--") and not re.match(r"(pub )?(use|mod) ", line)]
            if not lines:
                continue
            inside = lines[0].startswith(" ") and items
            if inside and not items[-1].module:
                items[-1].add(lines)
            else:
                items.append(Item(lines, bool(inside and items[-1].module) or lines[0].startswith("module ")))
        return items

    def reached(self, words):
        """The definitions that these words of the file name, as (file, name)."""
        for word in words:
            head, _, last = word.partition(".")
            if word in self.local:
                yield self.path, word
            elif word in self.imports:
                yield self.imports[word]
            elif last and head in self.aliases:
                yield self.aliases[head], last
            elif head in self.imports or head in self.local:
                yield (self.path, head) if head in self.local else self.imports[head]


class Item:
    """A definition with its equations, or definitions that call each other; in a proof file also a law."""

    def __init__(self, lines, module):
        self.module, self.lines = module, []
        self.names, self.law = [], True
        self.add(lines)

    def add(self, lines):
        self.lines += lines
        together = self.module or "mutual" in self.lines[0]
        self.names = []
        for line in self.lines:
            found = DECLARED.match(line)
            if found and (together or not line.startswith(" ")):
                self.names.append(found.group(1))
        if re.match(r"\s*(pub )?data ", self.lines[0]):
            self.names += [found.group(1) for line in self.lines[1:] if (found := re.match(rf"\s+(?:pub )?({NAME}) : ", line))]
        self.law = not re.match(r"\s*(abbrev|unfoldable|pub record|pub data|record|data)\b", self.lines[0])

    def statement(self, name):
        """The lines of what the item says of a name, without its proof."""
        found = []
        for line in self.lines:
            if found and re.match(rf"\s*({re.escape(name)} |unfolding )", line):
                break
            match = DECLARED.match(line)
            if found or match and match.group(1) == name:
                found.append(line)
        return found


def words(lines):
    return {word for line in lines for word in TOKEN.findall(line) if not word.startswith(".")}


def closure(files, roots):
    """The items that these names reach, as (file, number)."""
    found, todo = set(), list(roots)
    while todo:
        path, name = todo.pop()
        file = files.get(path)
        if file is None or name not in file.local:
            continue
        number = file.local[name]
        item = file.items[number]
        if (path, number) in found or item.law and "proofs" in path.relative_to(CRATES).parts:
            continue
        found.add((path, number))
        todo += file.reached(words(item.lines))
    return found


def contracts(path):
    """The contract of each public function of a source, with the definitions that it cites."""
    text = path.read_text()
    source = File.__new__(File)
    source.path, source.local, source.imports, source.aliases = path, {}, {}, {}
    for crate, kind, module, names, alias in IMPORT.findall(text):
        where = CRATES / crate / kind / (module.replace(".", "/") + ".antt")
        if alias:
            source.aliases[alias] = where
        for name in filter(None, (part.strip() for part in names.split(","))):
            first, _, last = name.partition(" as ")
            source.imports[last or first] = (where, first)
    for name, contract in re.findall(r'^pub (?:extern "C" )?fn (\w+)(?:<[^(]*>)?\((.*?)^\{', text, re.S | re.M):
        clauses = re.sub(r"^.*?(?=\n    (?:requires|ensures))", "", contract, count=1, flags=re.S)
        yield name, list(source.reached(words(re.sub(r"\b(?:requires|ensures)(?: \w+)? \{", " ", clauses).split("\n"))))


def calls(files):
    """The calls of docs/CALLS.md, the C functions and the programs' functions, each with what its contract cites."""
    listed = re.findall(r"^\| `([a-z_0-9]+)::(?:\w+::)*(\w+)`", (ROOT / "docs/CALLS.md").read_text(), re.M)
    listed += [(crate, None) for crate in ("c_api", "program", "standard_streams")] + [("text", "count_feeds")]
    for crate, wanted in listed:
        for path in sorted((CRATES / crate / "src").glob("**/*.rt")):
            for name, cited in contracts(path):
                if wanted in (None, name):
                    yield f"{crate}::{name}" if wanted else name, cited


def theorems(files, wanted=""):
    """What the statements of the theorems that docs/DEMANDS.md names cite; with `wanted`, of those that begin so."""
    text = (ROOT / "docs/DEMANDS.md").read_text()
    for name, where in re.findall(r"`([^`.]+)` \((\w+/(?:specs|proofs)/[\w/]+\.antt)\)", text):
        file = files.get(CRATES / where)
        if file is None or name not in file.local or not name.startswith(wanted):
            continue
        if "/specs/" in where:
            yield file.path, name
        else:
            yield from (cited for cited in file.reached(words(file.items[file.local[name]].statement(name))) if cited[1] != name)


def all_files():
    """Every file of definitions and laws; not those of a function's proof, and not the lists of modules."""
    found = {}
    for path in sorted(path for kind in ("specs", "proofs") for path in CRATES.glob(f"*/{kind}/**/*.antt")):
        of_function = path.parent.name != "proofs" and "proofs" in path.parts and path.name in ("Proof.antt", "Invariants.antt", "Answers.antt")
        if path.name != "Lib.antt" and not of_function:
            found[path] = File(path)
    return found
