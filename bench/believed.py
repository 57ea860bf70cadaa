#!/usr/bin/env python3
"""What a reader must believe: the definitions that the contract of a function says, and those that these say, one by one.

    bench/believed.py                    of console_host: a line for each file, its believed lines of all that its definitions have, and the sums
    bench/believed.py --table            the same as a table of docs/ASSUMPTIONS.md
    bench/believed.py --names            each definition behind its file, with the lines that it takes
    bench/believed.py CRATE FUNCTION     of a function of another crate

It stands in the repository's top folder. It reads the clauses of the function in crates/*/src, the definitions of
crates/*/specs that they name, and what those name, through the imports of each file, until nothing is new. A line
counts with the definition that it belongs to; blank lines, comments, imports and the kit's own definitions do not
count. Laws and words of proofs that no clause reaches are not listed.

It reads text, and knows the language's layout alone: a definition begins at a line's beginning, or within a `module`,
and goes on to the next one."""
import argparse
import pathlib
import re
import sys

IMPORT = re.compile(r"^\s*(?:ghost )?(?:pub )?use Rattle\.(\w+)\.specs\.([\w.+-]+?)\.\{([^}]*)\}", re.M)
HEAD = re.compile(r"^(?P<depth> *)(?:(?:unfoldable|abbrev) )*(?:pub )?(?:(?P<kind>record|data|syntax) )?(?P<name>[^\s:(){},;=|]+)(?P<rest>.*)$")
KEYWORDS = {"use", "pub", "mod", "module", "mutual", "unfolding", "where", "opaque", "infix", "infixl", "infixr", "--", "}"}
TOKEN = re.compile(r"[^\s(){},;.\[\]]+")


class File:
    """One file of specs/: its definitions by name, each with its lines, and where the names that it imports stand."""

    def __init__(self, path: pathlib.Path):
        self.path = path
        self.lines = path.read_text(encoding="utf-8").split("\n")
        self.imports = imports_of("\n".join(self.lines))
        self.definitions: dict[str, list[int]] = {}
        self.spans()

    def begins(self, number: int) -> str | None:
        """The name of the definition that begins at this line, if one does."""
        line = self.lines[number]
        head = HEAD.match(line)
        if not head or not line.strip() or head["name"] in KEYWORDS:
            return None
        inside = len(head["depth"]) == 2 and self.in_module(number)
        if head["depth"] and not inside:
            return None
        if head["kind"] in ("record", "data"):
            return head["name"]
        return head["name"] if re.match(r"\s*:(\s|$)", head["rest"]) else None

    def in_module(self, number: int) -> bool:
        """Whether the last line above that begins at the margin opens a block of definitions."""
        for line in reversed(self.lines[:number]):
            if line[:1] not in ("", " ") and not line.startswith("--"):
                return bool(re.match(r"(unfoldable )?(module|mutual)\b", line))
        return False

    def spans(self):
        name = None
        for number, line in enumerate(self.lines):
            text, begun = line.strip(), self.begins(number)
            if begun:
                name = begun
                self.definitions.setdefault(name, []).append(number)
            elif re.match(r"(use|pub mod|mod|module|unfoldable mutual|mutual)\b", text):
                name = None
            elif name and text and not text.startswith("--"):
                self.definitions[name].append(number)

    def names_in(self, name: str) -> set[str]:
        text = " ".join(self.lines[it].partition("--")[0] for it in self.definitions[name])
        return words_of(text) - {name}


def words_of(text: str) -> set[str]:
    return set(TOKEN.findall(text)) | set(re.findall(r"[\w'-]+", text))


def imports_of(text: str) -> dict[str, tuple[str, str, str]]:
    """The crate, the module and the name there of each imported name."""
    found = {}
    for crate, module, names in IMPORT.findall(text):
        for it in filter(None, (it.strip() for it in names.split(","))):
            there, _, here = it.partition(" as ")
            found[(here or there).strip()] = crate, module, there.strip()
    return found


def clauses_of(source: str, function: str) -> str:
    """The clauses of a function: what stands between its arguments and its body."""
    head = re.search(rf"\bfn {function}\b", source)
    if not head:
        sys.exit(f"believed.py: no function {function} there")
    body = re.search(r"^\s*\{$", source[head.start():], re.M)
    return "\n".join(re.findall(r"(?:requires|ensures).*?(?=\n    (?:requires|ensures)|\Z)", source[head.start(): head.start() + body.start()], re.S))


class Reading:
    """What was reached so far, and where it stands."""

    def __init__(self, top: pathlib.Path):
        self.top, self.files, self.reached, self.open = top, {}, {}, []

    def file(self, crate: str, module: str) -> File | None:
        key = crate, module
        if key not in self.files:
            path = self.top / "crates" / crate / "specs" / (module.replace(".", "/") + ".antt")
            self.files[key] = File(path) if path.is_file() else None
        return self.files[key]

    def reach(self, crate: str, module: str, name: str):
        file = self.file(crate, module)
        if file is None:
            if (self.top / "crates" / crate).is_dir() and "declared" not in module:
                sys.exit(f"{crate} has no {module}, from which {name} is imported")
            return
        if name not in file.definitions and name in file.imports:
            # what a file hands on stands in another one
            self.reach(*file.imports[name])
            return
        if name not in file.definitions:
            # a constructor or a field is reached with the type that it belongs to
            owner = next((it for it in file.definitions if re.search(rf"^\s+(pub )?{re.escape(name)}\s*:", self.text(file, it), re.M)), None)
            if owner is None:
                return
            name = owner
        if (crate, module, name) not in self.reached:
            self.reached[crate, module, name] = file.definitions[name]
            self.open.append((crate, module, name))

    @staticmethod
    def text(file: File, name: str) -> str:
        return "\n".join(file.lines[it] for it in file.definitions[name])

    def follow(self):
        while self.open:
            crate, module, name = self.open.pop()
            file = self.files[crate, module]
            for word in file.names_in(name):
                if word in file.definitions:
                    self.reach(crate, module, word)
                elif word in file.imports:
                    self.reach(*file.imports[word])
                else:
                    self.constructor(crate, module, word)

    def constructor(self, crate: str, module: str, word: str):
        """A constructor of a type of the same file is no definition of its own."""
        file = self.files[crate, module]
        for it, kind in ((it, self.text(file, it)) for it in file.definitions):
            if re.search(r"\bdata\b", kind) and re.search(rf"^\s+(pub )?{re.escape(word)}\s*:", kind, re.M):
                self.reach(crate, module, it)


def begin(reading: Reading, crate: str, function: str):
    for path in sorted((reading.top / "crates" / crate / "src").rglob("*.rt")):
        source = path.read_text(encoding="utf-8")
        if re.search(rf"^(pub )?fn {function}\b", source, re.M):
            imports = imports_of(source)
            for word in words_of(clauses_of(source, function)):
                if word in imports:
                    reading.reach(*imports[word])
            reading.follow()
            return
    sys.exit(f"believed.py: {crate} has no function {function}")


def rows(reading: Reading) -> list[tuple[str, str, int, int]]:
    found = {}
    for (crate, module, _), lines in reading.reached.items():
        found.setdefault((crate, module), set()).update(lines)
    whole = {it: len({at for lines in reading.files[it].definitions.values() for at in lines}) for it in found}
    return [(*it, len(found[it]), whole[it]) for it in sorted(found)]


def in_lines(words: list[str]) -> list[str]:
    """The words, joined by commas, in lines of at most 130 characters."""
    lines: list[str] = []
    for word in words:
        if lines and len(lines[-1]) + len(word) < 128:
            lines[-1] += ", " + word
        else:
            lines.append(word)
    return lines


def main():
    words = argparse.ArgumentParser(description=__doc__, formatter_class=argparse.RawDescriptionHelpFormatter)
    words.add_argument("crate", nargs="?", default="con_host")
    words.add_argument("function", nargs="?", default="console_host")
    words.add_argument("--table", action="store_true")
    words.add_argument("--names", action="store_true")
    given = words.parse_args()
    reading = Reading(pathlib.Path(__file__).resolve().parent.parent)
    begin(reading, given.crate, given.function)
    listed = rows(reading)
    if given.names:
        for (crate, module, name), lines in sorted(reading.reached.items()):
            print(f"{crate} {module}.{name} {len(lines)}")
    elif given.table:
        print("| crate | files of `specs/`, with the lines of their definitions | lines |\n|---|---|---|")
        for crate in dict.fromkeys(it[0] for it in listed):
            own = [it for it in listed if it[0] == crate]
            for at, files in enumerate(in_lines([f"{it[1]} {it[2]}" for it in own])):
                print(f"| {crate if not at else ''} | {files} | {sum(it[2] for it in own) if not at else ''} |")
    else:
        for crate, module, lines, whole in listed:
            print(f"{lines:5} of {whole:4}  {crate} specs/{module.replace('.', '/')}.antt")
    print(f"{sum(it[2] for it in listed)} lines of {len(reading.reached)} definitions in {len(listed)} files of {len({it[0] for it in listed})} crates")


main()
