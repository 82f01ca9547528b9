"""The definitions of a crate and their worked examples: which cites which, and the slice of the crate that a changed definition can alter.

For tests/wrong_definitions. A declaration is a record, a data type, a module, or a name with its clauses, as it stands in its file.
"""
import collections
import pathlib
import re

TOP = pathlib.Path(__file__).resolve().parent.parent
CASE = "wrong_definitions_case"  # the crate that slices are written to
WORD = re.compile(r'--[^\n]*|"(?:\\.|[^"\\])*"|[(){}\[\],;]|[^\s(){}\[\],;"]+')
MODIFIERS = r"(?:(?:abbrev|unfoldable|opaque|pub) )*"
HEAD = re.compile(rf"(?:infix.*\n)?({MODIFIERS})(?:(record|data|module) )?(\S+)")
INNER = re.compile(rf"^  ({MODIFIERS})(?:(?:record|data) )?([^\s(){{}}:]+)(?: [^\n]*?)? : ", re.M)
USE = re.compile(r"(?:pub )?use (\S+?)(?:\.\{(.*)\})?(?: as (\S+))?")
OF_CODE = ("Lib", "Answers", "Invariants", "Proof")  # files that prove code, and lists of files

Import = collections.namedtuple("Import", "module name local")  # a module as a whole has no name


def words_of(text):
    """The words of a text but its comments and strings, and the parts of those with dots."""
    whole = [word for word in WORD.findall(text) if not word.startswith(("--", '"'))]
    return {part for word in whole for part in (word, *word.split(".")) if part}


def is_used(name, words):
    return all(part in words for part in name.split("◌") if part)


class Declaration:
    def __init__(self, file, line, text):
        self.file, self.line, self.text, self.words = file, line, text, words_of(text)
        modifiers, self.kind, self.name = HEAD.match(text).groups()
        inner = INNER.findall(text)
        self.names = {"data": [self.name], "module": []}[self.kind] + [name for _, name in inner] if self.kind in ("data", "module") else [self.name]
        self.is_public = file.is_open and ("pub" in modifiers or (self.kind == "module" and all("pub" in given for given, _ in inner)))

    def is_cited_in(self, words):
        return any(is_used(name, words) for name in self.names)

    def is_lemma(self):
        return self.file.kind == "proofs" and not self.file.is_examples

    def has_clause(self, line):
        """Whether a line that is not indented goes on with this declaration."""
        first, is_operator = line.split()[0], "◌" in self.name and not HEAD.match(line)[1] and " = " in line
        return first == "unfolding" or first in self.names or (is_operator and is_used(self.name, words_of(line)))


class File:
    """A file of specs/ or proofs/ as its imports and its declarations."""

    def __init__(self, crate, path):
        kind, *names = path.relative_to(TOP / "crates" / crate).with_suffix("").parts
        self.path, self.kind, self.module = path, kind, ".".join(["Rattle", crate, kind, *names])
        self.copy = "_".join([kind.capitalize(), *names])
        self.is_examples = kind == "proofs" and "Examples" in names[-1]
        self.is_open = f"pub mod {names[0]}" in (TOP / "crates" / crate / kind / "Lib.antt").read_text().splitlines()
        self.imports, self.declarations = [], []
        self.read(path.read_text().splitlines())

    def read(self, lines):
        first, last = 0, 0  # of what is read: its first line, and the one behind its last line
        for number, line in enumerate([*lines, "end"]):
            if not line.strip() or line.startswith(("--", "mod ", "pub mod ")):
                continue
            text = "\n".join(lines[first:last])
            if not last or (line[0] not in " )]}" and not self.is_more(text, line)):
                self.add(first + 1, text)
                first = number
            last = number + 1

    def is_more(self, text, line):
        return not USE.match(text) and ((text.startswith("infix") and "\n" not in text) or Declaration(self, 0, text).has_clause(line))

    def add(self, line, text):
        if USE.match(text):
            self.imports += imports_of(" ".join(text.split()))
        elif text:
            self.declarations.append(Declaration(self, line, text))


def imports_of(line):
    module, names, alias = USE.fullmatch(line).groups()
    if names is None:
        return [Import(module, None, alias or module.split(".")[-1])]
    pairs = [item.split(" as ") for item in map(str.strip, names.split(",")) if item]
    return [Import(module, pair[0].strip(), pair[-1].strip()) for pair in pairs]


def reached(starts, edges, within=None):
    found, left = set(starts), list(starts)
    while left:
        new = {it for it in edges[left.pop()] if it not in found and (within is None or it in within)}
        found |= new
        left += new
    return found


class Crate:
    def __init__(self, name):
        paths = [path for kind in ("specs", "proofs") for path in sorted((TOP / "crates" / name / kind).rglob("*.antt"))]
        files = [File(name, path) for path in paths if path.stem not in OF_CODE]
        self.name, self.files = name, {file.module: file for file in files}
        self.definitions = [it for file in files if file.kind == "specs" for it in file.declarations]
        self.cites, self.cited = collections.defaultdict(set), collections.defaultdict(set)
        for declaration in (it for file in files for it in file.declarations):
            self.cites[declaration] = self.cited_by(declaration)
            for other in self.cites[declaration]:
                self.cited[other].add(declaration)

    def cited_by(self, declaration):
        file, words = declaration.file, declaration.words
        own = {it for it in file.declarations if it is not declaration and it.is_cited_in(words)}
        return own | {self.found(it.module, it.name) for it in file.imports if it.name and is_used(it.local, words)} - {None}

    def found(self, module, name):
        """The declaration that a name of a module of this crate stands for, also where the module has it from another one."""
        file = self.files.get(module)
        if file is None:
            return None
        own = next((it for it in file.declarations if name in it.names), None)
        return own or next((self.found(it.module, it.name) for it in file.imports if it.local == name and it.name), None)

    def slice_of(self, definition, near=False):
        """What must stand in a copy for the examples to see a changed definition: it, what stands between, and they; and the examples. Or of those
        examples alone that are near: between them and the definition stand definitions and examples, and no lemma.
        """
        affected = reached([definition], self.cited)
        examples = {it for it in affected if it.file.is_examples}
        if near:
            examples = {it for it in examples if not any(by.is_lemma() for by in reached([it], self.cites, affected))}
        kept = reached(examples | {definition}, self.cites, affected)
        left = list(kept)
        while left:  # what these cite and cannot import
            hidden = {it for it in self.cites[left.pop()] if it not in kept and (it.file.is_examples or not it.is_public)}
            kept |= hidden
            left += hidden
        return kept, examples


class Slice:
    """Copies of declarations as files of one module of proofs/, in which one definition may be changed."""

    def __init__(self, crate, kept, change=None):
        self.crate, self.kept, self.change = crate, kept, change
        self.spans = {}  # of each file: the line on which each declaration begins

    def write(self, folder, module):
        (folder / module).mkdir(parents=True)
        by_file = collections.defaultdict(list)
        for declaration in sorted(self.kept, key=lambda it: it.line):
            by_file[declaration.file].append(declaration)
        for file, declarations in by_file.items():
            self.write_file(folder / module / f"{file.copy}.antt", module, file, declarations)
        (folder / f"{module}.antt").write_text("".join(f"pub mod {file.copy}\n" for file in by_file))

    def write_file(self, path, module, file, declarations):
        texts = [self.change.whole if self.change and it is self.change.definition else it.text for it in declarations]
        lines, spans = self.imports(module, file, set().union(*map(words_of, texts))), []
        for declaration, text in zip(declarations, texts):
            spans.append((len(lines) + 1, declaration))
            lines += [*text.split("\n"), ""]
        self.spans[path.name] = spans
        path.write_text("\n".join(lines))

    def imports(self, module, file, words):
        """The lines that bring in what a copied file uses: of the slice what stands in it, and all else as it is."""
        lines, wanted = [], {}
        for it in file.imports:
            if it.name is None and is_used(it.local, words):
                lines.append(f"use {it.module} as {it.local}")
            elif it.name and (is_used(it.local, words) or "◌" in it.local or it.local == "[]"):
                wanted[it.local] = self.home(module, it), it.name
        for declaration in file.declarations:
            if declaration not in self.kept:
                wanted |= {name: (file.module, name) for name in declaration.names if is_used(name, words)}
        if self.change and self.change.definition.file is file:
            known = {*wanted, *(name for it in file.declarations for name in it.names)}
            wanted |= {name: (source, name) for source, name in self.change.needs if name not in known}
        by_source = collections.defaultdict(list)
        for local, (source, name) in wanted.items():
            by_source[source].append(name if name == local else f"{name} as {local}")
        return [*lines, *(f"use {source}.{{{', '.join(names)}}}" for source, names in by_source.items()), ""]

    def home(self, module, it):
        declaration = self.crate.found(it.module, it.name)
        return f"Rattle.{CASE}.proofs.{module}.{declaration.file.copy}" if declaration in self.kept else it.module
