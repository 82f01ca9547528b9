"""The changes that a definition can take, one place at a time: a function for each kind, which tests/wrong_definitions names.

Such a function takes a `Body` and yields edits: a span of its text, what stands there then, and the names that this needs. Of types it knows
what the repository's declarations write down, so some changes have no type; the prover tells.
"""
import collections
import hashlib
import re

from definition_slices import TOP, WORD

PRELUDE = "Rattle.std.specs.Prelude"
LEVELS = ["→", "× ⊎", "≡ ≢ ≤ < ↔", "$", "||", "&&", "==", "++ ∷", "+ - +ℤ -ℤ", "* / % *ℤ", "^"]  # the loosest first
LEVEL = {operator: level for level, operators in enumerate(LEVELS) for operator in operators.split()}
STOPS = {"=", ":", "then", "else", "if", "in", "let", ",", ";", ">>=", "record"}
SWAPS = {
    "bool": {"true": "false", "false": "true"},
    "bound": {"<": "≤", "≤": "<", "nat_lt": "nat_le", "nat_le": "nat_lt", "≢": "≡"},
    "sum": {"+": "-", "-": "+", "+ℤ": "-ℤ", "-ℤ": "+ℤ", "min": "max", "max": "min"},
    "list": {"take": "drop", "drop": "take", "list_any": "list_all", "list_all": "list_any"},
}
OPPOSITES = {"true": "false", "false": "true", "⊤": "⊥", "⊥": "⊤"}
EMPTY = {"Bool": ["false", "true"], "bool": ["false", "true"], "Option": ["None"], "List": ["[]"], "Vec": ["[]"], "ℕ": ["0"]}
NUMBER, PLAIN = re.compile(r"\d+|0x[0-9a-fA-F]+"), re.compile(r"[a-z_][\w']*")
VARIABLE = re.compile(r"(?<![\w.'])[a-z_][\w']*")
FACT = re.compile(r"[≡≢≤<×↔]|→ [A-Z⊥]|^(?!List|Option|Result)[A-Z]\w* \S")
BINDER = re.compile(r"[({][^(){}]* : ")

Token = collections.namedtuple("Token", "text start end depth")
Side = collections.namedtuple("Side", "head first last")  # of a clause: its first character, and its right side's first and last token
Edit = collections.namedtuple("Edit", "start end text needs")


def tokens_of(text):
    found, depth = [], 0
    for match in WORD.finditer(text):
        if not match[0].startswith("--"):
            depth -= match[0] in ")}]"
            found.append(Token(match[0], *match.span(), depth))
            depth += match[0] in "({["
    return found


class Change:
    """A definition with one edit. The id rests on names and lines, and not on where they stand."""

    def __init__(self, crate, definition, kind, edit, before):
        text, self.definition, self.kind = definition.text, definition, kind
        self.whole = text[:edit.start] + edit.text + text[edit.end:]
        self.needs = [need if isinstance(need, tuple) else (PRELUDE, need) for need in edit.needs if need not in ("0", "⊥")]
        self.line = definition.line + text[:edit.start].count("\n")
        begin, end = text.rfind("\n", 0, edit.start) + 1, (text + "\n").index("\n", edit.end)
        self.old, self.new = (" ".join(it.split()) for it in (text[begin:end], text[begin:edit.start] + edit.text + text[edit.end:end]))
        said = "\0".join([crate, definition.file.module, definition.name, kind, self.old, self.new])
        self.id = hashlib.sha1(f"{said}\0{before[said]}".encode()).hexdigest()[:10]
        before[said] += 1


class Types:
    """What the repository's code and definitions write down of types."""

    def __init__(self):
        self.fields = collections.defaultdict(dict)  # of a record: the type of each field
        self.variants = collections.defaultdict(dict)  # of an enum: the fields of each variant, as they are written
        self.constants, self.arguments = collections.defaultdict(list), {}
        for path in sorted(TOP.glob("crates/*/src/**/*.rt")):
            self.read_code(re.sub(r"//[^\n]*|#\[[^\]]*\]", "", path.read_text()))
        for path in sorted(TOP.glob("crates/*/specs/**/*.antt")):
            self.read_definitions(".".join(["Rattle", *path.relative_to(TOP / "crates").with_suffix("").parts]), path.read_text())

    def read_code(self, text):
        for name, body in re.findall(r"\bstruct (\w+)\s*\{([^{}]*)\}", text):
            self.fields[name].update(re.findall(r"(\w+)\s*:\s*([^,\n]+)", body))
        for name, body in re.findall(r"\benum (\w+)\s*\{([^{}]*(?:\{[^{}]*\}[^{}]*)*)\}", text):
            rows = re.findall(r"^\s*(\w+)\s*(\([^)]*\)|\{[^}]*\})?\s*(?:=[^,]*)?,", body, re.M)
            self.variants[name] = {variant: [it.strip() for it in re.split(r",(?![^<]*>)", fields[1:-1]) if it.strip()] for variant, fields in rows}

    def read_definitions(self, module, text):
        for name, kind in re.findall(r"^(?:abbrev|unfoldable) pub (\S+) : (.*)$", text, re.M):
            self.constants[kind].append(name)
            self.arguments[module, name] = [] if re.search(r"[({]", kind) else kind.split(" → ")[:-1]
        for name, body in re.findall(r"record (\S+)[^\n]* where\n((?:  [^\n]*\n|\n)*)", text + "\n"):
            self.fields[name].update(re.findall(r"^  pub (\S+) : (.*)", body, re.M))

    def resets(self, kind, names):
        """Values of the type that say nothing, or are constants that these names have."""
        head = re.match(r"\{? ?(\w*)", kind)[1]
        plain = EMPTY.get("ℕ" if re.fullmatch(r"[ui]\d+|usize", head) else head, [])
        return plain + [it for it in self.constants.get(kind.strip(), []) if it in names]


class Body:
    """The text of a definition with its right sides: what follows `=` in each clause, or `:` in each field of a record."""

    def __init__(self, definition, types):
        self.definition, self.types, self.file, self.text = definition, types, definition.file, definition.text
        self.tokens = tokens_of(self.text)
        self.names = {it.local for it in self.file.imports} | {name for it in self.file.declarations for name in it.names}
        self.is_record = definition.kind == "record"
        begin, mark = ("^  (?=[a-z])", ":") if self.is_record else (r"^(?=[^\s)}\]-])", "=")
        starts = [match.start() for match in re.finditer(begin, self.text, re.M)] if definition.kind in ("record", None) else []
        sides = [self.side(start, end, mark) for start, end in zip(starts, [*starts[1:], len(self.text)])]
        self.sides = [it for it in sides if it and it.head]
        self.type = self.text[:starts[1]].partition(" : ")[2].strip() if len(starts) > 1 else ""
        self.is_fact = self.is_record or self.type.endswith("Type 0")

    def side(self, start, end, mark):
        inside = [i for i, it in enumerate(self.tokens) if start <= it.start < end]
        marks = [i for i in inside if self.tokens[i].text == mark and self.tokens[i].depth == 0]
        return Side(start, marks[0] + 1, inside[-1]) if marks and marks[0] < inside[-1] else None

    def inside(self):
        """The tokens of right sides, each with its index."""
        return [(i, self.tokens[i]) for side in self.sides for i in range(side.first, side.last + 1)]

    def span(self, first, last):
        return self.text[self.tokens[first].start:self.tokens[last].end]

    def edit(self, first, last, text, *needs):
        return Edit(self.tokens[first].start, self.tokens[last].end, text, needs)

    def until(self, at, words):
        """The next token of these words at the same depth, before the bracket ends."""
        depth = self.tokens[at].depth
        for i in range(at + 1, len(self.tokens)):
            token = self.tokens[i]
            if token.depth < depth or (token.depth == depth and token.text in words):
                return i if token.depth == depth else None
        return None

    def operators(self, words):
        """The operators among these words that have both operands: each with its first and last token, and the texts of the operands."""
        for side in self.sides:
            for i in range(side.first + 1, side.last):
                first = last = i
                while self.tokens[i].text in words and first > side.first and self.binds(first - 1, i):
                    first -= 1
                while first < i and last < side.last and self.binds(last + 1, i):
                    last += 1
                if first < i < last:
                    yield i, first, last, self.span(first, i - 1), self.span(i + 1, last)

    def binds(self, i, at):
        token, operator = self.tokens[i], self.tokens[at]
        is_rest = operator.text == "++" and token.text == "∷" and i > at
        is_end = token.text in STOPS or token.text.endswith(".") or LEVEL.get(token.text, 99) <= LEVEL[operator.text]
        return token.depth > operator.depth or (token.depth == operator.depth and (is_rest or not is_end))

    def atoms(self, at):
        """The arguments that stand from a token on, each as its first and last token: names, numbers, and brackets with their projections."""
        found = []
        while at < len(self.tokens):
            token = self.tokens[at]
            if token.text in "({":
                found.append((at, self.until(at, ")}")))
            elif token.text[0] == "." and found:
                found[-1] = (found[-1][0], at)
            elif token.text in LEVEL or token.text in STOPS or token.text[0] in ")}];λ" or token.text.endswith("."):
                break
            else:
                found.append((at, at))
            at = found[-1][1] + 1
        return found

    def clauses(self):
        """The clauses with the arguments in their heads, where all have as many."""
        if self.is_record:
            return []
        begins = [next(i for i, it in enumerate(self.tokens) if it.start >= side.head) for side in self.sides]
        found = [(side, [self.span(*it) for it in self.atoms(begin + 1)]) for side, begin in zip(self.sides, begins)]
        return found if len({len(names) for _, names in found}) == 1 else []

    def spots(self):
        """Where the last clause takes all: the arguments of which it names no variant and another clause does."""
        rows = [names for _, names in self.clauses()]
        if not rows or not all(PLAIN.fullmatch(it) for it in rows[-1]):
            return []
        return [i for i in range(len(rows[-1])) if any(not PLAIN.fullmatch(names[i]) for names in rows[:-1])]

    def unnamed(self, seen):
        """Patterns of the variants that these words leave out of their enum, each with the imports that it needs."""
        for it in self.file.imports:
            prefix = f"{it.local}." if it.name is None else ""
            if it.module.endswith(".TheVariants") and any(word.startswith(prefix) if prefix else word == it.local for word in seen):
                rows = self.types.variants[it.module.split(".")[-2]]
                left = [name for name in rows if prefix + name not in seen]
                return [(f"({prefix}{name}{' _' * len(rows[name])})", [] if prefix else [(it.module, name)]) for name in left]
        return []


def swaps(kind):
    def kind_swaps(body):
        for i, token in body.inside():
            other = SWAPS[kind].get(token.text)
            if other:
                home = "Rattle.std.specs.List" if other.startswith("list_") else PRELUDE
                yield body.edit(i, i, other, (home, other if other[0].isalpha() else f"◌{other}◌"))
    return kind_swaps


def numbers(body):
    for i, token in body.inside():
        if NUMBER.fullmatch(token.text) and body.tokens[i - 1].text not in ("Type", "Unit"):
            number, show = int(token.text, 0), hex if token.text.startswith("0x") else str
            yield from (body.edit(i, i, show(other)) for other in (number + 1, number - 1) if other >= 0)


def conditions(body):
    for i, token in body.inside():
        then = body.until(i, ["then"]) if token.text == "if" else None
        if then:
            yield body.edit(i + 1, then - 1, f"not ({body.span(i + 1, then - 1)})", "not")


def equalities(body):
    for _, first, last, one, other in body.operators(["=="]):
        yield body.edit(first, last, f"nat_le ({one}) ({'1' if other == '0' else other})", "nat_le")
        yield body.edit(first, last, f"nat_le ({other}) ({one})", "nat_le")


def sides(body):
    for i, first, last, one, other in body.operators(["&&", "||"]):
        swapped = "||" if body.tokens[i].text == "&&" else "&&"
        yield from (body.edit(first, last, one), body.edit(first, last, other), body.edit(i, i, swapped, f"◌{swapped}◌"))


def joins(body):
    for _, first, last, one, other in body.operators(["++"]):
        yield from (body.edit(first, last, text) for text in (f"({other}) ++ ({one})", one, other))


def elements(body):
    for i, first, last, one, other in body.operators(["∷"]):
        yield Edit(body.tokens[first].start, body.tokens[i + 1].start, "", ())
        if last + 1 < len(body.tokens) and body.tokens[last + 1].text == "∷" and body.tokens[last + 1].depth == body.tokens[i].depth:
            yield body.edit(first, last, f"{other} ∷ {one}")


def parts(body):
    facts = [(side.first, side.last) for side in body.sides if body.is_record]
    if body.is_fact:
        sides = [it for i, first, last, _, _ in body.operators(["×"]) for it in ((first, i - 1), (i + 1, last))]
        premises = [(first, i - 1) for i, first, _, _, _ in body.operators(["→"])]
        facts += [it for it in sides + premises if not BINDER.match(body.span(*it))]
    yield from (body.edit(*it, "⊤", "⊤") for it in facts if FACT.search(body.span(*it)))


class Record:
    """`record BASE { .. }` as it stands at a token, and the fields of the record types that it may be of."""

    def __init__(self, body, at, opening):
        tokens, self.at, self.end, begin = body.tokens, at, body.until(opening, "}"), opening + 1
        self.base, self.fields = body.span(at + 1, opening - 1) if opening > at + 1 else "", {}
        for i in range(begin, self.end + 1):
            if begin < i and (i == self.end or (tokens[i].text == ";" and tokens[i].depth == tokens[opening].depth + 1)):
                self.fields[tokens[begin].text.strip("«»")] = begin, i - 1
                begin = i + 1
        known = [fields for name, fields in body.types.fields.items() if name in body.names and set(self.fields) <= set(fields)]
        self.types = [fields for fields in known if self.base or len(fields) == len(self.fields)][:2]


def records(body):
    for i, token in body.inside():
        opening = body.until(i, ["{"]) if token.text == "record" else None
        if opening:
            yield Record(body, i, opening)


def kept_fields(body):
    for record in records(body):
        starts = [first for first, _ in record.fields.values()]
        if record.base and len(starts) == 1:
            yield body.edit(record.at, record.end, record.base)
        elif record.base:
            ends = [*starts[1:], record.end]
            yield from (Edit(body.tokens[first].start, body.tokens[end].start, "", ()) for first, end in zip(starts, ends))


def reset_fields(body):
    for record in records(body):
        values = [(name, value) for types in record.types for name, kind in types.items() for value in body.types.resets(kind, body.names)]
        for name, value in values:
            first, last = record.fields.get(name, (0, 0))
            if not last:
                yield Edit(body.tokens[record.end].start, body.tokens[record.end].start, f"; {name} = {value} ", (value,))
            elif not record.base and body.span(first + 2, last) not in OPPOSITES:
                yield body.edit(first + 2, last, value, value)


def variants(body):
    """Another variant with the same fields, the next in the enum's order."""
    enums = [it for it in body.file.imports if it.module.endswith(".TheVariants")]
    for i, token in body.inside():
        head, _, name = token.text.rpartition(".")
        for it in (it for it in enums if it.local == (token.text if it.name else head)):
            rows, name = body.types.variants[it.module.split(".")[-2]], it.name or name
            alike = [other for other in rows if rows[other] == rows.get(name)]
            other = alike[(alike.index(name) + 1) % len(alike)] if alike else name
            yield body.edit(i, i, other, (it.module, other)) if it.name else body.edit(i, i, f"{head}.{other}")


def exchanged_arguments(body):
    homes = {it.local: (it.module, it.name) for it in body.file.imports if it.name}
    homes |= {name: (body.file.module, name) for it in body.file.declarations for name in it.names}
    for i, token in body.inside():
        kinds, atoms = body.types.arguments.get(homes.get(token.text), []), body.atoms(i + 1)
        for kind, kind_2, (first, last), (first_2, last_2) in zip(kinds, kinds[1:], atoms, atoms[1:]):
            if kind == kind_2:
                yield body.edit(first, last_2, f"{body.span(first_2, last_2)} {body.span(first, last)}")


def exchanged_rows(body):
    """What two clauses are that follow each other, each with the variables of the other in their order."""
    rows = body.clauses()
    for (side, names), (side_2, names_2) in zip(rows, rows[1:]):
        own, own_2 = variables(names), variables(names_2)
        one, other = body.span(side.first, side.last), body.span(side_2.first, side_2.last)
        between = body.text[body.tokens[side.last].end:body.tokens[side_2.first].start]
        if len(own) == len(own_2):
            one, other = renamed(one, own, own_2), renamed(other, own_2, own)
        elif not (is_within(one, own, own_2) and is_within(other, own_2, own)):
            continue
        yield body.edit(side.first, side_2.last, other + between + one)


def is_within(text, own, others):
    """Whether a text has none of its own variables but those that others are too."""
    return set(VARIABLE.findall(text)) & set(own) <= set(others)


def variables(names):
    return [word for word in WORD.findall(" ".join(names)) if PLAIN.fullmatch(word)]


def renamed(text, olds, news):
    names = dict(zip(olds, news))
    return VARIABLE.sub(lambda match: names.get(match[0], match[0]), text)


def dropped_rows(body):
    rows = body.clauses() if body.spots() else []
    yield from (Edit(side.head, after.head, "", ()) for (side, _), (after, _) in zip(rows, rows[1:]))


def added_rows(body):
    """A row of a variant that no row names, with the opposite answer, or with a record that is passed on but for one field."""
    rows, spots, kinds = body.clauses(), body.spots(), body.type.split(" → ")
    if len(spots) != 1 or len(kinds) != len(rows[-1][1]) + 1:
        return
    (last, names), spot = rows[-1], spots[0]
    right = body.span(last.first, last.last)
    answers = [(OPPOSITES[right], OPPOSITES[right])] if right in OPPOSITES else []
    kind = kinds[names.index(right)] if right in names and right != names[spot] else ""
    for field, of in body.types.fields.get(kind, {}).items() if kind in body.names else []:
        answers += [(f"record {right} {{ {field} = {value} }}", value) for value in body.types.resets(of, body.names)]
    for variant, needs in body.unnamed({word for _, them in rows for word in re.split(r"[\s()]+", them[spot])}):
        head = " ".join([body.definition.name, *names[:spot], variant, *names[spot + 1:]])
        yield from (Edit(last.head, last.head, f"{head} = {answer}\n", (*needs, need)) for answer, need in answers)


KINDS = {
    "number": numbers, **{kind: swaps(kind) for kind in SWAPS}, "condition": conditions, "equality": equalities, "side": sides, "join": joins,
    "element": elements, "part": parts, "field kept": kept_fields, "field reset": reset_fields, "variant": variants,
    "arguments exchanged": exchanged_arguments, "rows exchanged": exchanged_rows, "row dropped": dropped_rows, "row added": added_rows,
}


def changes_of(crate, types):
    """All changes of a crate's definitions, each once."""
    found, before = {}, collections.Counter()
    for definition in crate.definitions:
        body = Body(definition, types)
        for kind, edits in KINDS.items():
            for edit in sorted(set(edits(body)), key=lambda it: it[:3]):
                change = Change(crate.name, definition, kind, edit, before)
                if change.whole != definition.text:
                    found.setdefault((definition, change.whole), change)
    return list(found.values())
