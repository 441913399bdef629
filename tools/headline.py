"""The definitions on which the contract of the headline depends, by name.

A definition is a unit of a module of some crate's `specs/`: an `abbrev`, a `record`, a `data` with its constructors, or some that
are mutual. Its text names others, of its own module or of those that the module uses, and these are followed, up to the kit,
whose names are left as they are. A type of the program (`declared` in the path of a `use`) is its text in `src/`; where contracts
see it as something else, the lines `Value` and `view` of its `impl Model`, which say as what, stand behind it. The other lines
of that block say how the prover keeps such a value.
"""

import re
from pathlib import Path

TOP = Path(__file__).resolve().parent.parent
HEADLINE = "gl", "run"
PAGE = "docs/DEFINITIONS.md"

CODE = re.compile(r"`([^`]*)`")
WORD = re.compile(r"&&|\|\||<ℤ?|[^\s(){}\[\],;|&<>]+")
DECLARED = re.compile(r"(?:(?:unfoldable|abbrev|pub|record|data) )*(\S+)(?= [:({]| *$)")
LANGUAGE = set("abbrev pub unfoldable record data where mutual module elim λ → ← × ↦ = : ⊥ ¬ Type _ Unit ↔ with".split())
# what a type of the program may name that is the language's or std's
STD = set("Self Some None Ok Err Vec Option Box String Result Snapshot Sync Type".split())


def crates_below():
    """The crates in the order of crates.txt, each with those that it stands on."""
    below = {}
    for line in (TOP / "crates.txt").read_text().splitlines():
        names, colon, others = line.split("#")[0].partition(":")
        if colon:
            below[names.split()[0]] = others.split()
    return below


def renamed(names):
    """Names with what they are called here, `there as here`: here by there."""
    pairs = [it.strip().partition(" as ") for it in names.split(",") if it.strip()]
    return {here or there: there for there, _, here in pairs}


def uses_in(text):
    """Each `use` of definitions: its path, its names by what they are called here, and what the path is called here."""
    for path, names, alias in re.findall(r"^ *(?:pub )?(?:ghost )?use ([\w.]+?)(?:\.\{([^}]*)\}| as (\w+))?;?$", text, re.M):
        yield path, renamed(names), alias


def rust_uses_in(text):
    """The same of types of the program, by the parts of the path."""
    for path, names, last in re.findall(r"^(?:pub )?use (\w+(?:::\w+)*?)::(?:\{([^}]*)\}|(\w+(?: as \w+)?));", text, re.M):
        yield path.split("::"), renamed(names or last)


def words_in(text):
    """The words of a text without its comments, strings and the names of fields."""
    text = re.sub(r"--.*|//.*|\"[^\"]*\"", "", text)
    text = re.sub(r"^ *pub (\w+) :", ":", text, flags=re.M)
    text = re.sub(r"([{;]\s*)\w+ = ", r"\1", text)
    words = [it.rstrip(".") for it in WORD.findall(text)]
    return [it for it in words if it and not it[0].isdigit() and it[0] != "." and it not in LANGUAGE]


def bound_in(text):
    """The names that a text binds: by patterns, by λ, by a type behind a colon."""
    text = re.sub(r"--.*", "", text)
    lefts = [match[1] for match in re.finditer(r"^ {0,2}(\S.*?) =(?: |$)", text, re.M)]
    binders = re.findall(r"λ ([^.]*)\.", text) + re.findall(r"[({]([^(){}:]+) : ", text)
    branches = re.findall(r"[\[|]([^\[|↦]*)↦", text)
    fields = re.findall(r"^ *(?:pub )?(\w+) :", text, re.M)
    return {word for part in lefts + binders + branches + fields for word in WORD.findall(part)}


class Unit:
    """A definition, or several that are mutual: where it stands, its names, its lines, and what it depends on."""

    def __init__(self, crate, module, names, lines, around="", uses=()):
        self.crate, self.module, self.names, self.lines = crate, module, names, lines
        # the line of a `module` in which it stands; the `use`s of its own
        self.around, self.uses = around, uses
        self.needs = []

    @property
    def text(self):
        return "\n".join(self.lines)

    @property
    def is_whole(self):
        """Whether each bracket of the text is closed in it."""
        code = re.sub(r"--.*|//.*|\"(?:[^\"\\]|\\.)*\"", "", self.text)
        return all(code.count(opened) == code.count(closed) for opened, closed in ("()", "[]", "{}"))

    @property
    def is_of_program(self):
        return self.module.startswith("src/")


class Module:
    """A module of a `specs/`: its title, its units in their order, and what names mean in it."""

    def __init__(self, crate, name, text):
        self.crate, self.name, self.units = crate, name, []
        self.title = text.partition("\n")[0].lstrip("- ")
        self.uses = list(uses_in(text))
        self.read(text.splitlines(), "")
        self.owners = {name: unit for unit in self.units for name in unit.names}

    def read(self, lines, around):
        """Adds the units of lines that stand at one depth."""
        comments, at = [], 0
        while at < len(lines):
            line, end = lines[at], at + 1
            if line.startswith("--") and not line.startswith("-- ----"):
                comments.append(line)
            else:
                if line.startswith("module "):
                    end = self.end_of(lines, at, None)
                    self.read([it[2:] for it in lines[at + 1:end]], line)
                elif line.strip() and not re.match(r"--|(pub )?(use|mod) ", line):
                    name = None if re.fullmatch(r"(abbrev )?mutual", line) else (DECLARED.match(line) or [line, line])[1]
                    end = self.end_of(lines, at, name)
                    self.units.append(Unit(self.crate, self.name, self.names_in(lines[at:end], name), comments + lines[at:end], around))
                comments = []
            at = end

    @staticmethod
    def end_of(lines, at, name):
        """Where the unit ends that begins at a line: it has what is deeper, what closes a bracket, and the equations of its name."""
        end = at + 1
        for number in range(at + 1, len(lines)):
            line = lines[number]
            if line.startswith((" ", "}", "]", ")")) or (name and re.match(rf"{re.escape(name)} (?!:)", line)):
                end = number + 1
            elif line.strip() and (not line.startswith("--") or line.startswith("-- ----")):
                break
        return end

    @staticmethod
    def names_in(lines, name):
        """The name of a unit, or the names where some are mutual, and the constructors of a `data`."""
        if name and not re.match(r"(pub )?data ", lines[0]):
            return [name]
        found = [name] if name else []
        for line in lines[1:]:
            if not name and re.match(r"  (?:pub|\S+ :)", line):
                found.append(DECLARED.match(line[2:])[1])
            elif re.match(r"  (?:  )?[^\s:-][^:=]* : ", line):
                found += line.partition(" :")[0].replace("pub ", "").split()
        return found


class Sources:
    """The types and traits of the program, by crate and module."""

    def __init__(self, below):
        self.below, self.texts, self.units = below, {}, {}

    def text(self, crate, module):
        if (crate, module) not in self.texts:
            folder = TOP / f"crates/{crate}/src"
            files = [folder / f"{module}.rt", folder / module / "mod.rt"] if module else [folder / "main.rt", folder / "lib.rt"]
            self.texts[crate, module] = next((it.read_text() for it in files if it.exists()), "")
        return self.texts[crate, module]

    def block(self, crate, module, head):
        """The lines of an item that begins so, with what stands right above it."""
        text = self.text(crate, module)
        match = re.search(rf"^(?:pub(?:\(\w+\))? )?{head}\b.*$", text, re.M)
        if match is None:
            return []
        lines, first = text.splitlines(), text[:match.start()].count("\n")
        last = first if match[0].endswith((";", "}")) else lines.index("}", first)
        while re.match(r"///|#\[", lines[first - 1]):
            first -= 1
        return lines[first:last + 1]

    def type(self, crate, module, name):
        """A type or a trait, as its text; None where there is none."""
        key = crate, module, name
        if key not in self.units:
            lines = self.block(crate, module, f"(?:enum|struct|trait) {name}")
            self.units[key] = Unit(crate, f"src/{module}.rt", [name], lines) if lines else None
        return self.units[key]

    def model(self, unit):
        """A type with what contracts see it as; None where they see it by its own parts."""
        module, name = unit.module[4:-3], f"Model for {unit.names[0]}"
        key = unit.crate, module, name
        if key not in self.units:
            lines = self.block(unit.crate, module, f"impl {name}")
            told = [it for it in lines if re.match(r"    ghost (Value|view) =", it)]
            uses = list(uses_in("\n".join(lines)))
            self.units[key] = Unit(unit.crate, unit.module, [name], [*unit.lines, lines[0], *told, "}"], uses=uses) if told else None
        return self.units[key]

    def named(self, crate, module, name):
        """The type of a name in a module; a path where it is not of these crates, and None where it is nothing."""
        here = self.type(crate, module, name)
        if here:
            return here
        for path, names in rust_uses_in(self.text(crate, module)):
            if name in names:
                return self.at(crate, path, names[name])
        return None

    def at(self, crate, path, name):
        if path[0] in self.below:
            crate = path[0]
        elif path[0] not in ("crate", "super", "self") and not self.text(crate, path[0]):
            return "::".join(path)
        module = "/".join(it for it in path if it not in ("crate", "super", "self", crate))
        return self.type(crate, module, name) or self.named(crate, module, name)


class Definitions:
    """All that is reached from the contract of the headline: `order`, each behind what it depends on; `kit`, the names of the
    kit on which they rest, by the path of their `use`."""

    def __init__(self):
        self.below = crates_below()
        self.sources, self.modules = Sources(self.below), {}
        self.unknown, self.order, self.kit = [], [], {}
        self.reach(self.contract())

    # ---- what names mean
    def module(self, crate, name):
        if (crate, name) not in self.modules:
            file = TOP / f"crates/{crate}/specs/{name}.antt"
            self.modules[crate, name] = Module(crate, name, file.read_text()) if file.exists() else None
        return self.modules[crate, name]

    def at(self, path, name):
        """The unit of a name at the path of a `use`; the path itself where it is the kit's, and None where there is nothing."""
        parts = path.split(".")
        if parts[0] != "Rattle" or parts[1] not in self.below or parts[2] != "specs":
            return path
        crate, module, *below = parts[1], *parts[3:]
        if module == "declared":
            *modules, name = (it for it in below if it not in ("TheVariants", "TheOpen", "TheFolds"))
            return self.sources.type(crate, "/".join(modules), name)
        module = self.module(crate, module)
        return module and self.meaning(module.uses, module.owners, name)

    def meaning(self, uses, owners, word):
        """What a word is by these `use`s, where these units are at hand: as `at` says."""
        head, _, rest = word.partition(".")
        if head in owners:
            return owners[head]
        for path, names, alias in uses:
            name = rest.partition(".")[0] if rest and head == alias else names.get(head)
            if name:
                found = self.at(path, name)
                if found == path:
                    self.kit.setdefault(path, set()).add(name)
                return found
        return None

    # ---- what a unit depends on
    def contract(self):
        """The contract of the headline, with what is said above it."""
        crate, call = HEADLINE
        lines = self.sources.text(crate, call).splitlines()
        first = next(number for number, it in enumerate(lines) if it.startswith(f"pub fn {call}<"))
        last = lines.index("{", first)
        while lines[first - 1].startswith("///"):
            first -= 1
        return Unit(crate, f"src/{call}.rt", [call], lines[first:last])

    def reach(self, root):
        """Puts what each unit depends on, and then the unit, behind what was reached before."""
        reached, stack = set(), [(root, None)]
        while stack:
            unit, left = stack.pop()
            if left is None:
                if unit in reached:
                    continue
                reached.add(unit)
                if not unit.is_whole:
                    self.unknown.append(f"`{unit.names[0]}` of {unit.crate}, {unit.module} has an open bracket where its text ends")
                left = unit.needs = self.needs(unit)
            if left:
                stack += [(unit, left[1:]), (left[0], None)]
            else:
                self.order.append(unit)

    def needs(self, unit):
        found = self.needs_of_program(unit) if unit.is_of_program else self.needs_of_specs(unit)
        return list(dict.fromkeys(self.as_seen(it) for it in found))

    def as_seen(self, unit):
        return (unit.is_of_program and self.sources.model(unit)) or unit

    def needs_of_specs(self, unit):
        module = self.modules[unit.crate, unit.module]
        bound = bound_in(unit.around + "\n" + unit.text)
        pieces = {piece: (path, name) for path, names, _ in module.uses for name in names if "◌" in name for piece in name.split("◌")}
        for word in words_in(unit.text):
            if word in pieces:
                path, name = pieces[word]
                self.kit.setdefault(path, set()).add(name)
            other = self.meaning(module.uses, module.owners, word)
            if isinstance(other, Unit):
                # what stands further down in the module is not meant: the word is a variable of that name
                if other.module != unit.module or other.crate != unit.crate or module.units.index(other) < module.units.index(unit):
                    yield other
            elif other is None and word not in pieces and not bound & {word, word.partition(".")[0]}:
                self.fail(unit, word)

    def needs_of_program(self, unit):
        module = unit.module[4:-3]
        uses = unit.uses or list(uses_in(self.sources.text(unit.crate, module)))
        found = [self.meaning(uses, {}, it) for it in words_in(unit.text)]
        found += self.types_in(unit, module)
        return [it for it in found if isinstance(it, Unit)]

    def types_in(self, unit, module):
        """The types that the text of a type, or of a contract, names: words with a capital but for the variants of an enum."""
        code = re.sub(r"//.*|#\[.*?\]|\{ .* \}|impl Model .*|ghost \w+", "", unit.text)
        for name in re.findall(r"\b[A-Z]\w+", re.sub(r"^    [A-Z]\w*", "", code, flags=re.M)):
            other = self.sources.named(unit.crate, module, name)
            if other is None and name not in STD:
                self.fail(unit, name)
            yield other

    def fail(self, unit, word):
        why = f"`{unit.names[0]}` of {unit.crate}, {unit.module} names `{word}`, which stands nowhere"
        if why not in self.unknown:
            self.unknown.append(why)

    # ---- as it is read
    def in_order(self):
        """Crate, module, title and units of each module that is reached, in an order in which each unit stands behind what it
        depends on: lower crates first, the definitions of a module together, and each type of the program by itself."""
        groups, begun, done = {}, set(), []
        for unit in self.order:
            groups.setdefault(self.group_of(unit), []).append(unit)

        def take(key):
            if key not in begun:
                begun.add(key)
                for other in [self.group_of(it) for unit in groups[key] for it in unit.needs]:
                    if other[0] == key[0]:
                        take(other)
                done.append(key)

        for key in groups:
            take(key)
        place = {name: number for number, name in enumerate(self.crates())}
        for key in sorted(done, key=lambda it: place[it[0]]):
            known = self.modules.get(key[:2])
            yield key[0], key[1], known.title if known else "", sorted(groups[key], key=known.units.index) if known else groups[key]

    @staticmethod
    def group_of(unit):
        return unit.crate, unit.module, unit.names[0] if unit.is_of_program else ""

    def crates(self):
        """The crates, each behind those that it stands on."""
        done = []

        def take(name):
            if name in self.below and name not in done:
                for other in self.below[name]:
                    take(other)
                done.append(name)

        for name in self.below:
            take(name)
        return done

    def count(self):
        return sum(len(it.lines) for it in self.order)

    def summary(self):
        lines = [it.strip() for unit in self.order for it in unit.lines]
        remarks = sum(it.startswith(("--", "//")) for it in lines)
        modules = len({(it.crate, it.module) for it in self.order})
        return f"believed: {len(lines)} lines, {remarks} of them remarks: {len(self.order)} definitions of {modules} modules"


# ---- the page of definitions
def names_on_page():
    """The names in `code` on the page of definitions, each with the crate of its section."""
    crates, crate = crates_below(), None
    for line in (TOP / PAGE).read_text().splitlines():
        if line.startswith("#"):
            crate = next((it for it in CODE.findall(line) if it in crates), None)
        for word in CODE.findall(line):
            yield crate, word


def index_rows(definitions):
    """The rows of tests/definitions.rows, of those that the page does not explain: crate, module, names."""
    said = set(names_on_page())
    rows = []
    for crate, module, _, units in definitions.in_order():
        names = [unit.names[0] for unit in units if not unit.is_of_program and (crate, unit.names[0]) not in said]
        if names:
            rows.append(f"| `{crate}` | `{module}` | {', '.join(f'`{it}`' for it in names)} |")
    return rows
