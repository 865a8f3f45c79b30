"""Reads the mutants of a crate: which texts of a file each exchanges, and which functions or constants that changes."""
import re

FUNCTION = re.compile(r"( *)(?:pub(?:\(\w+\))? )?(?:final |const )*fn (\w+)")
# Other items that an edit may change: a constant, a derive.
ITEM = re.compile(r" *(pub(\(\w+\))? )?(const|static|struct|enum|impl|trait|type|mod|use|ghost use|macro_rules!)\b(?! fn)")
OWNER = re.compile(r"(?:impl(?:<.*?>)? (?:(?:\w+::)*(\w+)(?:<(.*)>)? for )?&?|(?:pub(?:\(\w+\))? )?trait )(\w+)")
DECLARED = re.compile(r"(?m)^ *(?:pub(?:\(\w+\))? )?(?:struct|enum|trait) (\w+)(?![\w;])")
CYCLE = re.compile(r" *#\[cycle\((\w+)\)\]")
CONSTANT = re.compile(r"\bconst (\w+): [^=;{]*=([^;]*);")


def module_of(file):
    """Returns the module of a source file as a path, empty for the crate's root."""
    return re.sub(r"^(lib|main)$", "", file[len("src/") : -len(".rt")])


class Function:
    """Finds a function of a source file, and names the folder of its proof."""

    def __init__(self, file, lines, at):
        self.file = file
        found = FUNCTION.match(lines[at])
        self.indent, self.name = len(found[1]), found[2]
        self.module = module_of(file)
        above = [it for it in lines[:at] if not it.startswith((" ", "}"))] if self.indent else []
        self.owner = next((it for it in (OWNER.match(it) for it in reversed(above)) if it), None)
        ring = next((it for it in (CYCLE.match(lines[it]) for it in range(at - 1, max(at - 8, -1), -1)) if it), None)
        self.ring = ring and f"+{ring[1]}"

    def key(self):
        """Returns a name that no other function of the crate has, except those of its cycle: they have one proof."""
        return self.file, self.ring or (self.owner and self.owner.groups(), self.name)

    def paths(self, homes):
        """Returns the paths below the crate that the function may have, given the modules that declare types.

        The path of a method begins with that of its type. A method of a trait is in its own module, below a name that joins the
        type, the trait and the trait's arguments.
        """
        modules, below = [self.module], []
        if self.owner:
            trait, of, kind = self.owner.groups()
            words = [it[0].upper() + it[1:] for it in re.findall(r"\w\w+", of or "") if of != kind]
            below = ["".join([kind[0].upper() + kind[1:] if trait else kind, trait or "", *words])]
            if not trait:
                modules = sorted(homes.get(kind, ()))
        return ["::".join([*filter(None, it.split("/")), *below, self.name]) for it in modules]

    def is_of(self, folder):
        """Returns whether a folder of proofs/ is that of the function: below its module, or below the type of the method."""
        *above, name = folder.split("/")
        if self.ring or not self.owner:
            return name == self.ring or (name == self.name and "/".join(above) == self.module)
        trait, _, kind = self.owner.groups()
        is_owned = bool(above) and (above[-1].startswith(kind + trait) if trait else above[-1] == kind)
        return is_owned and name in (self.name, f"+{self.name}")


def function_at(file, lines, at):
    """Returns the function around a line, None if the line is of another item. An attribute belongs to the function below it."""
    while at + 1 < len(lines) and lines[at].lstrip().startswith("#["):
        at += 1
    indent = len(lines[at])
    for above in range(at, -1, -1):
        if FUNCTION.match(lines[above]):
            found = Function(file, lines, above)
            return found if found.indent < indent else None
        if ITEM.match(lines[above]):
            indent = min(indent, len(lines[above]) - len(lines[above].lstrip()))
    return None


class Edit:
    """Holds one mutant: its file, the texts that it exchanges there, the functions that it names to check, and its verdict.

    A control has a line with its expected verdict: it is harmless, or it doesn't fit its file.
    """

    def __init__(self, path, crate):
        self.name, self.path, self.control = path.stem, path, ""
        self.file, self.pairs, self.asks, old = "", [], [], None
        for line in path.read_text().splitlines():
            word, _, text = line.partition(": ")
            if word == "file":
                self.file = text
            elif word == "asks":
                self.asks.append(text)
            elif word == "control":
                self.control = text
            elif word == "old" and old is None:
                old = text
            elif word == "new" and old is not None:
                self.pairs.append((old, text))
                old = None
            elif line.strip():
                raise ValueError(f"{path}: `{line}` is no line of an edit, or not in its order")
        if old is not None:
            raise ValueError(f"{path}: the last text has no new one")
        text = (crate / self.file).read_text()
        self.fits = self.fits_in(text)
        lines = text.split("\n")
        found = [function_at(self.file, lines, text[: text.find(old)].count("\n")) for old, _ in self.pairs]
        # None if the edit changes more than functions.
        self.functions = {it.key(): it for it in found} if all(found) else {}
        self.constants = set() if self.functions else constants_of(text, self.pairs)
        # It is judged if a check says something of its functions that no other edit can hide.
        self.is_refused, self.is_judged, self.is_kept, self.seconds, self.how = False, False, False, 0.0, ""

    def label(self):
        return f"controls/{self.name}" if self.control else self.name

    def is_settled(self):
        return self.is_refused or self.is_judged

    def passes(self):
        """Returns whether its verdict is the expected one."""
        if self.control == "unfit":
            return not self.fits
        return self.fits and (self.is_judged and not self.is_refused if self.control else self.is_refused)

    def settle(self):
        """Takes the verdict of an earlier run, in which it passed."""
        self.is_kept, self.is_judged, self.is_refused = True, True, not self.control

    def fits_in(self, text):
        """Returns whether each old text occurs exactly once in a text, as in one that other edits have changed."""
        return bool(self.pairs) and all(text.count(old) == 1 for old, _ in self.pairs)

    def apply(self, text):
        """Exchanges all texts at once, so that two may be swapped."""
        new = dict(self.pairs)
        return re.sub("|".join(map(re.escape, new)), lambda found: new[found[0]], text)


def homes_of(folder):
    """Returns for each type and trait of a crate the modules that declare one of that name."""
    homes = {}
    for file in folder.glob("src/**/*.rt"):
        for name in DECLARED.findall(file.read_text()):
            homes.setdefault(name, set()).add(module_of(str(file.relative_to(folder))))
    return homes


def constants_of(text, pairs):
    """Returns the names of the constants that the edit changes, none if it changes something else."""
    found = set()
    for old, _ in pairs:
        end = text.find(old) + len(old)
        last = [it for it in CONSTANT.finditer(text) if it.start() < end]
        if not last or end > last[-1].end():
            return set()
        found.add(last[-1][1])
    return found


def constants_within(folder):
    """Returns for each constant of a crate itself and those that its value names, directly or not."""
    named = {}
    for file in folder.glob("src/**/*.rt"):
        for name, value in CONSTANT.findall(file.read_text()):
            named.setdefault(name, set()).update(re.findall(r"\w+", value))
    within = {name: {name} for name in named}
    for _ in named:
        more = {name: found.union(*(named[it] & named.keys() for it in found)) for name, found in within.items()}
        if more == within:
            break
        within = more
    return within


def edits_of(crate):
    """Returns the mutants of the crate in a folder."""
    return [Edit(it, crate) for it in sorted((crate / "mutants").glob("*.edit"))]


def controls_of(crate):
    """Returns the controls among the mutants of the crate in a folder."""
    return [Edit(it, crate) for it in sorted((crate / "mutants/controls").glob("*.edit"))]
