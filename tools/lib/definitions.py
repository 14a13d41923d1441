"""The definitions of crates' specs/, and which of them others cite.

A definition is a `data`, `record` or `abbrev`, or a whole block of them that cite each other. It cites what it names:
of its own file, or by the file's imports.
"""
import collections
import pathlib
import re

IMPORT = re.compile(r"^(?:pub )?use Rattle\.(\w+)\.specs\.([\w.]+?)(?:\.\{([^}]*)\}| as (\w+))?$", re.M)
PLAIN = re.compile(r"^(?:pub )?(?:abbrev|unfoldable|data|record)(?: pub)? (?!mutual\b)([^\s:({]+)")
BLOCK = re.compile(r"^(?:abbrev |unfoldable )?mutual$")
IN_BLOCK = re.compile(r"^  pub (?:data |record )?([^\s:({]+)")
CONSTRUCTOR = re.compile(r"^ {2,4}([^\s:({]+) :")
FIXITY = re.compile(r"^infix[lr]? \d+ (\S+)$")
WORD = re.compile(r"[^\s(){}\[\],;]+")


CALL = ["altarica_run/Answers.Answers"]
"""What the first clause of the program's call cites."""
REAL_RUN = ["altarica_run/Reading.AnswersBy", "ar_io/Handing.ReadsToTheEnd", "ar_io/Handing.Handed", "ar_io/Handing.Handing",
            "ar_io/Handing.Writes", "ar_io/Handing.told_where", "ar_io/Loads.load_of", "job_stages/Numbers.number_of"]
"""What its clause on real runs cites besides, with the clauses that tie it to a reader, a writer and an exit status."""


def parts_of_name(name):
    """The crate, the module and the own name of `cut_text/Texts.IsCutText`."""
    crate, _, path = name.partition("/")
    module, _, own = path.rpartition(".")
    return crate, module, own


class Definition:
    """A definition, or a block of them: its module, the names that it gives, and its lines without comments."""

    def __init__(self, module):
        self.module, self.names, self.lines, self.inner = module, [], [], set()

    @property
    def name(self):
        return self.names[0]


class Definitions:
    """All definitions of a repository."""

    def __init__(self, top="."):
        self.texts, self.of_module, self.places, self.imports = {}, {}, {}, {}
        for file in sorted(pathlib.Path(top).glob("crates/*/specs/**/*.antt")):
            parts = file.relative_to(top).parts
            if file.name != "Lib.antt":
                self.texts[parts[1], ".".join(parts[3:])[:-len(".antt")]] = file.read_text(encoding="utf-8")
        for module, text in self.texts.items():
            self.of_module[module] = cut(module, text)
            for definition in self.of_module[module]:
                for name in [*definition.names, *definition.inner]:
                    self.places.setdefault((module, name), definition)
        for module, text in self.texts.items():
            self.imports[module] = self._imported(text)

    def module_of(self, crate, path):
        """The module that a path leads to or into, as `Tables` where the path is `Tables.IsTypeOf`; or None."""
        words = path.split(".")
        for count in range(len(words), 0, -1):
            if (crate, ".".join(words[:count])) in self.texts:
                return crate, ".".join(words[:count])
        return None

    def _imported(self, text):
        """What each imported name stands for: a definition, or, of a module under a name, the module."""
        found = {}
        for crate, path, names, alias in IMPORT.findall(text):
            module = self.module_of(crate, path)
            if not module:
                continue
            for name in re.split(r",\s*", names) if names else []:
                real, _, mine = name.strip().partition(" as ")
                if (module, real) in self.places:
                    found[mine or real] = self.places[module, real]
            if alias:
                found[alias] = module
        return found

    def cited(self, definition):
        """The definitions that this one cites."""
        found, module = [], definition.module
        imports = self.imports[module]
        signs = {name.strip("◌"): name for name in [*imports, *self._own(module)] if "◌" in name}
        for word in WORD.findall("\n".join(definition.lines)):
            word = signs.get(word, word)
            first, _, rest = word.partition(".")
            there = imports.get(word) or imports.get(first)
            if isinstance(there, tuple):
                there = self.places.get((there, rest.partition(".")[0]))
            there = there or self.places.get((module, word)) or self.places.get((module, first))
            if there is not None and there is not definition:
                found.append(there)
        return found

    def declared(self, definition):
        """The types of src/ that the definition names, each as crate and name."""
        found = set()
        words = set(WORD.findall("\n".join(definition.lines))) | set(re.findall(r"[\w']+", "\n".join(definition.lines)))
        for crate, path, names, alias in IMPORT.findall(self.texts[definition.module]):
            if not path.startswith("declared."):
                continue
            type_name = [part for part in path.split(".") if not part.startswith("The")][-1]
            mine = [name.strip().partition(" as ") for name in re.split(r",\s*", names)] if names else []
            if (alias and alias in words) or any((short or real) in words for real, _, short in mine):
                found.add((crate, type_name))
        return found

    def _own(self, module):
        return [name for definition in self.of_module[module] for name in definition.names]

    def reached(self, *roots):
        """The definitions that these cite, by themselves or through others, and these."""
        waiting = list(roots)
        seen = {id(root): root for root in roots}
        while waiting:
            for definition in self.cited(waiting.pop()):
                if id(definition) not in seen:
                    seen[id(definition)] = definition
                    waiting.append(definition)
        return list(seen.values())

    def named(self, crate, module, name):
        """The definition of this name, or None."""
        return self.places.get(((crate, module), name))


def cut(module, text):
    """The definitions of a file, in order."""
    found, now, fixity = [], None, None
    for line in text.split("\n"):
        if not line.strip() or line.lstrip().startswith("--"):
            continue
        if not line[0].isspace():
            plain = PLAIN.match(line)
            if FIXITY.match(line):
                fixity, now = line, None
                continue
            if plain or BLOCK.match(line):
                now = Definition(module)
                now.names += [plain[1]] if plain else []
                now.lines += [fixity] if fixity else []
                fixity = None
                found.append(now)
            elif IMPORT.match(line) or line.startswith(("use ", "pub use ", "pub mod ", "mod ")):
                now = None
        if now is None:
            continue
        now.lines.append(line)
        inside = IN_BLOCK.match(line)
        if inside and not PLAIN.match(now.lines[0 if not now.lines[0].startswith("infix") else 1]):
            now.names.append(inside[1])
        elif CONSTRUCTOR.match(line):
            now.inner.add(CONSTRUCTOR.match(line)[1])
    return found


def lines_by_crate(definitions):
    """How many lines the definitions of each crate have."""
    counted = collections.Counter()
    for definition in definitions:
        counted[definition.module[0]] += len(definition.lines)
    return counted
