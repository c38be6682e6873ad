"""The repository: its files, and what they declare."""
import os
import re
import subprocess
from collections import Counter, defaultdict

from renaming.files import File, crate_of, text_of

STRING = re.compile(r'"(?:[^"\\]|\\.)*"')
ITEM = re.compile(r'\s*(?:pub(?:\([a-z]+\))?\s+)?(?:const\s+)?(?:unsafe\s+)?(struct|enum|trait|type|fn|const|static)\s+([A-Za-z_]\w*)')
TYPES = ('struct', 'enum', 'trait', 'type')
VARIANT = re.compile(r'\s*([A-Z]\w*)\s*(?:[,({=]|$)')
STRUCT = re.compile(r'(?m)^[ \t]*(?:pub(?:\([^)]*\))?[ \t]+)?struct[ \t]+(\w+)[^{;(]*\{([^}]*)\}')
FIELD = re.compile(r'(?m)^[ \t]*(?:pub(?:\([^)]*\))?[ \t]+)?(\w+):')
DEFINED = re.compile(
    r'\s*(?:(?:pub|abbrev|unfoldable|record|data|syntax|instance)\s+)*((?:[^\s:(){}=,]+\s+)*?[^\s:(){}=,]+)\s*(?=[:({])')
SIGNATURE = re.compile(r'(?m)^[ \t]*(?:(?:pub|abbrev|unfoldable|record|data|syntax)[ \t]+)*([^\s:(){}.][^:(){}\n]*?)[ \t]+:(?=\s)')
GENERATED = ('Answers.antt', 'Invariants.antt', 'Proof.antt')
# How many re-exports are followed from one to the next.
DEPTH = 6


class Repository:
    """The files that git keeps here, and what those of the crates declare."""

    def __init__(self):
        listed = subprocess.run(['git', 'ls-files'], stdout=subprocess.PIPE, text=True, check=True).stdout.split('\n')
        self.paths = [path for path in listed if path and os.path.isfile(path)]
        self.files = {path: File(path) for path in self.paths if path.endswith(('.rt', '.antt'))}
        self.crates = {crate_of(path) for path in self.paths} - {None}
        self.modules = defaultdict(set)                                 # crate -> modules
        self.types = defaultdict(set)                                   # crate -> types
        self.functions = defaultdict(lambda: defaultdict(set))          # crate -> function -> modules
        self.variants = set()                                           # (crate, enum, variant)
        self.fields = defaultdict(lambda: defaultdict(set))             # crate -> struct -> fields
        self.exports = defaultdict(list)                                # crate -> imports that it exports again
        self.hyphenated = set()                                         # names of definitions and lemmas with a hyphen
        self.dependencies = dict(read_dependencies())
        for file in self.files.values():
            if file.is_source:
                self.read_source(file)
            elif '/proofs/' not in file.path or os.path.basename(file.path) not in GENERATED:
                self.hyphenated.update(name for names in SIGNATURE.findall(file.text) for name in names.split() if '-' in name)
        self.declarations = Counter(self.declared())

    def read_source(self, file):
        """Enters what a source declares and exports."""
        if file.module:
            self.modules[file.crate].add(file.module)
        self.read_items(file)
        for struct, body in STRUCT.findall(file.text):
            self.fields[file.crate][struct].update(FIELD.findall(body))
        self.exports[file.crate] += [one for one in file.imports if one.is_public]

    def read_items(self, file):
        """Enters the types, variants, functions and constants of a source."""
        enum, depth = None, 0
        for line in file.text.split('\n'):
            code = STRING.sub('""', line.split('//')[0])
            if item := ITEM.match(code):
                kind, name = item.groups()
                if kind in TYPES:
                    self.types[file.crate].add(name)
                else:
                    self.functions[file.crate][name].add(file.module)
                if kind == 'enum':
                    enum, depth = name, 0
            if enum:
                self.variants.update((file.crate, enum, name) for name in variants_in(code, depth))
                depth += code.count('{') - code.count('}')
                if depth <= 0 and '}' in code:
                    enum = None

    def declared(self):
        """Each name, as often as a type, a function, a definition of specs/ or a variant is named so."""
        for types in self.types.values():
            yield from types
        for functions in self.functions.values():
            yield from (name for name, modules in functions.items() for _ in modules)
        for path, file in self.files.items():
            if '/specs/' in path:
                yield from defined_in(file.text)
        yield from (variant for _, _, variant in self.variants)

    def visible(self, crate):
        """The crates whose names a crate can use: itself, and those on which it depends."""
        return [crate, *sorted(self.dependencies.get(crate, set()) - {crate})]

    def home(self, crate, name, depth=0):
        """The crate that declares the type which a crate has under this name, or None."""
        if name in self.types[crate]:
            return crate
        if depth < DEPTH:
            for one in self.exports[crate]:
                if one.name == name and one.path[0] in self.crates and one.path[0] != crate:
                    return self.home(one.path[0], one.path[-1], depth + 1)
        return None

    def modules_named(self, crate, name):
        """The modules of a crate that have this name, whatever they are in."""
        return sorted(module for module in self.modules[crate] if module == name or module.endswith('/' + name))

    def sources_of(self, path):
        """The sources that a file of answers belongs to."""
        found = re.match(r'crates/([^/]+)/proofs/(.+)/[^/]+$', path)
        if not found:
            return []
        crate, parts = found[1], found[2].split('/')
        for count in range(len(parts), 0, -1):
            source = 'crates/%s/src/%s.rt' % (crate, '/'.join(parts[:count]))
            if source in self.files:
                return [self.files[source]]
        root = 'crates/%s/src/' % crate
        if parts[0].startswith('+'):
            return [file for other, file in self.files.items() if other.startswith(root)]
        return [self.files[root + 'lib.rt']] if root + 'lib.rt' in self.files else []


def read_dependencies():
    """The crates of crates.txt, each with those on which it depends."""
    for line in text_of('crates.txt').split('\n'):
        crate, colon, others = line.split('#')[0].partition(':')
        if colon:
            yield crate.split()[0], set(others.split())


def variants_in(code, depth):
    """The variants in a line of an enum, so many braces deep."""
    if depth == 1:
        found = VARIANT.match(code)
        return [found[1]] if found else []
    return re.findall(r'\b([A-Z]\w*)\b', code[code.index('{'):]) if depth == 0 and '{' in code and '}' in code else []


def defined_in(text):
    """The names that a file of definitions defines, at any depth."""
    defined = set()
    for line in text.split('\n'):
        code = line.split('--')[0]
        found = DEFINED.match(code)
        if found and not code.strip().startswith(('use ', 'pub use ')):
            defined.update(found[1].split())
    return defined
