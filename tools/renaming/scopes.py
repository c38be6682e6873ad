"""The names that a file can use, with what becomes of each."""
import functools
import re
from collections import defaultdict

from renaming.files import WORD
from renaming.resolving import definition_scope

DEFINITIONS = re.compile(r'crates/[^/]+/(specs|proofs)/([^/]+)\.antt$')
VARIANT = re.compile(r'\b(\w+)::([A-Z]\w*)\b')


@functools.cache
def scope_of(resolver, file):
    """The scope of a file, which is made once."""
    return Scope(resolver, file)


class Scope:
    """What the names of a file become: those that it imports or declares, those of its clauses, and parts of generated names."""

    def __init__(self, resolver, file):
        self.resolver, self.file = resolver, file
        self.repository, self.table = resolver.repository, resolver.table
        self.aliases = {one.alias: one.path for one in file.imports if one.alias}
        self.imported = {one.name for one in file.imports if not self.is_of_clauses(one)}
        self.in_clauses = self.unambiguous(self.imports_of_clauses(), 'in clauses ')
        plain = self.unambiguous(self.imports_and_definitions(), '')
        self.plain = {name: new for name, new in plain.items() if new != name}
        if file.is_source:
            self.add_own()
        self.parts = {} if file.is_source else self.generated_parts()

    def is_of_clauses(self, one):
        """Whether an import of a source is for its clauses."""
        return self.file.is_source and one.is_definition

    def imports_of_clauses(self):
        """The names that a source imports for its clauses, each with the set of its new names."""
        found = defaultdict(set)
        for one in self.file.imports:
            if self.is_of_clauses(one) and not one.alias:
                found[one.name].add(self.resolver.last_of(self.file, one.path) or one.name)
        return found

    def imports_and_definitions(self):
        """The other names that a file imports, and those that a file of definitions defines, each with the set of its new names."""
        found = defaultdict(set)
        for one in self.file.imports:
            if not self.is_of_clauses(one):
                found[one.name].add(one.alias or self.resolver.last_of(self.file, one.path) or one.name)
        if place := DEFINITIONS.match(self.file.path):
            for old, new in self.table.scope(*definition_scope(self.file.crate, *place.groups())).items():
                if '.' not in old:
                    found[old].add(new)
        return found

    def unambiguous(self, found, where):
        """The names that have one new name; one with several is left as it is, with a warning."""
        for name, news in found.items():
            if len(news) > 1:
                self.resolver.warn('%s: %s%s means two things: %s' % (self.file.path, where, name, sorted(news)))
        return {name: new for name, (new, *others) in found.items() if not others}

    def add_own(self):
        """Adds the types of the source's crate and the functions of its module, which it needs no import for."""
        file = self.file
        for old, new in self.table.scope('type', file.crate).items():
            if old not in self.imported or self.resolver.crate_of(file, file.imported_paths[old][0]) == file.crate:
                self.plain.setdefault(old, new)
        for old, new in self.table.scope('fn', file.crate, file.module).items():
            if old not in self.imported:
                self.plain.setdefault(old, new)

    # ---- the parts of generated names

    def generated_parts(self):
        """The parts of the generated names of a file of definitions: types, variants and functions that its sources name."""
        parts = {}
        for source in self.repository.sources_of(self.file.path):
            scope = scope_of(self.resolver, source)
            parts = {**scope.functions, **scope.variants, **scope.plain, **parts}
        for one, crate in self.generated_types():
            if new := self.resolver.new_type(crate, one.type_name):
                parts.setdefault(one.type_name, new)
            home = self.repository.home(crate, one.type_name)
            parts = {**self.table.scope('variant', home, one.type_name), **parts}
            for part in one.path[-1].split('-')[1:]:
                if new := self.resolver.new_type(crate, part):
                    parts.setdefault(part, new)
        return parts

    def generated_types(self):
        """The imports of a file that lead into what is generated for a type, each with the crate that it leads into."""
        for one in self.file.imports:
            crate = self.resolver.crate_of(self.file, one.path)
            if one.type_name and crate:
                yield one, crate

    @functools.cached_property
    def variants(self):
        """The variants that a source names as `Type::Variant` and that the table renames; those of two new names are left."""
        found = defaultdict(set)
        for name in VARIANT.finditer(self.file.text):
            found[name[2]].add(self.new_variant(name[1], name[2], name.start()) or name[2])
        for name, news in found.items():
            if len(news) > 1:
                self.resolver.warn('%s: the variant %s is one of two types here' % (self.file.path, name))
        return {name: new for name, (new, *others) in found.items() if not others and new != name}

    def new_variant(self, enum, name, at):
        """The new name of a variant of what a source calls so at a position, or None."""
        file, crate = self.file, self.file.crate
        if enum == 'Self':
            enum = file.owner_at(at)
        elif enum in file.imported_paths:
            found = [(self.resolver.crate_of(file, path), path[-1]) for path in file.imported_paths[enum]]
            crate, enum = next((one for one in found if one[0]), (None, None))
        elif enum not in self.repository.types[crate]:
            return None
        return self.resolver.new_variant(crate, enum, name)

    @functools.cached_property
    def functions(self):
        """The functions that a source names, and can call or declares, and that the table renames."""
        words, found = set(WORD.findall(self.file.text)), {}
        for crate in self.repository.visible(self.file.crate):
            for name in words & self.table.functions[crate].keys():
                if new := self.plain.get(name) or self.only_method(crate, name):
                    found.setdefault(name, new)
        return found

    def only_method(self, crate, name):
        """The new name of a method of a crate, or None where the source can call another of this name that doesn't become the same."""
        return next((new for module, new in self.table.functions[crate][name]
                     if self.is_method(crate, module, name) and not self.has_rivals(crate, module, name)), None)

    def is_method(self, crate, module, name):
        """Whether a source declares a function or constant of this name in another item."""
        source = self.repository.files.get('crates/%s/src/%s.rt' % (crate, module))
        declared = r'(?m)^\s+(?:pub(?:\([a-z]+\))?\s+)?(?:const\s+)?(?:fn|const)\s+%s\b' % re.escape(name)
        return bool(source and re.search(declared, source.text))

    def has_rivals(self, crate, module, name):
        """Whether the source can call another function of this name, which gets another new name than this one."""
        new = self.table.scope('fn', crate, module)[name]
        return any((other, inner) != (crate, module) and self.table.scope('fn', other, inner).get(name) != new
                   for other in self.repository.visible(self.file.crate)
                   for inner in self.repository.functions[other].get(name, ()))

    # ---- methods and fields, whose types aren't known

    def method(self, name):
        """The new name of a method, or None where the crates that are visible have several, with a warning."""
        news = {self.table.scope('fn', crate, module).get(name, name)
                for crate in self.repository.visible(self.file.crate)
                for module in self.repository.functions[crate].get(name, ())}
        if len(news) > 1:
            self.resolver.warn('%s: the method %s is one of several: %s' % (self.file.path, name, sorted(news)))
        return news.pop() if len(news) == 1 else None

    def field(self, name):
        """The new name of a field, or None where the crates that are visible have several; a warning names structs that keep theirs."""
        crates = self.repository.visible(self.file.crate)
        news = {new for crate in crates for new in self.table.fields[crate].get(name, ())}
        if len(news) != 1:
            return None
        rivals = ['%s %s' % (crate, struct) for crate in crates for struct, fields in self.repository.fields[crate].items()
                  if name in fields and name not in self.table.scope('field', crate, struct)]
        if rivals:
            self.resolver.warn('%s: the field %s is also one of %s' % (self.file.path, name, sorted(rivals)))
        return news.pop()

    def type_named(self, name):
        """The crate and the type whose generated definitions a file of definitions imports under this name, or None."""
        for one, crate in self.generated_types():
            home = self.repository.home(crate, one.type_name)
            if home and name in (one.type_name, one.alias):
                return home, one.type_name
        return None
