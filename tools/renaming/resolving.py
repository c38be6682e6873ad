"""What paths and names lead to: the row of the table for the last segment of a path, and the path with all its segments renamed."""
from renaming.repository import DEPTH

GENERATED_MODULES = ('TheVariants', 'TheFolds')
GOALS = ('Goals', 'Given')
RELATIVE = ('crate', 'self', 'super')


class Resolver:
    """The table applied to what the repository declares."""

    def __init__(self, repository, table, warn):
        self.repository, self.table, self.warn = repository, table, warn

    # ---- the rows of single names

    def new_type(self, crate, name):
        """The new name of a type that a crate declares or exports, or None."""
        return self.table.scope('type', self.repository.home(crate, name)).get(name)

    def new_variant(self, crate, enum, name):
        """The new name of a variant of an enum that a crate declares or exports, or None."""
        return self.table.scope('variant', self.repository.home(crate, enum), enum).get(name)

    def new_module(self, crate, module):
        """A module's new name, that of the modules around it with it."""
        if module in self.table.scope('mod', crate):
            return self.table.scope('mod', crate)[module]
        outer, slash, inner = module.rpartition('/')
        return self.new_module(crate, outer) + slash + inner if slash else module

    def new_file(self, crate, folder, name):
        """The new name of a file of specs/ or proofs/."""
        return self.table.scope('prooffile' if folder == 'proofs' else 'specfile', crate).get(name, name)

    def new_definition(self, crate, folder, file, name):
        """The new name of what a file of definitions defines or exports, or None."""
        found = self.definition(crate, folder, file, name)
        return self.table.scope(*definition_scope(*found[:3])).get(found[3]) if found else None

    def definition(self, crate, folder, file, name, depth=0):
        """Where a definition is that a file defines or exports, as crate, folder, file and name, or None for an unknown file."""
        source = self.repository.files.get('crates/%s/%s/%s.antt' % (crate, folder, file))
        if source is None or depth > DEPTH:
            return None
        for one in source.imports:
            if one.is_public and one.name == name and one.path[0] == 'Rattle' and len(one.path) == 5:
                return self.definition(*one.path[1:], depth + 1) or (crate, folder, file, name)
        return crate, folder, file, name

    def new_function(self, crate, name, module=None, depth=0):
        """The new name of a function of a crate, or None; without a module, one that the crate exports from another is it too."""
        rows, exports = self.table.functions[crate].get(name, []), self.repository.exports[crate]
        if module:
            own = [row for row in rows if row[0] == module or row[0].endswith('/' + module)]
            rows = own or (rows if len(self.repository.functions[crate].get(name, ())) == 1 else [])
        elif len({new for _, new in rows}) > 1:
            modules = [one.path[-2] for one in exports if one.name == name and len(one.path) > 1]
            rows = [row for row in rows if row[0].split('/')[-1] in modules]
        if len({new for _, new in rows}) == 1:
            return rows[0][1]
        if not rows and not module and depth < DEPTH and name not in self.repository.functions[crate]:
            for one in exports:
                if one.name == name and one.path[0] in self.repository.crates and one.path[0] != crate:
                    return self.new_function(one.path[0], one.path[-1], None, depth + 1)
        return None

    # ---- the last segment of a path

    def crate_of(self, file, path):
        """The crate of this repository into which an import of a file leads, or None."""
        first, crates = path[0], self.repository.crates
        if first == 'Rattle':
            return path[1] if len(path) > 1 and path[1] in crates else None
        if first in RELATIVE:
            return file.crate
        if first in crates:
            return first
        modules = self.repository.modules[file.crate] if file.is_source else ()
        is_own = any(module == first or module.startswith(first + '/') or '/' + first in module for module in modules)
        return file.crate if is_own else None

    def last_of(self, file, path):
        """The new name of the last segment of a path in a file, or None where it keeps its name."""
        crate, name = self.crate_of(file, path), path[-1]
        if crate is None:
            return None
        if path[0] == 'Rattle':
            return self.last_of_definitions(crate, path[2:])
        if len(path) >= 2 and path[-2][:1].isupper():
            return self.new_variant(crate, path[-2], name)
        if name[:1].isupper() and self.repository.home(crate, name):
            return self.new_type(crate, name)
        is_in_module = len(path) > 2 or path[0] not in RELATIVE and path[0] not in self.repository.crates
        return self.new_function(crate, name, path[-2] if is_in_module else None)

    def last_of_definitions(self, crate, path):
        """The new name of the last segment of a path within the definitions of a crate, or None where it keeps its name."""
        if is_in_file(path):
            return self.new_definition(crate, *path) if len(path) == 3 else None
        if len(path) < 3 or path[0] != 'specs':
            return None
        name, types = path[-1], [segment for segment in path[2:] if segment[:1].isupper()]
        if name in GENERATED_MODULES + GOALS and name != types[0]:
            return None
        if 'TheVariants' in path[2:-1]:
            return self.new_variant(crate, types[0], name)
        if '-' in name:
            new = '-'.join(self.new_type(crate, part) or part for part in name.split('-'))
            return new if new != name else None
        return self.new_type(crate, name)

    # ---- whole paths of definitions

    def new_path(self, path):
        """A path of definitions, with each segment renamed by what it is."""
        segments = path.split('.')
        if len(segments) < 2 or segments[0] != 'Rattle' or segments[1] not in self.repository.crates:
            return path
        crate, inner = segments[1], segments[2:]
        if is_in_file(inner):
            inner = self.in_file(crate, *inner)
        elif len(inner) > 1 and inner[0] == 'specs':
            inner = inner[:2] + self.in_declared(crate, inner[2:])
        elif len(inner) > 1 and inner[0] == 'proofs':
            inner = inner[:1] + self.in_proofs(crate, inner[1:])
        return '.'.join(['Rattle', self.table.crates.get(crate, crate), *inner])

    def in_declared(self, crate, segments):
        """The segments after `declared` or `contracts`: a module, a type of it, and names that are generated for the type."""
        count = next((at for at, segment in enumerate(segments) if segment[:1].isupper()), len(segments))
        new = self.module_segments(crate, segments[:count])
        for before, name in zip([None, *segments[count:]], segments[count:]):
            if before and name in GENERATED_MODULES:
                new.append(name)
            elif before == 'TheVariants':
                new.append(self.new_variant(crate, segments[count], name) or name)
            else:
                new.append(self.new_type(crate, name) or name)
        return new

    def in_file(self, crate, folder, file, *names):
        """The segments of a path into a file of specs/ or proofs/, of whose definitions the path may name one."""
        new = [folder, self.new_file(crate, folder, file), *names]
        if len(names) == 1:
            new[2] = self.new_definition(crate, folder, file, *names) or names[0]
        return new

    def in_proofs(self, crate, segments):
        """The segments after `proofs` of a path to answers: a module, and the types and functions of it."""
        known = self.repository.modules[crate] | {module.split('/')[0] for module in self.repository.modules[crate]}
        count = 0
        while count < len(segments) and '/'.join(segments[:count + 1]) in known:
            count += 1
        functions = self.table.scope('fn', crate, '/'.join(segments[:count]) or 'lib')
        new = self.module_segments(crate, segments[:count])
        for name in segments[count:]:
            if name in GOALS:
                new.append(name)
            else:
                new.append((self.new_type(crate, name) if name[:1].isupper() else functions.get(name)) or name)
        return new

    def module_segments(self, crate, segments):
        """The segments of a module's new name."""
        return self.new_module(crate, '/'.join(segments)).split('/') if segments else []


def is_in_file(path):
    """Whether a path within a crate leads into a file of specs/ or proofs/ that is written by hand."""
    return len(path) >= 2 and (
        path[0] == 'specs' and path[1] not in ('declared', 'contracts') or path[0] == 'proofs' and path[1][:1].isupper())


def definition_scope(crate, folder, file):
    """The scope of the definitions of a file of specs/, or of the lemmas of one of proofs/."""
    return 'def' if folder == 'specs' else 'lemma', crate, file
