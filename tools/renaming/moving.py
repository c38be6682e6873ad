"""Moving files to their new names."""
import os


def new_path(resolver, path):
    """The path of a file, with the crate, the module and what else it is named by renamed."""
    if not path.startswith('crates/') or path.count('/') < 2:
        return path
    _, crate, *parts = path.split('/')
    name, suffix = os.path.splitext(parts[-1])
    if len(parts) > 1 and parts[0] == 'src' and suffix == '.rt':
        parts[1:] = (resolver.new_module(crate, '/'.join([*parts[1:-1], name])) + suffix).split('/')
    elif len(parts) == 2 and parts[0] in ('specs', 'proofs') and suffix == '.antt':
        parts[1] = resolver.new_file(crate, parts[0], name) + suffix
    elif len(parts) > 2 and parts[0] == 'proofs':
        parts[1:-1] = resolver.new_path('.'.join(['Rattle', crate, *parts[:-1]])).split('.')[3:]
    if parts[0] in ('src', 'proofs', 'specs') and suffix in ('.rt', '.antt'):
        table = resolver.table
        parts = [*(new_folder(table, part) for part in parts[:-1]), table.new_token(parts[-1])]
    return '/'.join(['crates', resolver.table.crates.get(crate, crate), *parts])


def new_folder(table, name):
    """The name of a folder; one for the answers of a cycle of calls begins with a plus."""
    cycle = '+' if name.startswith('+') else ''
    word = name[len(cycle):]
    return cycle + table.tokens.get(word, word)


def move_all(resolver):
    """Moves each file that gets another path, and removes the folders that get empty."""
    for old in resolver.repository.paths:
        new = new_path(resolver, old)
        if new != old:
            os.makedirs(os.path.dirname(new), exist_ok=True)
            if os.path.exists(new):
                resolver.warn('%s: %s is there' % (old, new))
            os.rename(old, new)
    for folder, _, _ in os.walk('crates', topdown=False):
        if not os.listdir(folder):
            os.rmdir(folder)
