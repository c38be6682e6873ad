#!/usr/bin/env python3
"""rename.py [TABLE]: renames crates, modules, types, variants, fields, functions, definitions and files by a table, tools/names.tsv if
none is given.

The table has a row for each name: `scope<TAB>old<TAB>new`, with names as they are before. Scopes:

  crate                 a crate, everywhere
  mod CRATE             a module, src/OLD.rt, with its folder of proofs
  specfile CRATE        specs/OLD.antt; `prooffile` the same of proofs/
  type CRATE            a struct, enum, trait or alias
  variant CRATE TYPE    a variant of an enum
  field CRATE TYPE      a field of a struct
  fn CRATE MODULE       a function, method or constant of src/MODULE.rt
  def CRATE FILE        a definition of specs/FILE.antt; `lemma` the same of proofs/FILE.antt
  token                 a word of code wherever it is, and a file or folder that is named so; none of these files may have the new word
  text PATH             these very words in the file PATH, after all else
  merged                a crate that was put into another after the renaming: for readers, nothing is renamed by it

A name is replaced where it is the one that the row means: in the files of its crate, and in those that import it, directly or from a
crate that exports it again. Where a file has the name from elsewhere too, it is left, with a warning."""
import os
import subprocess
import sys
from pathlib import Path

from renaming.files import crate_of, text_of
from renaming.moving import move_all
from renaming.prose import Prose
from renaming.repository import Repository
from renaming.resolving import Resolver
from renaming.rewriting import Rewriter, edits_rewritten
from renaming.table import Table

# Pages for those who write programs: a name in backticks is one of Sather there, and only the names of crates are replaced.
USERS = ('docs/ERRORS.md', 'docs/ITERS.md', 'docs/LANGUAGE.md', 'docs/LIBRARY.md', 'docs/MOVING.md', 'docs/ROOM.md',
         'conformance/old/README.md', 'examples/README.md')
# Other files with names, by the ends of their paths, and where there are none: in programs of Sather and in what is made.
SUFFIXES = ('.md', '.py', '.txt', '.edit', '.json', '.sh', '.html', '.js')
LEFT_OUT = ('tools/', 'bin/', 'out/')
PROGRAMS = ('crates/test_cases/data', 'examples/', 'lib/', 'hosts/web/examples')


def rewritten(resolver, path):
    """The new text of a file that is neither a source nor one of definitions, or None for one that is left."""
    if path.startswith(LEFT_OUT) or not path.endswith(SUFFIXES) and '.' in os.path.basename(path):
        return None
    try:
        text = text_of(path)
    except UnicodeDecodeError:
        return None
    if path.endswith('.md') and path not in USERS:
        return Prose(resolver, crate_of(path)).rewritten(text)
    if path.endswith('.edit'):
        return edits_rewritten(resolver, crate_of(path), text)
    return None if path.startswith(PROGRAMS) else Prose(resolver).crates_in(text)


def replace_texts(resolver, texts):
    """Replaces the very words of rows in the new texts, with a warning for what isn't there."""
    for (_, path), row in resolver.table.of_kind('text'):
        text = texts[path] if path in texts else text_of(path)
        for old, new in row.items():
            old, new = (words.replace('\\n', '\n').replace('\\t', '\t') for words in (old, new))
            if old not in text:
                resolver.warn('%s: no text %r' % (path, old))
            text = text.replace(old, new)
        texts[path] = text


def rename_all(table_path):
    """Rewrites and moves the files of the repository, and prints the warnings."""
    warnings = set()
    table = Table(table_path, warnings.add)
    top = subprocess.run(['git', 'rev-parse', '--show-toplevel'], stdout=subprocess.PIPE, text=True, check=True).stdout.strip()
    os.chdir(top)
    repository = Repository()
    resolver = Resolver(repository, table, warnings.add)
    texts = {path: Rewriter(resolver, file).rewritten() for path, file in repository.files.items()}
    for path in repository.paths:
        if path not in texts and (text := rewritten(resolver, path)) is not None:
            texts[path] = text
    replace_texts(resolver, texts)
    for path, text in texts.items():
        Path(path).write_text(text, 'utf8')
    move_all(resolver)
    for line in sorted(warnings):
        print(line)


def main(words):
    if len(words) > 1:
        sys.exit(__doc__)
    rename_all(words[0] if words else Path(__file__).resolve().parent / 'names.tsv')


if __name__ == '__main__':
    main(sys.argv[1:])
