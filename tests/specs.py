"""What the definitions and theorems below crates define, and what a page cites of it, for the tests of pages."""
import functools
import pathlib
import re

from checks import check

ROOT = pathlib.Path(__file__).resolve().parent.parent
# The files of specs, and those of proofs but what answers the checker about a function.
SPECS = sorted([*ROOT.glob('crates/*/specs/**/*.antt'),
                *(path for path in ROOT.glob('crates/*/proofs/**/*.antt') if path.stem not in ('Answers', 'Invariants', 'Proof'))])
WORD = r'[^\s`(){}:]+'


@functools.cache
def read(path):
    return (ROOT / path).read_text(encoding='utf-8')


def line_of(text):
    return ' '.join(text.split())


@functools.cache
def defined(path):
    """The names that a file gives a meaning: definitions and theorems, types, their constructors and fields."""
    names, in_data = set(), False
    for line in read(path).splitlines():
        if line[:1].strip():
            in_data = line.startswith('pub data ')
        kind = re.match(rf' *pub (?:data|record) ({WORD})', line)
        given = re.match(rf' *(?:abbrev |unfoldable )?pub ((?:{WORD} )+):( |$)', line)
        case = in_data and re.match(rf'  (?!--)((?:{WORD} )+):( |$)', line)
        for found in filter(None, (kind, given, case)):
            names.update(found.group(1).split())
    return names


def defining(name):
    """The files that define a name."""
    return [path for path in SPECS if name in defined(path)]


@functools.cache
def functions(crate):
    """The functions of a crate; `*` is all crates."""
    return {name for path in ROOT.glob(f'crates/{crate}/src/**/*.rt') for name in re.findall(r'\bfn (\w+)', read(path))}


def shown(paths):
    names = [str(path.relative_to(ROOT)) for path in paths]
    return ', '.join(names[:3] + ['..'] * (len(names) > 3)) or 'no file'


def stands(who, name, paths):
    """A name is defined in one of these files."""
    check(f'{who}: `{name}` is not defined in {shown(paths)}', any(name in defined(path) for path in paths),
          f'it is defined in {shown(defining(name))}')


def called(who, name):
    """A name is that of a definition or of a function; crate::function is one of that crate."""
    crate, _, function = name.rpartition('::')
    check(f'{who}: `{name}` is neither defined nor a function',
          function in functions(crate or '*') or not crate and defining(name))


def names_in(text):
    """The names in a text, those in its quotations apart."""
    return re.findall(r"`([\w':-]+)`", re.sub(r'"[^"]*"', '', text))


def places_in(who, text, crate=''):
    """The files and folders that a text names by their paths. A short path is of the crate before it."""
    for path in re.findall(r'`([\w/]+(?:\.antt|\.rt|/))`', text):
        crate = '/'.join(path.split('/')[:3]) if path.startswith('crates/') else crate
        place = ROOT / (path if path.startswith('crates/') else f'{crate}/{path}')
        check(f'{who}: {path} is not there', place.exists())
        yield place


def files_in(who, text, crate=''):
    """The files of definitions and theorems that a text names: by their paths, and below a folder."""
    return [file for place in places_in(who, text, crate) for file in SPECS if file == place or place in file.parents]


def tables(text):
    """The tables of a page, each a list of rows, the head first; a row is the list of its cells."""
    for table in re.findall(r'(?:^\|.*\n?)+', text, re.M):
        rows = [[cell.strip() for cell in row.strip('|').split('|')] for row in table.splitlines()]
        yield rows[:1] + rows[2:]


def number(cell):
    """The number that a cell begins with, or None."""
    found = re.match(r'\d[\d,]*', cell)
    return int(found.group().replace(',', '')) if found else None


def section(text, title):
    return text.split(f'\n## {title}\n', 1)[1].split('\n## ', 1)[0]


def theorem_rows(who, text):
    """The rows of the tables of theorems on a page: the names of each, the files they may stand in, which the line above the table
    says or the row itself, and their meaning in words."""
    files, crate = [], ''
    for part in text.split('\n\n'):
        if part.startswith('|'):
            for names, meaning in next(tables(part))[1:]:
                yield names_in(names.split(' in ')[0]), files_in(who, names, crate) or files, meaning
        else:
            files = files_in(who, line_of(part))
            crate = '/'.join(files[0].relative_to(ROOT).parts[:3]) if files else ''
            for name in names_in(line_of(part)) if files else []:
                stands(who, name, files)
