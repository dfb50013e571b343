#!/usr/bin/env python3
"""What a reader must believe, by docs/TRUST.md, is all that the statements name and nothing else. The statements are the contracts
of the public calls and of the programs' loops, and the theorems of the page's tables, among which is every promise. Every definition
that one of them names, and every definition that such a one names, stands in a file of the reading list or beside the theorem; every
file of the list has one; the counts on the page are those measured here; and what C calls promises what the kernel does.

usage: tests/trust.py [--list]

Only text is read, so nothing has to be built. `--list` shows which definitions of each file are named. The last line is
'N passed, M failed'; the exit status is 0 only if nothing failed.
"""
import functools
import re
import sys

sys.dont_write_bytecode = True
from checks import check, closing
from specs import ROOT, SPECS, line_of, places_in, read, section, shown, theorem_rows

TRUST = 'docs/TRUST.md'
# Whose contracts a reader relies on: the two calls and the question, and the programs' loops.
CALLS = {'kernel': {'stewlattice_start', 'stewlattice_step'}, 'names': {'suffix', 'ask'}}
LOOPS = {'logging': {'begin', 'turn', 'run', 'log'}, 'asksuffix': {'turn', 'run'}}

NAME = r'[^\s:(){}]+'
HEAD = re.compile(rf'(?: {{2}}| {{4}})?(?:abbrev |unfoldable )?(?:pub )?(?:(?:data|record) ({NAME})|({NAME}) :(?= |$))')
TYPE = re.compile(r'\s*(?:pub )?(?:data|record) ')
DEFINITION = re.compile(r'\s*(?:abbrev |unfoldable |(?:pub )?(?:data|record) )')
BETWEEN = re.compile(r'[\s(){}\[\],;⌜⌝]+')
CONTRACT = re.compile(r'\bfn (\w+)(?:<[^>]*>)?\((?:[^()]|\([^()]*\))*\)(?: -> [^\n]*)?((?:\n    .*)+)\n\{')


# ---- files and their declarations

@functools.cache
def file_of(module):
    """The file of a module: of a crate's specs or proofs, or of a type that its source declares; None for the toolchain's."""
    found = re.fullmatch(r'Rattle\.(\w+)\.(specs|proofs)\.(.+)', module)
    if not found:
        return None
    crate, part, path = found.groups()
    declared = re.match(r'declared\.(\w+)\.', path)
    return ROOT / 'crates' / crate / (f'src/{declared.group(1)}.rt' if declared else f'{part}/{path.replace(".", "/")}.antt')


@functools.cache
def imports(path):
    """What a file takes from others: its names, each with a file and the name there, and its names for whole modules."""
    names, modules = {}, {}
    for module, some, alias in re.findall(r'use ([^\s{;]+?)(?:\.\{([^}]*)\}| as ([^\s;]+))?;?$', read(path), re.M):
        for name in filter(None, re.split(r',\s*', some)):
            there, _, here = name.partition(' as ')
            names[here or there] = (file_of(module), there)
        if alias:
            modules[alias] = file_of(module)
    return names, modules


def types(path):
    """The types that a file of source declares, with their texts."""
    return dict(re.findall(r'^pub (?:struct|enum) (\w+) (\{.*?^\})', read(path), re.M | re.S))


@functools.cache
def declared(path):
    """The declarations of a file, each with its text, comments apart; and the declaration that each of its names is of."""
    if path.suffix == '.rt':
        return types(path), {name: kind for kind, text in types(path).items() for name in [kind] + re.findall(r'\w+', text)}
    texts, owner, name = {}, {}, ''
    for line in read(path).splitlines():
        head = HEAD.match(line)
        if line.lstrip().startswith('--'):
            continue
        if head and not (line.startswith(' ') and TYPE.match(texts.get(name, ''))):
            name = head.group(1) or head.group(2)
            texts[name] = ''
            owner[name] = name
        elif TYPE.match(texts.get(name, '')):
            case = re.match(rf'\s+(?:pub )?((?:{NAME} )+):(?= |$)', line)
            owner.update({word: name for word in case.group(1).split()} if case else {})
        if name:
            texts[name] += line + '\n'
    return texts, owner


def meaning(path, word):
    """The declaration that a word of a file is of, followed through the files that pass it on."""
    names, modules = imports(path)
    alias, _, rest = word.partition('.')
    if word in declared(path)[1]:
        return path, declared(path)[1][word]
    place, there = names.get(word) or (modules.get(alias), rest)
    return meaning(place, there) if place and place.exists() else None


def named(path, text):
    """The definitions that a text of a file names."""
    for word in set(BETWEEN.split(text)):
        found = meaning(path, word) or meaning(path, word.partition('.')[0])
        if found and (found[0].suffix == '.rt' or DEFINITION.match(declared(found[0])[0][found[1]])):
            yield found


def closure(left):
    """These definitions, and every one that one of them names."""
    known = set()
    while left:
        path, name = left.pop()
        if (path, name) not in known:
            known.add((path, name))
            left += named(path, declared(path)[0][name])
    return known


# ---- statements

def contracts(calls):
    """The definitions that the contracts of some functions name."""
    found, seen = [], set()
    for crate in calls:
        for path in sorted((ROOT / f'crates/{crate}/src').glob('**/*.rt')):
            for name, text in CONTRACT.findall(read(path)):
                if name in calls[crate]:
                    seen.add((crate, name))
                    found += named(path, text)
    for crate in calls:
        for name in calls[crate]:
            check(f'{crate}::{name} has a contract', (crate, name) in seen)
    return found


def exported():
    """A function that C calls promises what the kernel's of that name does, in the same words and of the same definitions."""
    clauses = {}
    for crate in ('kernel', 'kernel_c'):
        path = ROOT / f'crates/{crate}/src/lib.rt'
        clauses[crate] = {name: (text, sorted(named(path, text)))
                          for name, text in CONTRACT.findall(read(path)) if name in CALLS['kernel']}
    whole = clauses['kernel'].keys() == CALLS['kernel']
    check('kernel_c promises what kernel does', whole and clauses['kernel'] == clauses['kernel_c'], clauses)


def theorems(stated):
    """The definitions that theorems name: in what stands before their proofs, and in what a module of them takes as given."""
    found = []
    for path, name in stated:
        found += named(path, re.split(rf'^\s*{re.escape(name)}(?=\s)(?! :)', declared(path)[0][name], flags=re.M)[0])
    for path in {path for path, _ in stated}:
        for given in re.findall(r'^ *module _ .*? where$', read(path), re.M | re.S):
            found += named(path, given)
    return found


def promised(stated):
    """Every theorem of a file of promises is stated on the page."""
    for path in SPECS:
        if 'Promises' in (path.stem, path.parent.name):
            for name, text in declared(path)[0].items():
                if re.match(r'\s*pub ', text) and not TYPE.match(text):
                    check(f'{TRUST}: the promise `{name}` of {shown([path])} is in no table', (path, name) in stated)


def measure(known):
    """How many definitions, files and lines."""
    return len(known), len({path for path, _ in known}), sum(len(declared(path)[0][name].strip().splitlines()) for path, name in known)


text = read(TRUST)
stated = {(path, name) for names, files, _ in theorem_rows(TRUST, section(text, 'What is proved beyond the functions'))
          for name in names for path in files if name in declared(path)[0]}
promised(stated)
exported()
beside = {path for path, _ in stated}
calls = closure(contracts(CALLS))
known = closure(contracts(CALLS) + contracts(LOOPS) + theorems(stated))
if '--list' in sys.argv:
    for path in sorted({path for path, _ in known}):
        print(f'{path.relative_to(ROOT)}: {" ".join(sorted(name for place, name in known if place == path))}')
listed = set(places_in(TRUST, line_of(section(text, 'In reading order'))))
need = {path for path, _ in known} - beside
check('the statements name definitions', len(known) > 200, len(known))
for path in sorted(need | listed):
    check(f'{shown([path])} has what a statement names, and is not in the reading list', path in listed)
    check(f'{shown([path])} is in the reading list, and no statement names what it has', path in need)
said = [tuple(int(n.replace(',', '')) for n in found)
        for found in re.findall(r'([\d,]+) definitions in ([\d,]+) files, ([\d,]+) lines', line_of(text))]
check(f'{TRUST} counts what the two calls and the question need, and all', said == [measure(calls), measure(known)],
      f'measured: {measure(calls)}, {measure(known)}')
closing()
