#!/usr/bin/env python3
"""What the pages cite stands where they say: docs/RULES.md, docs/TRUST.md and README.md held to the definitions and theorems below
crates; the rules' numbering; their layouts and numbers held to the definition of the layout and to the C header; and no crate opens
the definitions of the rule sheet but its own.

usage: tests/rules.py

Only text is read, so nothing has to be built. The last line is 'N passed, M failed'; the exit status is 0 only if nothing failed.
"""
import re
import sys

sys.dont_write_bytecode = True
from checks import check, closing
from specs import (ROOT, SPECS, WORD, called, defining, files_in, line_of, names_in, number, read, section, shown, stands, tables,
                   theorem_rows)

RULES, TRUST, README = 'docs/RULES.md', 'docs/TRUST.md', 'README.md'
PLACE = r'\(([a-z_]+)/([A-Za-z]+(?:/[A-Za-z]+)*)\)'
# `is_name`, `labels` (names/Rule/Name)
CITED = re.compile(rf'((?:`{WORD}`,? )+){PLACE}')


# ---- docs/RULES.md

def numbered(text):
    """Sections and their rules rise; every rule says where it is said; every rule that is mentioned is there."""
    known, at, last = set(), 0, 0
    for block in re.split(r'^(?=## |\*\*\d)', text, flags=re.M)[1:]:
        title = re.match(r'## (\d+)\. ', block)
        if title:
            check(f'section {title.group(1)} follows {at}', int(title.group(1)) == at + 1)
            at, last = int(title.group(1)), 0
            continue
        name = block.split('**')[1]
        check(f'rule {name} follows {at}.{last}', name == f'{at}.{last + 1}')
        check(f'rule {name} stands twice', name not in known)
        known.add(name)
        last += 1
        said = re.search(rf'— (host$|tests$|(?:`{WORD}`,? )+{PLACE})', line_of(block))
        check(f'rule {name} says where it is said', said, block)
    for name in re.findall(r'(?<![\d.*])(\d+\.\d+)(?!\.?\d|\*)', re.sub(r'`[^`]*`', '', text)):
        check(f'rule {name} is mentioned and not there', name in known)
    check('there are rules', len(known) > 50, len(known))


def cited(text):
    """Every definition and theorem stands in its file."""
    text = line_of(text)
    for names, crate, path in CITED.findall(text):
        specs, proofs = (ROOT / f'crates/{crate}/{part}/{path}.antt' for part in ('specs', 'proofs'))
        file = proofs if proofs in SPECS else specs
        check(f'{RULES}: {shown([file])} is not there', file in SPECS)
        for name in re.findall(rf'`({WORD})`', names):
            stands(RULES, name, [file] if file in SPECS else [])
    check('every file cited has its names in front', len(CITED.findall(text)) == len(re.findall(PLACE, text)))


def laid_out(text):
    """The fields of a layout adjoin, and those of the table lie where the definition of its layout has them."""
    source = read(defining('form_at')[0])
    at, width = (dict(re.findall(rf'^{name} \(?(\w+).*? = (.*)$', source, re.M)) for name in ('form_at', 'form_width'))
    fields = set()
    for head, *rows in tables(text):
        if head[:2] != ['Offset', 'Bytes']:
            continue
        for row, following in zip(rows, rows[1:]):
            check(f'{head[2]}: {following[2]} follows {row[2]}', number(row[0]) + number(row[1]) == number(following[0]))
        for row in rows:
            field = row[-1].strip('`')
            if row[-1] != f'`{field}`':
                continue
            fields.add(field)
            stands(RULES, field, defining('Field'))
            many = 64 if '(j - 1)' in at.get(field, '') else 1
            offset = re.findall(r'\d+', at.get(field, '-1')) or ['0']
            check(f'{head[2]}: offset of {row[2]}', number(row[0]) == int(offset[0]), at.get(field))
            check(f'{head[2]}: bytes of {row[2]}', number(row[1]) == many * int(width.get(field, -1)), width.get(field))
    check('every field of the table is laid out', fields == set(at) != set(), fields ^ set(at))


def in_header(text):
    """Limits, numbers given back, parties and tags are the header's, and none of the header's is missing."""
    header = {name: int(value) for name, value in re.findall(r'STEWLATTICE_(\w+) = (\d+)', read('include/stewlattice.h'))}
    stated = []
    for head, *rows in tables(text):
        for row in rows:
            for value, name in zip(row, row[1:]):
                if name.startswith('`STEWLATTICE_'):
                    stated.append((name.strip('`').removeprefix('STEWLATTICE_'), number(value)))
            if head[:2] in (['From', 'Tag'], ['To', 'Tag']):
                party, tag = (re.sub(r'^\d+ ', '', cell).upper().replace(' ', '_') for cell in row[:2])
                stated += [(party, number(row[0])), (f'{head[0].upper()}_{party}_{tag}', number(row[1]))]
    for name, value in stated:
        check(f'STEWLATTICE_{name} is {value} in {RULES}', header.get(name) == value, header.get(name))
    missing = {name for name in header if 'VERSION' not in name} - {name for name, value in stated}
    check(f'every constant of the header is in {RULES}', header and not missing, missing)


def example(text):
    """The worked example is the one that is run."""
    log = re.search(r'(?:^    [EA] .*\n)+', text, re.M).group().replace('    ', '')
    check('the log of the example', log == read('crates/desklog/stdout'), log)
    book = bytes.fromhex(re.search(r'The book is `([0-9a-f ]+)`', line_of(text)).group(1))
    check('the book of the example', book == (ROOT / 'crates/desklog/data/book.bin').read_bytes(), book)


# ---- docs/TRUST.md and README.md

def reading(text):
    """In the reading list, a name stands in a file of its own item."""
    items = [line_of(item) for item in re.split(r'\n(?=\d+\. )|\n\n', text) if '`crates/' in item]
    for item in items:
        files = files_in(TRUST, item)
        for name in names_in(item):
            if '::' in name:
                called(TRUST, name)
            else:
                stands(TRUST, name, files)
    check(f'{TRUST} has a reading list', len(items) > 20, len(items))


def theorems(text):
    """A theorem of a table stands where the line above the table says, or in the file named behind it."""
    rows = list(theorem_rows(TRUST, text))
    for names, files, meaning in rows:
        for name in names:
            stands(TRUST, name, files)
        for name in names_in(meaning):
            called(TRUST, name)
    check(f'{TRUST} has tables', len(rows) > 5, len(rows))


def promised(text):
    """The theorems among the promises are there; a program's name is a crate's."""
    names = [name for name in names_in(text) if not (ROOT / 'crates' / name).exists()]
    for name in names:
        stands(README, name, SPECS)
    check(f'{README} cites theorems', len(names) > 20, len(names))


# ---- the rule sheet's definitions

def shut():
    """Other crates name the rule sheet's definitions where these are passed on shut, and not where they could be opened."""
    files = [path for part in ('src', 'specs', 'proofs') for path in ROOT.glob(f'crates/*/{part}/**/*.*')]
    opened = [path for path in files if re.search(r'Rattle\.rules\.specs\.(Rule|Held)\b', read(path))]
    check('the crate rules opens its definitions', opened)
    others = [path for path in opened if path.relative_to(ROOT).parts[1] != 'rules']
    check('no other crate opens the definitions of rules', not others, shown(others))


for part in (numbered, cited, laid_out, in_header, example):
    part(read(RULES))
reading(section(read(TRUST), 'In reading order'))
for title in ('What is proved beyond the functions', 'Laws that the layers cite'):
    theorems(section(read(TRUST), title))
promised(section(read(README), 'What is promised'))
shut()
closing()
