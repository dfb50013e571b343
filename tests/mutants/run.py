#!/usr/bin/env python3
"""How good are the differential tests? The reference is made wrong in one place at a time, and the tests must notice.

usage: tests/mutants/run.py [--table]     target/staticlib/libkernel.a and the programs in target/bin are there

list.txt has the edits, and tree.py builds them all at once. Each is tried with calls of the library, then, where those agree, with
the suffix question, then with the desk log; an edit of the desk log's own file with that alone. --table prints the result as
docs/MUTANTS.md keeps it; otherwise the result is held against that file. The last line is 'N passed, M failed'; the exit status is
0 only if every edit was noticed, just as the file says.
"""
import collections
import concurrent.futures
import difflib
import pathlib
import re
import sys
import tempfile

from tree import ROOT, Tree, Unfit

LIST = ROOT / 'tests/mutants/list.txt'
KEPT = ROOT / 'docs/MUTANTS.md'
JOBS = 2
SEED = '1'
TRIES = {
    'calls': ['--seed', SEED, '--threads', '1', '--calls', '200000', '--as-found'],
    'hosts': [str(ROOT / 'target/bin/asksuffix'), SEED, '20000'],
    'recordings': [str(ROOT / 'target/bin/desklog'), SEED, '20', '--as-found'],
}
Edit = collections.namedtuple('Edit', 'number what file old new')


def edits():
    """The edits of the list, numbered from 1."""
    lines = [line for line in LIST.read_text().split('\n') if not line.startswith('#')]
    found = []
    while lines:
        what = lines.pop(0)
        if what:
            found.append(Edit(len(found) + 1, what, lines.pop(0), lines.pop(0), lines.pop(0)))
    return found


def noticed(tree, number, tests):
    """Which of the tests notices this edit, and after how many calls or in what words; None if none does."""
    for test in tests:
        done = tree.run(number, test, TRIES[test])
        if done.returncode == 0:
            continue
        if match := re.search(r'after (\d+) calls', done.stdout):
            return f'{test}: they differ after {match[1]}'
        if 'differs' in done.stdout:
            return f'{test}: they differ'
        if 'panicked' in done.stderr:
            return f'{test}: the reference falls over'
        raise Unfit(f'{test} failed otherwise: {done.stdout[-500:]} {done.stderr[-500:]}')
    return None


def tried(tree, edit):
    """What is wrong, how it was noticed or None, why not."""
    if edit in tree.unfit:
        return edit.what, None, tree.unfit[edit]
    try:
        return edit.what, noticed(tree, edit.number, ['recordings'] if edit.file == 'desklog.rs' else TRIES), 'no test notices'
    except Unfit as why:
        return edit.what, None, str(why)


def results():
    """What came of each edit, in the list's order."""
    with tempfile.TemporaryDirectory() as folder, concurrent.futures.ThreadPoolExecutor(JOBS) as pool:
        tree = Tree(pathlib.Path(folder), edits())
        as_it_is = pool.submit(noticed, tree, 0, TRIES)
        done = list(pool.map(lambda edit: tried(tree, edit), edits()))
        if seen := as_it_is.result():
            sys.exit(f'the reference as it is differs already: {seen}')
        return done


def table(done):
    lines = [
        '# Wrong readings that the differential tests notice\n',
        'Each line is one edit of the reference ([tests/mutants/list.txt](../tests/mutants/list.txt)); the right column is the',
        'test that notices it, and for calls after how many (seed 1, one thread). Printed by `make mutants`.\n',
        '| what is wrong in the reference | noticed by |',
        '|---|---|',
        *(f'| {what} | {seen or why} |' for what, seen, why in done),
        f'\n{sum(seen is not None for _, seen, _ in done)} of {len(done)} noticed.\n',
    ]
    return '\n'.join(lines)


def main():
    done = results()
    missed = [(what, why) for what, seen, why in done if seen is None]
    for what, why in missed:
        print(f'failed: {what}: {why}', file=sys.stderr)
    if '--table' in sys.argv[1:]:
        print(table(done), end='')
        return 1 if missed else 0
    wrong = len(missed)
    if table(done) != KEPT.read_text():
        wrong += 1
        print(f'failed: {KEPT.relative_to(ROOT)} says something else: print it again')
        print('\n'.join(difflib.unified_diff(KEPT.read_text().split('\n'), table(done).split('\n'), lineterm='', n=0)))
    print(f'{len(done) - len(missed)} passed, {wrong} failed')
    return 1 if wrong else 0


if __name__ == '__main__':
    sys.exit(main())
