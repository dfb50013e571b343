"""A copy of the reference with every edit of a list in it, built once; which of them is in force is chosen when it runs.

The body of a function in which edits stand becomes a match on the number in the environment variable EDIT: for each edit an arm
with the body as that edit leaves it, and a last arm with the body as it is. So an edit may be of an expression, a pattern or a
statement; only where a function's type is not written out, as in `-> impl Iterator`, the arms would differ in type. Assumes
rustfmt's layout, to which the reference is held: a function ends at the first closing brace in its column.
"""
import os
import pathlib
import re
import shutil
import subprocess

ROOT = pathlib.Path(__file__).resolve().parent.parent.parent
SOURCES = ROOT / 'reference/src'
FUNCTION = re.compile(r'( *)(pub(\(\w+\))? )?fn ')
CHOSEN = '''
/// The number of the edit that is in force; 0 is none.
fn chosen() -> usize {
    static NUMBER: std::sync::OnceLock<usize> = std::sync::OnceLock::new();
    *NUMBER.get_or_init(|| std::env::var("EDIT").map_or(0, |number| number.parse().expect("a number")))
}
'''


class Unfit(Exception):
    """An edit that shows nothing: it cannot be made, or the reference does not build with it, or a test fails otherwise."""


def body_around(lines, at):
    """The first line of the body in which a line stands, and the first line after it."""
    for first in range(at, -1, -1):
        if match := FUNCTION.match(lines[first]):
            start = next(n for n in range(first, len(lines)) if lines[n].endswith('{')) + 1
            end = lines.index(match[1] + '}', start)
            if start <= at < end:
                return start, end
            break
    raise Unfit('the text stands in no body of a function')


def place(edit):
    """The body in which the text stands that goes."""
    path = SOURCES / edit.file
    text = path.read_text() if path.is_file() else ''
    if text.count(edit.old) != 1:
        raise Unfit(f'the text stands {text.count(edit.old)} times in {edit.file}')
    return body_around(text.split('\n'), text[:text.index(edit.old)].count('\n'))


def woven(file, edits):
    """The text of a file with all these edits of it."""
    lines = (SOURCES / file).read_text().split('\n')
    bodies = {}
    for edit in edits:
        bodies.setdefault(place(edit), []).append(edit)
    for (start, end), here in sorted(bodies.items(), reverse=True):
        body = '\n'.join(lines[start:end])
        arms = [f'{edit.number} => {{\n{body.replace(edit.old, edit.new)}\n}}' for edit in here]
        lines[start:end] = ['match crate::chosen() {', *arms, f'_ => {{\n{body}\n}}', '}']
    return '\n'.join(lines) + (CHOSEN if file == 'lib.rs' else '')


class Tree:
    """A copy of the reference and of the tests over it. unfit has the edits that are not in it, each with the reason."""

    def __init__(self, folder, edits):
        self.folder, self.unfit = folder, {}
        for part in ('reference', 'tests/differential'):
            shutil.copytree(ROOT / part, folder / part, ignore=shutil.ignore_patterns('target'))
        for edit in edits:
            try:
                place(edit)
            except Unfit as why:
                self.unfit[edit] = str(why)
        if self.against(self.fit(edits), 'build', '--bins'):
            self.find_misfits(self.fit(edits))
            if said := self.against(self.fit(edits), 'build', '--bins'):
                raise SystemExit(f'the reference does not build, and no edit alone is the reason:\n{said}')

    def fit(self, edits):
        return [edit for edit in edits if edit not in self.unfit]

    def against(self, edits, *command):
        """What cargo says against these edits, all in one tree; nothing if it has nothing to say."""
        for path in SOURCES.rglob('*.rs'):
            file = str(path.relative_to(SOURCES))
            (self.folder / 'reference/src' / file).write_text(woven(file, [edit for edit in edits if edit.file == file]))
        env = {**os.environ, 'STEWLATTICE_ARCHIVE_DIR': str(ROOT / 'target/staticlib'), 'RUSTFLAGS': '-Awarnings'}
        done = subprocess.run(
            ['cargo', *command, '--offline', '--quiet', '--profile', 'mutant', '--target-dir', self.folder / 'built'],
            cwd=self.folder / 'tests/differential', env=env, capture_output=True, text=True, check=False)
        return done.stderr if done.returncode else ''

    def find_misfits(self, edits):
        """Halves the edits until each with which the reference does not build stands alone."""
        said = self.against(edits, 'check', '--package', 'reference')
        if said and len(edits) == 1:
            self.unfit[edits[0]] = f'it does not build: {said[-800:]}'
        elif said:
            self.find_misfits(edits[:len(edits) // 2])
            self.find_misfits(edits[len(edits) // 2:])

    def run(self, number, test, words):
        """Runs a test with an edit in force."""
        env = {**os.environ, 'RUST_BACKTRACE': '0', 'EDIT': str(number)}
        return subprocess.run([self.folder / 'built/mutant' / test, *words], capture_output=True, text=True, timeout=300,
                              check=False, env=env)
