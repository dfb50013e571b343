#!/usr/bin/env python3
"""The tables of what bench.c timed and counted, in Markdown.

usage: bench/tables.py FOLDER

The folder has the files times-PLACEMENT-RUN, each with what a run of `bench time` printed, and the file counts, with a
line 'MEASURE KERNEL INSTRUCTIONS' for each measure and kernel. The programs of two placements differ only in where the
linker has put the code.
"""
import collections
import pathlib
import statistics
import sys

sys.dont_write_bytecode = True
from markdown import table

KERNELS = ('kernel', 'plain', 'reference')

KINDS = '''## Each kind of step

Two tabs on each seat: 16 live tabs, 14 processes; 100 listed names. An open starts a process or joins a live one; no
other step reads the book. The store and the document have payloads of 4,096 bytes.
'''
TABS = '''## Growth with live tabs

None, one, two, five or ten tabs on each of the eight seats; 100 listed names. A pair is its two steps together; with
ten tabs on the seat its close comes first. A key without a tab goes nowhere. Every step tests the whole table, and
there holds each live process against those in lower rows: the more there are, the more one adds. The last column is the
kernel's: what each live tab more adds, from the row above to this one.
'''
NAMES = '''## Growth of an open with the listed names

Two tabs on each seat, and an open that starts a process, alone. It tests the whole book, and then looks for the longest
listed name that fits. The listed names are net, org and others of 9 bytes. The last column is the kernel's: what each
listed name more adds, from the row above to this one.
'''
STEADY = '''## How steady the numbers are

From one `make bench` to the next, three of them on a busy machine, the times above moved by up to 7 % and their ratios
by up to 3 %; the instructions were the same. The reference's instructions depend a little on what its heap went through
before, as the same step in two tables shows.

What is behind a time moves more. By how much the largest exceeds the smallest in this run, between the three runs of a
program and between the four programs:
'''

Measure = collections.namedtuple('Measure', 'part work tabs processes names times counts')


def read_times(folder):
    """What each measure is, and its times: for each placement a list of runs, for each run a list of the kernels'."""
    labels, times = {}, collections.defaultdict(lambda: collections.defaultdict(list))
    for path in sorted(folder.glob('times-*')):
        placement = path.name.split('-')[1]
        for line in path.read_text().splitlines():
            number, part, work, tabs, processes, names, *spent = line.split('\t')
            labels[number] = part, work, int(tabs), int(processes), int(names)
            times[number][placement].append([float(time) for time in spent])
    return labels, {number: list(placements.values()) for number, placements in times.items()}


def read_counts(folder):
    counts = collections.defaultdict(dict)
    for line in (folder / 'counts').read_text().splitlines():
        number, kernel, instructions = line.split()
        counts[number][kernel] = float(instructions)
    return {number: [count[kernel] for kernel in KERNELS] for number, count in counts.items()}


def best(runs):
    """For each kernel the fastest of some runs."""
    return [min(times) for times in zip(*runs)]


def mean(placements):
    """For each kernel the mean over the placements, each at its best."""
    return [statistics.mean(times) for times in zip(*map(best, placements))]


def ratios(values):
    kernel, plain, reference = values
    return [kernel / plain, kernel / reference]


def apart(groups, seen):
    """How far apart, for each kernel or ratio, the lists of a group lie."""
    moves = [100 * (max(values) / min(values) - 1) for group in groups for values in zip(*map(seen, group))]
    return f'{max(moves):.0f} % at most, half of them up to {statistics.median(moves):.1f} %'


def show_moves(times):
    again = [runs for placements in times.values() for runs in placements]
    elsewhere = [[best(runs) for runs in placements] for placements in times.values()]
    rows = [[what, apart(again, seen), apart(elsewhere, seen)] for what, seen in (('times', list), ('ratios', ratios))]
    table(['', 'the same program run again', 'the code placed elsewhere'], rows, texts=3)


def rows_of(measures, values, label, amount):
    above = None
    for measure in measures:
        numbers = values(measure)
        row = label(measure) + [f'{number:,.0f}' for number in numbers] + [f'{ratio:.2f}' for ratio in ratios(numbers)]
        if amount:
            grown = above and above.work == measure.work
            row.append(f'{(numbers[0] - values(above)[0]) / (amount(measure) - amount(above)):,.1f}' if grown else '')
        above = measure
        yield row


def show(measures, header, label, amount=None):
    """A table of times and one of instructions. The header has the labels, then what one more of the amount adds."""
    labels = len(label(measures[0]))
    header = [*header[:labels], *KERNELS, 'kernel/plain', 'kernel/reference', *header[labels:]]
    for unit, values in (('Nanoseconds', lambda m: m.times), ('Instructions', lambda m: m.counts)):
        print(f'{unit}:\n')
        table(header, list(rows_of(measures, values, label, amount)), texts=header.count('step'))
        print()


def main():
    folder = pathlib.Path(sys.argv[1])
    labels, times = read_times(folder)
    counts = read_counts(folder)
    measures = [Measure(*label, mean(times[number]), counts[number]) for number, label in labels.items()]
    for measure in measures:
        if min(measure.times + measure.counts) <= 0:
            sys.exit(f'bench: no measure of {measure}')
    parts = {part: [measure for measure in measures if measure.part == part] for part in ('kinds', 'tabs', 'names')}
    print(KINDS)
    show(parts['kinds'], ['step'], lambda m: [m.work])
    print(TABS)
    show(parts['tabs'], ['step', 'live tabs', 'processes', 'per tab'],
         lambda m: [m.work, str(m.tabs), str(m.processes)], lambda m: m.tabs)
    print(NAMES)
    show(parts['names'], ['listed names', 'per name'], lambda m: [f'{m.names:,}'], lambda m: m.names)
    print(STEADY)
    show_moves(times)


main()
