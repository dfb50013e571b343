#!/usr/bin/env python3
"""What the desk log program costs, beside the kernel alone on the same recording, as Markdown.

usage: bench/log.py [PROGRAM ARCHIVE]     target/bin/desklog and target/staticlib/libkernel.a unless named
"""
import pathlib
import resource
import subprocess
import sys
import tempfile

sys.dont_write_bytecode = True
from markdown import table

ROOT = pathlib.Path(__file__).resolve().parent.parent
PROGRAM = ROOT / 'target/bin/desklog' if len(sys.argv) < 3 else pathlib.Path(sys.argv[1]).resolve()
ARCHIVE = ROOT / 'target/staticlib/libkernel.a' if len(sys.argv) < 3 else pathlib.Path(sys.argv[2]).resolve()
BOOK = (ROOT / 'tests/vectors/boundary-owners.book').read_bytes()
RUNS = 5

ABOUT = '''## The desk log program

The program beside the kernel alone on the same recording: keys, one tab's, small; traffic, the keys, mouse, pages and
cookies of eight seats with a tab each; stores, cookies of 4,000 bytes. The program reads a file and writes its log to
/dev/null; the kernel is lent each event in memory by a C program, which writes nothing. Neither waits: times are of the
processor, the best of five runs each.
'''
HEADER = ['recording', 'events', 'MB in', 'MB out', 'events/s', 'MB/s in', 'ns/event', 'kernel ns', 'program/kernel']


def frame(party, who, tag, payload):
    return bytes([party]) + who.to_bytes(4, 'big') + bytes([tag]) + len(payload).to_bytes(4, 'big') + payload


def opened():
    """Eight seats, each of which opens a tab."""
    return b''.join(frame(1, seat, 3, b'a%d.com' % seat) for seat in range(1, 9))


def keys(size):
    return frame(1, 1, 1, b'a') * (size // 11)


def traffic(size):
    turn = b''
    for seat in range(1, 9):
        tab = 65536 * seat + 1
        turn += frame(1, seat, 1, b'a') + frame(1, seat, 2, bytes(4))
        turn += frame(2, tab, 3, b'http://a%d.com/' % seat + b'a' * 60)
        turn += frame(4, 0, 1, tab.to_bytes(4, 'big') + b'<p>' * 100) + frame(2, tab, 5, b'a%d.com' % seat)
        turn += frame(2, tab, 1, bytes(12))
    return turn * (size // len(turn))


def stores(size):
    one = frame(2, 65537, 4, b'\6a1.com' + (bytes(range(256)) * 16)[:4000])
    return one * (size // len(one))


def run_program(work, stdout):
    with open(work / 'events', 'rb') as stdin:
        return subprocess.run([PROGRAM], cwd=work, stdin=stdin, stdout=stdout, check=True).stdout


def children_time():
    """The processor time of all programs run so far."""
    usage = resource.getrusage(resource.RUSAGE_CHILDREN)
    return usage.ru_utime + usage.ru_stime


def time_program(work):
    """The seconds of the fastest run."""
    spent = []
    for _ in range(RUNS):
        before = children_time()
        run_program(work, subprocess.DEVNULL)
        spent.append(children_time() - before)
    return min(spent)


def time_kernel(work):
    """How many events there are, and the seconds of the kernel's fastest run."""
    said = subprocess.run([work / 'feed', work / 'book.bin', work / 'events'], capture_output=True, check=True).stdout
    events, nanoseconds = said.split()
    return int(events), float(nanoseconds) / 1e9


def measured(work, name, events):
    (work / 'book.bin').write_bytes(BOOK)
    (work / 'events').write_bytes(events)
    program = time_program(work)
    log = len(run_program(work, subprocess.PIPE))
    count, kernel = time_kernel(work)
    return [name, f'{count:,}', f'{len(events) / 1e6:.1f}', f'{log / 1e6:.1f}', f'{count / program:,.0f}',
            f'{len(events) / program / 1e6:,.1f}', f'{program / count * 1e9:,.0f}', f'{kernel / count * 1e9:,.0f}',
            f'{program / kernel:.2f}']


with tempfile.TemporaryDirectory() as folder:
    work = pathlib.Path(folder)
    subprocess.run(['gcc', '-std=c11', '-O2', '-Wall', '-Wextra', '-Wpedantic', '-Werror', '-I', ROOT / 'include',
                    ROOT / 'bench/feed.c', ARCHIVE, '-o', work / 'feed'], check=True)
    rows = [measured(work, 'keys', opened() + keys(20000000)),
            measured(work, 'traffic', opened() + traffic(40000000)),
            measured(work, 'stores', opened() + stores(100000000))]
    print(f'\n{ABOUT}')
    table(HEADER, rows)
