#!/usr/bin/env python3
"""The desk log program, run on what it is meant for: recordings with known logs, cut ends, odd pipes, bad days.

usage: tests/desklog.py [PROGRAM]     the program is target/bin/desklog unless named

The cases of tests/vectors are a book, events and the log expected of them. The last line is 'N passed, M failed'; the exit
status is 0 only if nothing failed.
"""
import errno
import pathlib
import sys

sys.dont_write_bytecode = True
from checks import check, closed, closing, failing, prompt, steady, unread, unwritten, usage
from desk import VECTORS, WORK, Desk, by_event, frame, frames, read, shim as built, temporary

WORKED = 'worked-example'


def vectors(shim):
    """Every case, from a file's bytes, through pipes of odd sizes, and with reads and writes that move less than asked."""
    names = sorted(path.stem for path in VECTORS.glob('*.book'))
    check('there are cases', len(names) >= 32, names)
    for name in names:
        desk, events, log = Desk(read(name, 'book')), read(name, 'events'), read(name, 'log')
        refused = log.startswith(b'S')
        for size in (7, 4095, 4107, 65537):
            out, err, status = desk.piped(events, size) if not refused else desk.log(b'')
            check(f'{name}, in pieces of {size}', out == log and status == 0 and (err != b'') == refused, err or out)
        for limits in ({'READ_MOST': '1', 'WRITE_MOST': '3'}, {'READ_MOST': '4105', 'WRITE_MOST': '4097'}):
            out, err, status = desk.log(events, env={'LD_PRELOAD': shim, **limits})
            check(f'{name}, {limits}', out == log and status == 0, err or out)


def cut_ends():
    """A stream that ends anywhere: what is whole is logged, and what is cut is one last event, refused as malformed."""
    desk, events = Desk(read(WORKED, 'book')), read(WORKED, 'events')
    ends, lines = frames(events), by_event(read(WORKED, 'log'))
    for length in range(len(events) + 1):
        whole = sum(end <= length for end in ends)
        cut = length not in (0, *ends)
        log = b''.join(lines[:whole]) + (b'E %d 3 0\n' % (whole + 1) if cut else b'')
        out, err, _ = desk.log(events[:length])
        check(f'cut at {length}', out == log and err == b'', out)
    for more in (b'', bytes(4097), events):
        out, err, _ = desk.log(events + frame(1, 1, 2, b'')[:6] + (4097).to_bytes(4, 'big') + more)
        check(f'a head too large, and {len(more)} bytes', out == read(WORKED, 'log') + b'E 7 3 0\n' and err == b'', out)


def books():
    """A start that is refused: `S 6` on standard output, why on standard error."""
    sound = read(WORKED, 'book')
    cases = {'missing': None, 'empty': b'', 'short': sound[:-1], 'longer': sound + b'\0', 'too long': sound + bytes(32769),
             'zeros': bytes(32768), 'a byte more than a book has': bytes(32769)}
    for what, book in cases.items():
        out, err, status = Desk(book).log(b'')
        said = err.decode()
        short = said.startswith('desklog: ') and said.count('\n') <= 2
        check(f'book {what}', out == b'S 6\n' and status == 0 and short, (out, err))
    folder = Desk(None)
    (folder.folder / 'book.bin').mkdir()
    out, err, status = folder.log(b'')
    check('book that is a directory', out == b'S 6\n' and status == 0 and err.startswith(b'desklog: '), (out, err))


def ends(shim):
    """A read that fails ends the stream as its end would, and is told."""
    desk, events, log = Desk(read(WORKED, 'book')), read(WORKED, 'events'), read(WORKED, 'log')
    for came in frames(events):
        want = b''.join(by_event(log)[:frames(events).index(came) + 1])
        out, err, status = desk.log(events, env={'LD_PRELOAD': shim, 'READ_FAILS': str(came)})
        check(f'a read that fails after {came} bytes', (out, err, status) == (want, unread(errno.EIO), 0), (out, err))
    out, err, _ = desk.log(events, env={'LD_PRELOAD': shim, 'READ_FAILS': '5'})
    check('a read that fails in a head', out == b'E 1 3 0\n' and err == unread(errno.EIO), (out, err))
    with open('/dev/full', 'wb') as full:
        _, err, status = Desk(b'').log(b'', stdout=full)
    why = b'desklog: the start is refused: an empty order book is unsound\n'
    check('a refusal that cannot be written', err == unwritten(errno.ENOSPC) + why and status == 0, err)


def calls(shim):
    """The log is written by far fewer calls than it has lines."""
    desk, calls = Desk(read(WORKED, 'book')), pathlib.Path(WORK) / 'calls'
    many = frame(1, 1, 2, b'\1' * 4) * 60000
    out, _, _ = desk.log(b'', stdin=temporary(many), env={'LD_PRELOAD': shim, 'CALLS': str(calls)})
    reads, writes = map(int, calls.read_text().split())
    check('60,000 events are logged', out.count(b'\n') == 60000)
    check('by less than a call for 50 of them', reads + writes < 1200, (reads, writes))


def long_stream(book, opening):
    """Stores of 4,096 bytes behind an open, which is given with its lines."""
    cookie = b'\5a.com' + (bytes(range(256)) * 16)[:4090]
    line = b'A 3 1 1 4096 ' + cookie.hex().encode() + b'\n'
    steady(book, opening, frame(2, 65537, 4, cookie), lambda n: b'E %d 0 1\n' % (n + 2) + line, 100)


shim = built()
vectors(shim)
cut_ends()
books()
ends(shim)
worked = read(WORKED, 'book')
events, ends_at = read(WORKED, 'events'), [0, *frames(read(WORKED, 'events'))]
pieces = [events[at:end] for at, end in zip(ends_at, ends_at[1:])]
prompt(worked, list(zip(pieces, by_event(read(WORKED, 'log')))))
closed(worked, frame(1, 1, 2, b'\1' * 4))
failing(worked, frame(1, 1, 2, b'\1' * 4))
calls(shim)
usage()
long_stream(worked, (pieces[0], by_event(read(WORKED, 'log'))[0]))
closing()
