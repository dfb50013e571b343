#!/usr/bin/env python3
"""The program that answers hosts, run on what it is meant for: known answers, cut ends, odd pipes, bad days.

usage: tests/asksuffix.py [PROGRAM]     the program is target/bin/asksuffix unless named

The last line is 'N passed, M failed'; the exit status is 0 only if nothing failed.
"""
import errno
import re
import subprocess
import sys

sys.dont_write_bytecode = True
from checks import check, closed, closing, failing, prompt, steady, unread, usage
from desk import Desk, shim as built


def book(*names):
    """An order book without orders."""
    listed = b''.join(bytes([len(name)]) + name for name in names)
    return listed + bytes(6) + len(names).to_bytes(2, 'big')


def host(name):
    return len(name).to_bytes(2, 'big') + name


def cut(rest, hosts):
    """What is said of a host that is cut short: the bytes of it that came, after so many whole ones."""
    size, came = rest[:2], len(rest) - 2
    seen = f'its first two bytes, hex {size.hex()}, ask for {int.from_bytes(size, "big")} more; {came} came'
    return f"""asksuffix: the stream ends within a host, after {hosts} that were whole
asksuffix: {seen if came >= 0 else 'it has one byte, and its length takes two'}
asksuffix: a host is no line of text: 2 bytes, big-endian, say how many
asksuffix: bytes follow, as in printf '\\0\\11www.a.com' | asksuffix
""".encode()


def line(part):
    return b'0 ' + part.hex().encode() + b'\n' if part else b'7 -\n'


def long_name(size):
    return b'.'.join([b'a' * 63] * 3 + [b'a' * (size - 197), b'b.uk'])


BOOK = book(b'co.uk', b'com', b'uk')
# a host, and the part of it that is its suffix under BOOK
KNOWN = [
    (b'www.b.co.uk', b'b.co.uk'), (b'co.uk', b''), (b'b.uk', b'b.uk'), (b'a.org', b''),
    (b'WWW.B.Co.UK', b'B.Co.UK'), (b'uk', b''), (b'.uk', b''), (b'www.a.com', b'a.com'), (b'a.xco.uk', b'xco.uk'),
    (b'', b''), (b'a..com', b''), (b'-a.com', b''), (b'a.com.', b''), (b'10.0.0.1', b''), (b'a b.com', b''),
    (b'www.' + b'x' * 61 + b'.uk', b'x' * 61 + b'.uk'), (b'www.' + b'x' * 62 + b'.uk', b''),
    (b'w' * 63 + b'.b.uk', b'b.uk'), (b'w' * 64 + b'.b.uk', b''), (long_name(253), b'b.uk'), (long_name(254), b''),
    (b'\0\xff', b''), (b'b.uk' * 64, b''), (b'.' * 65535, b''),
]
STREAM = b''.join(host(name) for name, _ in KNOWN)
ANSWERS = b''.join(line(part) for _, part in KNOWN)


def known(shim):
    """Each host alone, and all of them through pipes of odd sizes, with reads and writes that move less than asked."""
    desk = Desk(BOOK)
    for name, part in KNOWN:
        out, err, status = desk.log(host(name))
        check(f'{name[:80]} of {len(name)} bytes', (out, err, status) == (line(part), b'', 0), (out, err))
    for size in (1, 7, 4095, 65536, 65537, 131072):
        said = desk.piped(STREAM, size)
        check(f'in pieces of {size}', said == (ANSWERS, b'', 0), said)
    for limits in ({'READ_MOST': '1', 'WRITE_MOST': '3'}, {'READ_MOST': '65537', 'WRITE_MOST': '130'}):
        said = desk.log(STREAM * 2, env={'LD_PRELOAD': shim, **limits})
        check(f'{limits}', said == (ANSWERS * 2, b'', 0), said)
    check('no hosts', desk.log(b'') == (b'', b'', 0))


def cut_ends():
    """A stream that ends anywhere: the hosts before are answered, and standard error tells of one that is cut short."""
    desk, some = Desk(BOOK), KNOWN[:12]
    stream, answers, ends = b'', {0: b''}, [0]
    for name, part in some:
        stream += host(name)
        answers[len(stream)] = answers[ends[-1]] + line(part)
        ends.append(len(stream))
    for length in range(len(stream) + 1):
        whole = max(end for end in ends if end <= length)
        said = desk.log(stream[:length])
        told = cut(stream[whole:length], ends.index(whole)) if whole < length else b''
        check(f'cut at {length}', said == (answers[whole], told, 0), said)
    longest = host(b'.' * 65535)[:-1]
    said = desk.log(host(b'b.uk') + longest)
    check('the longest host cut short by a byte', said == (line(b'b.uk'), cut(longest, 1), 0), said)


def typed():
    """Whoever types a name as a line is told what is wanted instead, with a command that makes it; so does --help."""
    desk = Desk(BOOK)
    out, err, status = desk.log(b'www.a.com\n')
    check('a line of text', (out, err, status) == (b'', cut(b'www.a.com\n', 0), 0), (out, err))
    for what, said in (('the hint', err), ('--help', desk.log(None, '--help')[0])):
        command = re.search(rb"printf '[^']*'", said)
        check(f'{what} has a command', command, said)
        made = subprocess.run(['sh', '-c', command[0]], stdout=subprocess.PIPE, check=True).stdout if command else b''
        said = desk.log(made)
        check(f'the command of {what}', said == (line(b'a.com'), b'', 0), (made, said))


def books():
    """Under an unsound book every host is answered 6, and standard error says why."""
    cases = {'missing': None, 'empty': b'', 'short': BOOK[:-1], 'longer': BOOK + b'\0', 'too long': BOOK + bytes(32769),
             'out of order': book(b'uk', b'com'), 'a byte more than a book has': bytes(32769)}
    for what, content in cases.items():
        out, err, status = Desk(content).log(STREAM)
        why = err.startswith(b'asksuffix: ') and 1 <= err.count(b'\n') <= 2 and err.endswith(b'\n')
        check(f'book {what}', out == b'6 -\n' * len(KNOWN) and status == 0 and why, (out, err))
    folder = Desk(None)
    (folder.folder / 'book.bin').mkdir()
    out, err, status = folder.log(host(b'b.uk'))
    check('book that is a directory', out == b'6 -\n' and status == 0 and err.startswith(b'asksuffix: '), (out, err))
    names = [b'%04d' % n + b'n' * 58 for n in range(520)]
    full, last = book(*names), b'.' + names[-1]
    said = Desk(full).log(host(b'a.b' + last) + host(b'a.bb' + last) + host(b'b.' + names[0]))
    check('a book is full', len(full) == 32768)
    check('book that is full', said == (line(b'b' + last) + line(b'') + line(b'b.' + names[0]), b'', 0), said)


def ends(shim):
    """A read that fails ends the stream as its end would, and is told."""
    desk, first = Desk(BOOK), line(b'b.co.uk')
    for came, out, told in ((13, first, b''), (14, first, cut(STREAM[13:14], 1)), (5, b'', cut(STREAM[:5], 0))):
        said = desk.log(STREAM, env={'LD_PRELOAD': shim, 'READ_FAILS': str(came)})
        check(f'a read that fails after {came} bytes', said == (out, unread(errno.EIO) + told, 0), said)


shim = built()
known(shim)
cut_ends()
books()
ends(shim)
prompt(BOOK, [(host(name), line(part)) for name, part in KNOWN])
closed(BOOK, host(b'b.uk'))
failing(BOOK, host(b'b.uk'))
typed()
usage()
longest = line(b'b.uk') + line(b'')
steady(BOOK, (b'', b''), host(long_name(253)) + host(b'.' * 65535), lambda n: longest, 100)
closing()
