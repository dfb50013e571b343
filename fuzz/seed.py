#!/usr/bin/env python3
"""Inputs to begin fuzzing from, in the form of fuzz/README.md: the cases of tests/vectors in pieces, a table changed in
each way that matters to its soundness, books that change, lengths that are lent.

usage: fuzz/seed.py FOLDER     writes a file for each input into the folder
"""
import pathlib
import struct
import sys

VECTORS = pathlib.Path(__file__).resolve().parent.parent / 'tests/vectors'
EVENT, START, BOOK, PATCH, LEND = range(5)
PIECE = 16  # events of a case in one input
LONG = 2048  # bytes of events that are not put into one input

# Places in the table.
SEAT_1, SEAT_3 = 0, 96
ROW_1, ROW_2, ROW_3 = 384, 456, 528
TRAILER = 6144

# After the worked example's first three events slot 1 of seat 1, separate, has a.com in process row 1, slot 1 of seat 2
# has it in row 2, and the last number is 2. Each of these lays bytes over that table; the first five leave it sound.
PATCHES = {
    'opens-65535': {SEAT_1 + 4: b'\xff\xff'},
    'unselected': {SEAT_1 + 2: b'\0'},
    'waits-for-both': {SEAT_1 + 11: b'\3'},
    'seat-let': {SEAT_3: b'\x63\1'},
    'name-of-64': {ROW_1 + 6: b'\x40\0a.' + b'b' * 62},
    'tenant': {SEAT_3: b'\x64'},
    'options': {SEAT_3: b'\1\2'},
    'selected': {SEAT_1 + 2: b'\x0b'},
    'selected-free': {SEAT_1 + 2: b'\2'},
    'seat-zero': {SEAT_1 + 3: b'\1'},
    'seat-not-let': {SEAT_3 + 5: b'\1'},
    'map-more': {SEAT_1 + 7: b'\3'},
    'map-less': {SEAT_1 + 7: b'\0'},
    'map-bit-10': {SEAT_1 + 6: b'\4'},
    'waiting': {SEAT_1 + 11: b'\4'},
    'no-serial': {SEAT_1 + 9: b'\0'},
    'serial-over-opens': {SEAT_1 + 9: b'\2'},
    'serial-twice': {SEAT_1 + 6: b'\0\3\0\1\1\1\0\1\1\0', ROW_1 + 5: b'\2'},
    'on-row-0': {SEAT_1 + 10: b'\0'},
    'on-row-81': {SEAT_1 + 10: b'\x51'},
    'on-free-row': {SEAT_1 + 10: b'\3'},
    'on-another': {SEAT_1 + 10: b'\2'},
    'free-tab': {SEAT_1 + 15: b'\1'},
    'free-process': {ROW_3 + 71: b'\1'},
    'process-zero': {ROW_1 + 7: b'\1'},
    'count-more': {ROW_1 + 5: b'\2'},
    'count-less': {ROW_1 + 5: b'\0'},
    'no-tab': {SEAT_1 + 4: b'\0\2', ROW_3: b'\0\0\0\3\7\0\3\0i.d', TRAILER + 7: b'\3'},
    'number-over-last': {ROW_1 + 3: b'\3'},
    'number-twice': {ROW_2 + 3: b'\1'},
    'owner': {ROW_1 + 4: b'\x66'},
    'last-over-opens': {TRAILER + 7: b'\3'},
    'seats-offset': {TRAILER + 1: b'\1'},
    'processes-offset': {TRAILER + 3: b'\x81'},
    'capital': {ROW_1 + 8: b'A'},
    'hyphen': {ROW_1 + 8: b'-'},
    'hyphen-dot': {ROW_1 + 8: b'a-.co'},
    'no-dot': {ROW_1 + 9: b'x'},
    'address': {ROW_1 + 10: b'123'},
    'name-of-0': {ROW_1 + 6: bytes(7)},
    'name-of-2': {ROW_1 + 6: b'\2\0a.\0\0\0'},
    'name-of-65': {ROW_1 + 6: b'\x41\0a.' + b'b' * 62},
    'fill': {ROW_1 + 71: b'\1'},
    'name-twice': {SEAT_1 + 4: b'\0\2\0\3\0\1\1\0\0\2\3\0', ROW_3: b'\0\0\0\3\x65\1\5\0a.com', TRAILER + 7: b'\3'},
}

# Names and what is nearly one; listed names and orders, a few of them sound.
HOSTS = [b'', b'a..com', b'-a.com', b'a-.com', b'.a.com', b'a.com.', b'a.com-', b'A.COM', b'www.a.com', b'ba.com',
         b'com', b'w_w.a.com', b'1.2.3.4', b'w.a.1com', b'w' * 63 + b'.a.com', b'w' * 64 + b'.a.com',
         b'w.' * 124 + b'a.com', b'ww.' + b'w.' * 123 + b'a.com']
LISTED = [[], [b'org', b'uk'], [b'co.uk', b'com', b'uk'], [b'com', b'com'], [b'com', b'co'], [b'com', b'a.com'],
          [b'c-.m'], [b'-c'], [b'c-'], [b'c..m'], [b'Com'], [b'12'], [b''], [b'c_m'], [b'c' * 62], [b'c' * 63]]
ORDERS = [b'', b'\1\7\0', b'\1\x63\1', bytes(byte for seat in range(1, 9) for byte in (seat, 7, seat % 2)), b'\0\7\0',
          b'\x09\7\0', b'\2\7\0\1\7\0', b'\1\7\0\1\7\0', b'\1\0\0', b'\1\x64\0', b'\1\7\2']


def record(kind, data):
    return struct.pack('>BH', kind, len(data)) + data


def event(party, number, tag, payload):
    return record(EVENT, struct.pack('>BIBI', party, number, tag, len(payload)) + payload)


def book_of(orders, names):
    listed = b''.join(bytes([len(name)]) + name for name in names)
    return orders + listed + struct.pack('>HBBHH', 0, len(orders) // 3, 0, len(orders), len(names))


def frames(stream):
    """The events of a stream, as the desk log reads them."""
    while stream:
        size = int.from_bytes(stream[6:10], 'big') if len(stream) >= 10 else len(stream)
        yield stream[:10 + size] if size <= 4096 else stream[:10]
        stream = stream[10 + size:] if size <= 4096 else b''


def pieces(events):
    """Where each piece begins, and its events."""
    for at in range(0, max(1, len(events)), PIECE):
        piece = events[at:at + PIECE]
        if sum(map(len, piece)) <= LONG:
            yield at, piece
        else:
            yield from ((at + i, [frame]) for i, frame in enumerate(piece))


def shapes(frame):
    """Whether it opens, selects or closes a tab."""
    key, opens = (frame[:1] + frame[5:6] == kind for kind in (b'\1\1', b'\1\3'))
    return opens and len(frame) <= 74 or key and 14 <= frame[-1] <= 25


def vectors():
    """Each case in pieces, after those events before the piece that shape the table."""
    for path in sorted(VECTORS.glob('*.book')):
        events = list(frames(path.with_suffix('.events').read_bytes()))
        for at, piece in pieces(events):
            played = [*filter(shapes, events[:at]), *piece]
            yield f'{path.stem}-{at}', record(START, path.read_bytes()) + b''.join(record(EVENT, e) for e in played)


def begun():
    """The worked example up to its third event."""
    book, events = ((VECTORS / f'worked-example.{kind}').read_bytes() for kind in ('book', 'events'))
    return record(START, book) + b''.join(record(EVENT, frame) for frame in list(frames(events))[:3])


def patches():
    after = [(1, 1, 3, b'b.com'), (3, 1, 1, b'\0\1\0\1k=v'), (4, 0, 1, b'\0\1\0\1x'), (1, 1, 1, b'\x19')]
    for name, places in PATCHES.items():
        laid = b''.join(record(PATCH, struct.pack('>H', place) + data) for place, data in places.items())
        yield f'patch-{name}', begun() + laid + b''.join(event(*fields) for fields in after)


def books():
    """Books that are lent to opens, and to a start."""
    book = book_of(ORDERS[1], [b'com'])
    changed = (book[:i] + bytes([book[i] ^ 1]) + book[i + 1:] for i in range(len(book)))
    others = [*(book_of(b'\1\7\1\2\7\0', names) for names in LISTED),
              *(book_of(orders, [b'com']) for orders in ORDERS), *changed, b'', book[:7], b'\0' + book]
    opens = event(1, 1, 3, b'b.com') + event(1, 2, 3, b'B.Org') + event(1, 2, 1, b'k')
    for i, other in enumerate(others):
        yield f'book-{i}', begun() + record(BOOK, other) + opens + record(START, other) + opens


def hosts():
    """Each of the names where an event has one; a result follows, so that the next retrieve is not denied."""
    tab = 131073
    for name, make in {
        'open': lambda host: event(1, 2, 3, host),
        'socket': lambda host: event(2, tab, 2, b'\0\x50' + host),
        'store': lambda host: event(2, tab, 4, bytes([len(host)]) + host + b'k=v'),
        'retrieve': lambda host: event(2, tab, 5, host) + event(3, 2, 1, tab.to_bytes(4, 'big') + host),
    }.items():
        yield f'host-{name}', begun() + b''.join(map(make, HOSTS))


def lengths():
    for table, room in (6151, 4106), (6152, 4105), (6153, 4106), (0, 0), (0, 4106), (6152, 4107), (6152, 65535):
        lend = record(LEND, struct.pack('>HH', table, room))
        yield f'lend-{table}-{room}', begun() + lend + event(1, 1, 1, b'k') + lend + record(START, book_of(b'', []))


if __name__ == '__main__':
    if len(sys.argv) != 2:
        sys.exit(__doc__.strip())
    for source in vectors, patches, books, hosts, lengths:
        for name, data in source():
            (pathlib.Path(sys.argv[1]) / name).write_bytes(data)
