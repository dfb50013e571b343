"""Checks that are counted, and those that every program of a book and a stream is held to: whoever feeds it gets each answer at
once, an output that is closed early ends it, what cannot be read or written is told, memory does not grow, and it explains
itself."""
import errno
import os
import select
import signal
import sys
import threading

from desk import HERE, NAME, Desk, memory, temporary, write

passed = failed = 0


def check(what, right, said=''):
    global passed, failed
    if right:
        passed += 1
        return
    failed += 1
    print(f'failed: {what}')
    if said:
        print(str(said)[:2000])


def closing():
    """Prints the last line, and ends."""
    print(f'{passed} passed, {failed} failed')
    sys.exit(failed > 0 or passed == 0)


def prompt(book, pieces):
    """Whoever types a piece of the stream sees its lines before the next is typed; pieces are (bytes, lines)."""
    run = Desk(book).start()
    for number, (piece, lines) in enumerate(pieces, 1):
        write(run, piece)
        said, more = b'', b'-'
        while more and len(said) < len(lines) and select.select([run.stdout], [], [], 10)[0]:
            more = os.read(run.stdout.fileno(), len(lines) - len(said))
            said += more
        check(f'the lines of piece {number}, at once', said == lines, said)
    run.stdin.close()
    check('nothing after the last piece', run.stdout.read() == b'' and run.wait() == 0)


def unread(error):
    """What is said of a read of standard input that failed."""
    return f'{NAME}: standard input cannot be read: {os.strerror(error)}\n'.encode()


def unwritten(error):
    """What is said of a write to standard output that failed."""
    return f'{NAME}: standard output cannot be written: {os.strerror(error)}\n'.encode()


def closed(book, piece):
    """Where standard output is closed early the program ends, and says so in a line, whatever the signal does where it is started."""
    for what, action in (('the signal as it is', signal.SIG_DFL), ('the signal ignored', signal.SIG_IGN)):
        many = temporary(piece * 200000)
        run = Desk(book).start(preexec_fn=lambda: signal.signal(signal.SIGPIPE, action), stdin=many)
        run.stdout.read(10)
        run.stdout.close()
        said = run.stderr.read(), run.wait(20)
        check(f'standard output closed early, {what}', said == (unwritten(errno.EPIPE), 0), said)


def failing(book, piece):
    """A standard output that takes nothing is told, once, also where the program only explains itself; and so is a standard
    input that cannot be read."""
    desk = Desk(book)
    for args in ((), ('--help',), ('--version',)):
        with open('/dev/full', 'wb') as full:
            said = desk.log(piece * 3, *args, stdout=full)
        check(f'standard output full, {args}', said == (None, unwritten(errno.ENOSPC), 0), said)
        said = desk.log(piece * 3, *args, preexec_fn=lambda: os.close(1))
        check(f'no standard output, {args}', said == (b'', unwritten(errno.EBADF), 0), said)
    said = desk.log(None, stdin=os.open('/', os.O_RDONLY))
    check('standard input is a directory', said == (b'', unread(errno.EISDIR), 0), said)
    said = desk.log(None, stdin=None, preexec_fn=lambda: os.close(0))
    check('no standard input', said == (b'', unread(errno.EBADF), 0), said)


def usage():
    """--help and --version are answered on standard output, and any other argument, or more of them, in a line on standard
    error."""
    desk = Desk(None)
    out, err, status = desk.log(None, '--help')
    check('--help', status == 0 and err == b'' and 8 < out.count(b'\n') <= 24 and b'book.bin' in out, out)
    check('--help fits a screen', max(map(len, out.split(b'\n'))) <= 88, out)
    said = desk.log(None, '--version')
    version = (HERE.parent / 'VERSION').read_text().strip()
    check('--version', said == (f'{NAME} {version}\n'.encode(), b'', 0), said)
    for args in (['-h'], ['--HELP'], ['--Help'], ['--helpless'], ['--hel'], ['--VERSION'], ['--version='], ['book.bin'], [''],
                 ['-' * 17], ['--help', '--help'], ['--help', ''], ['--version', 'x'], ['x', '--help'], ['', '', '']):
        out, err, status = desk.log(None, *args)
        told = err.startswith(NAME.encode()) and err.count(b'\n') == 1 and b'--help' in err and b'--version' in err
        check(f'arguments {args}', out == b'' and told and status == 0, (out, err))


def streamed(book, first, piece, lines, size):
    """A stream of so many megabytes, every line compared: first is (bytes, lines), then comes one piece again and again, whose
    lines are told by its number. The most memory that the program had is given."""
    count, run, peak = size * 1000000 // len(piece), Desk(book).start(), []

    def feed():
        write(run, first[0])
        for _ in range(count):
            write(run, piece)
        peak.append(memory(run.pid))
        run.stdin.close()

    feeder = threading.Thread(target=feed)
    feeder.start()
    right = run.stdout.read(len(first[1])) == first[1]
    for n in range(count):
        right = right and run.stdout.read(len(lines(n))) == lines(n)
    right = right and run.stdout.read() == b''
    feeder.join()
    check(f'{count} pieces of {size} MB', right and run.wait() == 0)
    return peak[0]


def steady(book, first, piece, lines, megabytes):
    """A stream of many megabytes needs no more memory than one of a megabyte."""
    one, all_of_it = (streamed(book, first, piece, lines, size) for size in (1, megabytes))
    # how much of the room for text is ever touched depends on how fast the pieces come
    check(f'no more memory for {megabytes} MB than for one', 0 < all_of_it <= one + 512, (one, all_of_it))
    print(f'peak memory: {one} KB for 1 MB, {all_of_it} KB for {megabytes} MB')
