"""A working directory with a book, a program run there, and the words in which the tests speak of recordings."""
import atexit
import os
import pathlib
import shutil
import subprocess
import sys
import tempfile
import threading

HERE = pathlib.Path(__file__).resolve().parent
# the program that is named, or else the one of the test's own name
NAME = pathlib.Path(sys.argv[0]).stem
OWN = HERE.parent / 'target/bin' / NAME
PROGRAM = pathlib.Path(sys.argv[1] if len(sys.argv) > 1 else OWN).resolve()
VECTORS = HERE / 'vectors'
WORK = tempfile.mkdtemp()
atexit.register(shutil.rmtree, WORK)


def read(name, kind):
    return (VECTORS / f'{name}.{kind}').read_bytes()


class Desk:
    """A working directory with a book, and the program run there."""

    def __init__(self, book):
        self.folder = pathlib.Path(tempfile.mkdtemp(dir=WORK))
        if book is not None:
            (self.folder / 'book.bin').write_bytes(book)

    def start(self, *args, env=None, stdin=subprocess.PIPE, stdout=subprocess.PIPE, **more):
        return subprocess.Popen([PROGRAM, *args], cwd=self.folder, stdin=stdin, stdout=stdout, stderr=subprocess.PIPE,
                                env={**os.environ, **(env or {})}, **more)

    def log(self, events, *args, **more):
        """What the program writes to its two outputs, and its status."""
        run = self.start(*args, **more)
        out, err = run.communicate(events)
        return out, err, run.returncode

    def piped(self, events, size):
        """The log of events that come in pieces of so many bytes."""
        run = self.start()

        def feed():
            for at in range(0, len(events), size):
                write(run, events[at:at + size])
            run.stdin.close()

        feeder = threading.Thread(target=feed)
        feeder.start()
        out = run.stdout.read()
        feeder.join()
        return out, run.stderr.read(), run.wait()


def write(run, data):
    """Writes to the program's input; one that has read its last event takes no more."""
    try:
        while data:
            data = data[os.write(run.stdin.fileno(), data):]
    except BrokenPipeError:
        pass


def frames(events):
    """Where each whole frame of a recording ends."""
    ends, at = [], 0
    while at < len(events):
        at += 10 + int.from_bytes(events[at + 6:at + 10], 'big')
        ends.append(at)
    return ends


def by_event(log):
    """The lines of each event of a log."""
    events = []
    for line in log.splitlines(keepends=True):
        if line.startswith(b'E'):
            events.append(line)
        else:
            events[-1] += line
    return events


def frame(party, who, tag, payload):
    return bytes([party]) + who.to_bytes(4, 'big') + bytes([tag]) + len(payload).to_bytes(4, 'big') + payload


def temporary(data):
    file = tempfile.TemporaryFile(dir=WORK)
    file.write(data)
    file.seek(0)
    return file


def memory(pid):
    """The most memory that a running program has had, in KB."""
    status = pathlib.Path(f'/proc/{pid}/status').read_text()
    return int(status.split('VmHWM:')[1].split()[0]) if 'VmHWM:' in status else 0


def shim():
    """What stands between the program and the system's read and write, built."""
    path = os.path.join(WORK, 'shim.so')
    subprocess.run(['gcc', '-std=c11', '-O2', '-Wall', '-Wextra', '-Wpedantic', '-Werror', '-shared', '-fPIC', HERE / 'shim.c',
                    '-o', path], check=True)
    return path
