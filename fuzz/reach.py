#!/usr/bin/env python3
"""How much of the kernel's machine code a run has reached, for fuzz/run.sh reach.

usage: fuzz/reach.py ARCHIVE PROGRAM DUMP     the dump is callgrind's, with --dump-instr=yes, of the program

Prints the instructions that were not reached, a line for each stretch of them, and how many were. Assumes the lines of
nm, of objdump -d and of callgrind's format 1.
"""
import re
import subprocess
import sys


def said(*command):
    return subprocess.run(command, check=True, capture_output=True, text=True).stdout


def functions(archive):
    return set(re.findall(r'^\w+ [tT] (.+)$', said('nm', archive), re.MULTILINE))


def instructions(program, names):
    """Address, function and text of each, without those that only fill."""
    function = None
    for line in said('objdump', '-d', '--no-show-raw-insn', program).splitlines():
        if head := re.match(r'\w+ <(.+)>:$', line):
            function = head[1]
        elif (one := re.match(r' +(\w+):\s+(.+)$', line)) and function in names:
            if not re.search(r'\bnop|^xchg +%ax,%ax', one[2]):
                yield int(one[1], 16), function, one[2].strip()


def reached(dump):
    """The addresses with a cost; one may be told by its distance from the last, or be the same."""
    at, seen = 0, set()
    for line in open(dump):
        if place := re.match(r'(0x\w+|[+-]\d+|\*) ', line):
            at = at if place[1] == '*' else int(place[1], 16) if place[1][0] == '0' else at + int(place[1])
            seen.add(at)
    return seen


def main(archive, program, dump):
    code, seen = list(instructions(program, functions(archive))), reached(dump)
    before = True
    for at, function, text in code:
        if at not in seen and before:
            print(f'{function} {at:x}: {text}')
        before = at in seen
    count = sum(at in seen for at, _, _ in code)
    print(f'{count} of {len(code)} instructions of the kernel are reached')
    return 0 if count > 0 else 1


if __name__ == '__main__':
    sys.exit(main(*sys.argv[1:]) if len(sys.argv) == 4 else __doc__.strip())
