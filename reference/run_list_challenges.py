#!/usr/bin/env python3
"""Runs the built program that lists all challenges, crates/list_challenges/out/list_challenges, and compares what it writes with what the second
implementation lists.

    run_list_challenges.py [PROGRAM]      exit status 1 at the first input where the two differ

A good line has at most 24 bytes, of which the program reads 64: the inputs end before, at and behind both numbers. No contract can say how many bytes a
program reads, nor that it writes each piece, so this is run, also on shapes of every number of bits up to 16, on damaged inputs, and on an input that arrives
in parts. The longest outputs must take less than a second of the processor. Last, inputs that cannot be read, and outputs that cannot be written, or not to
their end: the program must say so on standard error, and not write on.
"""
import random
import resource
import signal
import subprocess
import sys
from pathlib import Path

from odd_streams import failed_reads, failed_writes, in_parts

HERE = Path(__file__).resolve().parent
REFERENCE = HERE / 'target' / 'release' / 'reference'
PROGRAM = sys.argv[1] if sys.argv[1:] else HERE.parent / 'crates' / 'list_challenges' / 'out' / 'list_challenges'

SHORT = b'2 2 124 3'                        # 9 bytes
LONG = b'00002 00002 00124 00003'           # 23 bytes, the longest line without its line feed
LONGEST = (b'16 1 112 8\n', b'8 2 112 9\n', b'5 3 112 13\n', b'2 8 112 13\n')     # 65,536 lines


def ends():
    for line in (SHORT, LONG):
        yield from (line, line + b'\n', line + b'\n\n', line + b'\nx', line + b'x', line + b' ', line + b'\0', line + b'\r', line + b'\r\n', line + b'\n\0')
        yield from (line[:-1], line[:-1] + b'\n', line[:-1] + b'C', line + b' 0c' + b'0' * 30)
        for length in (24, 25, 26, 63, 64, 65, 66, 128, 5000):
            yield line + b'\n' * (length - len(line))
            yield line + b'\n' + b'0' * (length - len(line) - 1)
            yield line + b'0' * (length - len(line))
    yield from (b'', b'\n', b'\0', b'\r\n', b' ', b'0' * 64, b'\n' * 65, b'\0' * 5000)


def shapes():
    for bits in range(1, 17):
        for t in (1, 9):
            yield f'2 {bits // 2} {128 - bits} {t}\n'.encode()
    for tau in range(1, 17):
        yield f'{tau} {10 // tau} 118 6\n'.encode()


def damaged():
    draw = random.Random(10)
    for line in (SHORT + b'\n', LONG + b'\n', b'3 1 125 512', b'1 12 116 12\n') * 40:
        text = bytearray(line)
        for _ in range(draw.randint(1, 3)):
            at = draw.randrange(len(text) + 1)
            text[at:at + draw.randint(0, 1)] = bytes([draw.choice(b'0123456789 \n\r\t-/:\0\xff')] * draw.randint(0, 1))
        yield bytes(text)


def listed(command, text):
    return subprocess.run(command, input=text, capture_output=True, check=True)


def compare(text):
    derived = listed([REFERENCE, 'list_challenges'], text).stdout
    found = listed([PROGRAM], text)
    if found.stdout != derived or found.stderr:
        sys.exit(f'list_challenges, {len(text)} bytes {text[:70]!r}: {found.stdout[:200]!r}, {found.stderr!r}; reference/ has {derived[:200]!r}')
    return found.stdout


def seconds():
    used = resource.getrusage(resource.RUSAGE_CHILDREN)
    return used.ru_utime + used.ru_stime


def stopped_reader():
    # a reader that takes one piece and goes away; the program ends all the same
    program = subprocess.Popen([PROGRAM], stdin=subprocess.PIPE, stdout=subprocess.PIPE, stderr=subprocess.PIPE, restore_signals=False,
                               preexec_fn=lambda: signal.signal(signal.SIGPIPE, signal.SIG_IGN))
    program.stdin.write(LONGEST[0])
    program.stdin.close()
    if len(program.stdout.read(1000)) != 1000:
        sys.exit('list_challenges: fewer than 1,000 bytes of a long output')
    program.stdout.close()
    error = program.stderr.read()
    program.wait(60)
    if not error.startswith(b'list_challenges: standard output: '):
        sys.exit(f'list_challenges, a reader that stops: standard error has {error!r}')


def main():
    tried = 0
    for text in (*ends(), *shapes(), *damaged()):
        compare(text)
        tried += 1
    for text in LONGEST:
        lines = compare(text).count(b'\n')
        if lines != 65537:
            sys.exit(f'list_challenges, {text!r}: {lines} lines')
        before = seconds()
        listed([PROGRAM], text)
        took = seconds() - before
        if took > 1:
            sys.exit(f'list_challenges, {text!r}: {took:.1f} s')
        tried += 1
    if in_parts(PROGRAM, (b'2 ', b'2 12', b'', b'4', b' 3', b'\n')) != listed([REFERENCE, 'list_challenges'], SHORT).stdout:
        sys.exit('list_challenges, an input in parts: another output')
    failed_reads(PROGRAM, SHORT + b'\n')
    failed_writes(PROGRAM, (SHORT, LONGEST[0], b''))
    stopped_reader()
    print(f'list_challenges: {tried} inputs as reference/ lists them, and a failed read or write is said')


main()
