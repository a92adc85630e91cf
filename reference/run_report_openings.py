#!/usr/bin/env python3
"""Runs the built program of the opening report, crates/report_openings/out/report_openings, and compares what it writes with what the second
implementation reports.

    run_report_openings.py [PROGRAM]      exit status 1 at the first input where the two differ

The inputs are records of every version and level, of shapes with few and with many nodes, drawn one after another, whole, damaged and cut; and lengths next
to 65,536 bytes, of which the program reads one more. No contract can say how many bytes a program reads, so that is run here, also with an input that arrives
in parts. Last, inputs that cannot be read and outputs that cannot be written: the program must say so on standard error.
"""
import random
import subprocess
import sys
from pathlib import Path

from derive_report import record, with_byte
from odd_streams import failed_reads, failed_writes, in_parts

HERE = Path(__file__).resolve().parent
REFERENCE = HERE / 'target' / 'release' / 'reference'
PROGRAM = sys.argv[1] if sys.argv[1:] else HERE.parent / 'crates' / 'report_openings' / 'out' / 'report_openings'

SMALL = record(1, 1, 1, 127, 2, 8, 16, 0, 80)              # 178 bytes
EXACT = record(1, 2, 1, 126, 2, 240, 16, 30, 128)          # 256 bytes
# version, tau, k, w, T, row length, level / 8: the sets of document 000, some as version 3, and small shapes
SHAPES = [(1, 1, 1, 127, 1, 8, 16), (1, 2, 2, 124, 3, 16, 16), (2, 3, 1, 125, 2, 8, 16), (2, 2, 1, 125, 2, 24, 16), (1, 11, 11, 7, 102, 8, 16), (2, 16, 7, 8, 110, 8, 16),
          (2, 16, 11, 12, 162, 8, 24), (2, 24, 7, 8, 163, 8, 24), (2, 22, 11, 6, 245, 8, 32), (2, 32, 7, 8, 246, 8, 32), (2, 32, 4, 0, 127, 8, 16), (2, 6, 11, 126, 70, 8, 24),
          (3, 1, 1, 127, 1, 8, 16), (3, 11, 11, 7, 102, 8, 16), (3, 24, 7, 8, 176, 8, 24), (3, 32, 7, 8, 218, 8, 32)]


def whole(version, tau, k, w, t, row, node, draw):
    """A record of this shape with a drawn challenge, mostly of clear grinding bits, and an opening that mostly ends with the nodes of the tree."""
    width = (2 if version == 3 else 3) * node
    text = bytearray(record(version, tau, k, w, t, row, node, row // 8 * (tau - 1), width * tau + node * t))
    challenge = 1 + 4 + 8 + version + 4 + 16 + 4
    bits = draw.getrandbits(8 * node - w if draw.random() < 0.9 else 8 * node)
    text[challenge:challenge + node] = bits.to_bytes(node, 'little')
    opening = challenge + node + 4 + row // 8 * (tau - 1) + 4
    for place in range(opening, opening + width * tau + node * draw.choice((0, 1, t))):
        text[place] = draw.getrandbits(8)
    return bytes(text)


def damaged(text, draw):
    text = bytearray(text)
    for _ in range(draw.choice((0, 0, 0, 1, 2))):
        at = draw.choice((draw.randrange(len(text)), draw.randrange(min(20, len(text)))))
        text[at] = draw.choice((0, 1, 2, 3, 4, 255, text[at] ^ 1))
    if draw.random() < 0.1:
        del text[draw.randrange(len(text)):]
    return bytes(text)


def drawn():
    draw = random.Random(14)
    for _ in range(400):
        yield b''.join(damaged(whole(*draw.choice(SHAPES), draw), draw) for _ in range(draw.randint(1, 5)))[:65600]


def lengths():
    yield from (b'', b'\0', b'\1', b'\2', b'\3', b'\4', b'\xff', SMALL, EXACT, SMALL + b'\0', SMALL + b'\n')
    for n in (65535, 65536, 65537, 65538, 70000, 200000):
        for text in (SMALL, EXACT, b'\0'):
            yield (text * (n // len(text) + 1))[:n]
    for at in range(0, len(SMALL), 3):
        yield SMALL + with_byte(SMALL, at, SMALL[at] ^ 1) + SMALL
        yield SMALL + SMALL[:at]


def report(command, text):
    return subprocess.run(command, input=text, capture_output=True, check=True)


def compare(text):
    derived = report([REFERENCE, 'report'], text).stdout
    found = report([PROGRAM], text)
    if found.stdout != derived or found.stderr:
        sys.exit(f'report_openings, {len(text)} bytes {text[:70]!r}: {found.stdout[:200]!r}, {found.stderr!r}; reference/ has {derived[:200]!r}')
    return found.stdout


def main():
    tried, numbers = 0, set()
    for text in (*lengths(), *drawn()):
        numbers.update(line.split()[-1] for line in compare(text).split(b'\n') if b'refused' in line)
        tried += 1
    missing = {b'1', b'2', b'4', b'5', b'6', b'7', b'9', b'10'} - numbers
    if missing:
        sys.exit(f'report_openings: no input was refused with {sorted(missing)}')
    if in_parts(PROGRAM, (SMALL[:1], SMALL[1:60], b'', SMALL[60:] + EXACT[:5], EXACT[5:])) != report([REFERENCE, 'report'], SMALL + EXACT).stdout:
        sys.exit('report_openings, an input in parts: another output')
    failed_reads(PROGRAM, SMALL)
    failed_writes(PROGRAM, (b'', SMALL, (SMALL * 400)[:65536], (SMALL * 400)[:65537]))
    print(f'report_openings: {tried} inputs as reference/ reports them, and a failed read or write is said')


main()
