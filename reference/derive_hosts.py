#!/usr/bin/env python3
"""What the example hosts of ../hosts must print: those of version 2 by the second implementation's plan of each challenge that they draw, that of
version 1 by what the second implementation prints of its calls.

    derive_hosts.py            compares it with ../hosts/round_trip.stdout and ../hosts/round_trip_v1.stdout; exit status 1 where one differs
    derive_hosts.py --write    writes these files

That commitments are equal and columns agree is what the hosts find; here it is what they must find.
"""
import subprocess
import sys
from pathlib import Path

HERE = Path(__file__).resolve().parent
PROGRAM = HERE / 'target' / 'release' / 'reference'
HOSTS = HERE.parent / 'hosts'
MASK = 2**64 - 1
STRETCH = 64

# name; tau, k, w, T, level and kind as the hosts give them; grinding bits; row length in bits
SETS = [
    ('FAEST-128f', (0, 0, 0, 0, 128, 0), 8, 1680),
    ('FAEST-128s', (11, 11, 7, 102, 128, 0), 7, 1680),
    ('FAEST-192s', (16, 11, 12, 162, 192, 0), 12, 3088),
    ('FAEST-192f', (24, 7, 8, 163, 192, 0), 8, 3088),
    ('FAEST-256s', (22, 11, 6, 245, 256, 0), 6, 3888),
    ('FAEST-256f', (32, 7, 8, 246, 256, 0), 8, 3888),
    ('FAEST-EM-128s', (11, 11, 7, 103, 128, 1), 7, 1360),
    ('FAEST-EM-128f', (16, 7, 8, 112, 128, 1), 8, 1360),
    ('FAEST-EM-192s', (16, 11, 8, 162, 192, 1), 8, 2320),
    ('FAEST-EM-192f', (24, 7, 8, 176, 192, 1), 8, 2320),
    ('FAEST-EM-256s', (22, 11, 6, 218, 256, 1), 6, 3472),
    ('FAEST-EM-256f', (32, 7, 8, 234, 256, 1), 8, 3472),
]

# those of version 1: name; tau, k and level; row length in bits
SETS_OF_VERSION_1 = [
    ('FAEST-128s', 11, 11, 128, 1680),
    ('FAEST-128f', 16, 8, 128, 1680),
    ('FAEST-192s', 16, 12, 192, 3088),
    ('FAEST-192f', 24, 8, 192, 3088),
    ('FAEST-256s', 22, 11, 256, 3888),
    ('FAEST-256f', 32, 8, 256, 3888),
]


def challenges(n):
    """SplitMix64 from state 1, a byte of each number."""
    state = 1
    while True:
        challenge = b''
        for _ in range(n):
            state = (state + 0x9E3779B97F4A7C15) & MASK
            z = (state ^ state >> 30) * 0xBF58476D1CE4E5B9 & MASK
            z = (z ^ z >> 27) * 0x94D049BB133111EB & MASK
            challenge += bytes([(z ^ z >> 31) & 0xFF])
        yield challenge


def printed(*command):
    return subprocess.run([PROGRAM, *map(str, command)], check=True, capture_output=True, text=True).stdout.splitlines()


def lines():
    for name, shape, w, row_bits in SETS:
        level = shape[4]
        grinding = nodes = 0
        for challenge in challenges(level // 8):
            if int.from_bytes(challenge, 'little') >> level - w:
                grinding += 1
                continue
            number, count = (int(line.split()[1]) for line in printed('plan', *shape, challenge.hex())[:2])
            if number == 0:
                break
            nodes += 1
        pieces = -(-row_bits // (8 * STRETCH))
        yield (f'{name}: commit 0, open 0 with {count} nodes after {grinding} refusals with 4 and {nodes} with 5, '
               f'reconstruct 0 with {count} nodes, commitments equal, {level} columns agree')
        yield f'{name}: {pieces} stretches, {pieces} as in the whole'


def lines_of_version_1():
    """The calls on the root 00 01 .., the IV 10 11 .. and the first challenge drawn. A tree has 2 n - 1 nodes where it has n leaves; the way to a hidden leaf
    has one for each bit of the challenge, and the root."""
    for name, tau, k, level, row_bits in SETS_OF_VERSION_1:
        n = level // 8
        committed = tau, k, 0, 1, level, 0, row_bits, bytes(range(n)).hex(), bytes(range(16, 32)).hex()
        opened = *committed, next(challenges(n)).hex()
        yield f'{name} of version 1'
        yield from printed('v1_commit', *committed)
        yield from printed('v1_open', *opened)
        yield from printed('v1_reconstruct', *opened)
        yield from printed('v1_roundtrip', *opened)[2:]
        yield 'leaf commitments agree'
        deeper = level - tau * k
        covered, nodes = level + tau, 2 * (tau + deeper << k) - tau
        yield f'covered nodes: {covered} of {covered} zeros; others: {nodes - covered} of {nodes - covered} equal'


def check(name, found, write):
    stored, text = HOSTS / name, ''.join(line + '\n' for line in found)
    if write:
        stored.write_text(text)
    elif stored.read_text() != text:
        sys.exit(f'{stored}: the second implementation gives\n{text}')


def main():
    if sys.argv[1:] not in ([], ['--write']):
        sys.exit(__doc__)
    check('round_trip.stdout', lines(), write=bool(sys.argv[1:]))
    check('round_trip_v1.stdout', lines_of_version_1(), write=bool(sys.argv[1:]))


main()
