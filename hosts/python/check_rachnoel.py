#!/usr/bin/env python3
"""rachnoel.py beside the second implementation: plans, records and reconstructions, and bad input, each answered by its number with nothing written.

    check_rachnoel.py PREFIX REFERENCE      an install, and the program of reference/
"""
import array
import hashlib
import os
import random
import subprocess
import sys
from pathlib import Path

PREFIX, REFERENCE = Path(sys.argv[1]).resolve(), sys.argv[2]
os.environ['RACHNOEL_LIBDIR'] = str(PREFIX / 'lib')
sys.path.insert(0, str(PREFIX / 'share/rachnoel/python'))
import rachnoel  # noqa: E402

HUGE = 2**63
DICE = random.Random(41)
tried = 0


def expect(found, right, what):
    global tried
    tried += 1
    if found != right:
        sys.exit(f'check_rachnoel: {what}: {found}, not {right}')


def reference(*args, stdin=None):
    text = subprocess.run([REFERENCE, *map(str, args)], input=stdin, capture_output=True, check=True).stdout.decode()
    return {line.split()[0]: line.split()[1:] for line in text.splitlines()}


def answered(function, *args):
    """The number, and what was given with it: the result, or the count of a refusal."""
    try:
        return 0, function(*args)
    except rachnoel.Refused as e:
        return e.number, e.count


def plans():
    seen = set()
    for _ in range(300):
        tau, k = DICE.randint(1, 9), DICE.randint(1, 5)
        deeper = DICE.randint(0, tau - 1)
        w = 128 - tau * k - deeper
        shape = rachnoel.Shape(tau, k, min(w, 127), DICE.choice([3, 20, 80, 512, 513]), 128, DICE.choice([0, 0, 1, 2]))
        challenge = bytearray(DICE.randbytes(16))
        for bit in range(128 - shape.w, 128):
            challenge[bit // 8] &= 255 ^ (1 << bit % 8) if DICE.random() < 0.999 else 255
        right = reference('plan', *shape, challenge.hex())
        number, found = answered(rachnoel.plan, shape, bytes(challenge))
        expect(number, int(right['number'][0]), f'{shape}')
        if number == 0:
            expect(found, [int(x) for x in right['nodes'][1:]], f'{shape}')
        elif number == 5:
            expect(found, int(right['count'][0]), f'{shape}')
        seen.add(number)
    expect(seen, {0, 1, 4, 5}, 'the numbers that came up')


def proved_lengths():
    """The module's lengths are the eleven numbers of the proved call, or all 0 where that refuses."""
    seen = set()
    for _ in range(3000):
        level = DICE.choice([128, 192, 256, 160])
        tau, k = DICE.randint(0, 33), DICE.randint(0, 13)
        shape = rachnoel.Shape(tau, k, max(0, level - tau * k - DICE.randint(0, 3)), DICE.choice([0, 1, 102, 512, 513]), level, DICE.choice([0, 1, 2]))
        row, out = DICE.choice([8, 1680, 65536, 65544, 12]), bytearray(b'\xa5' * 44)
        number = rachnoel.call('planning', 'rachnoel_lengths', *shape, row, out)
        right = b''.join(x.to_bytes(4, 'little') for x in rachnoel.lengths(shape, row // 8)) if number == 0 else b'\xa5' * 44
        expect(bytes(out), right, f'{shape} {row}')
        expect(number == 1, not any(rachnoel.lengths(shape, 1)), f'{shape}')
        seen.add(number)
    expect(seen, {0, 1, 2}, 'the numbers that came up')


def line(name, data):
    return [str(len(data))] + ([] if not data else [data.hex()] if len(data) <= 64 else ['shake128', hashlib.shake_128(data).hexdigest(32)])


def fields(record):
    at, found = 1, []
    for _ in range(6):
        n = int.from_bytes(record[at:at + 4], 'big')
        found.append(record[at + 4:at + 4 + n])
        at += 4 + n
    return found


def make(*args):
    return subprocess.run([PREFIX / 'bin' / 'make_record', *args], capture_output=True, check=True).stdout


def number(record, *options):
    found = reference('check', *options, stdin=record)
    return int(found['number'][0]), int(found['count'][0])


def records():
    """Every set, and small shapes: reconstruct gives the bytes of the second implementation; the checks its numbers, of changed records too."""
    cases = [(s.name, s.shape, s.row_bits) for s in (rachnoel.FAEST_128F, rachnoel.FAEST_EM_192F, rachnoel.FAEST_256F)]
    cases += [('2,2,124,4', rachnoel.Shape(2, 2, 124, 4, 128, 0), 8), ('1,1,127,1', rachnoel.Shape(1, 1, 127, 1, 128, 0), 8), ('zeros', rachnoel.DEFAULT.shape, 1680)]
    seen = set()
    for name, shape, row_bits in cases:
        record = make(name, str(row_bits))
        _, iv, challenge, corrections, opening, commitment = fields(record)
        root = bytes(range(len(challenge)))
        right = reference('reconstruct', *shape, row_bits, root.hex(), iv.hex(), challenge.hex())
        r = rachnoel.reconstruct(shape, row_bits, iv, challenge, corrections, opening)
        expect((r.commitment, r.count), (commitment, int(right['count'][0])), name)
        for part in 'commitment', 'tree', 'leaf_commitments', 'q':
            expect(line(part, getattr(r, part)), right[part], f'{part} of {name}')
        changed = [record, record[:-1], record + b'x', b'', record[:1], b'\x09' + record[1:], record[:20], record[:-40] + bytes(40)]
        changed += [record[:i] + bytes([record[i] ^ 1 << DICE.randrange(8)]) + record[i + 1:] for i in (DICE.randrange(min(len(record), 70)) for _ in range(12))]
        for c in changed:
            for check, options in (rachnoel.check_record, []), (rachnoel.check_named, ['--named']):
                n, count = answered(check, c)
                right = number(c, *options)
                expect((n, count or 0), right, f'{name} changed')
                seen.add(n)
    expect(seen >= {0, 9, 10, 11, 13, 1}, True, f'the numbers that came up: {seen}')


def bad_lengths():
    """Lengths 0, one off and 2^63, and NULL with 0: of each slice of reconstruct, by the flat call; the number, and nothing written."""
    shape, row_bits = rachnoel.Shape(2, 2, 124, 4, 128, 0), 8
    n = rachnoel.lengths(shape, 1)
    right = [16, n.node, n.corrections, n.opening, n.commitment, n.tree, n.leaf_commitments, n.matrix, 4]
    for place, length in enumerate(right):
        for other in 0, length - 1, length + 1, HUGE, None:
            outputs = [bytearray(b'\xa5' * x) for x in right]
            for i in range(4):
                outputs[i] = bytearray(x % 7 for x in range(right[i]))
            before = [bytes(x) for x in outputs]
            slices = list(outputs)
            # a length that no slice has is lent with the address of a byte; NULL has none
            lent = (rachnoel.ctypes.c_char * (max(length, 1) + 1))()
            slices[place] = (None, 0) if other is None else (rachnoel.ctypes.addressof(lent), other)
            if other is None and length == 0:
                continue
            found = rachnoel.call('verifier', 'rachnoel_reconstruct', *shape, row_bits, *slices)
            expect((found, [bytes(x) for x in outputs], bytes(lent)), (3, before, bytes(len(lent))), f'slice {place} of {other} bytes')


def bad_input():
    shape = rachnoel.Shape(2, 2, 124, 4, 128, 0)
    good = (b'\0' * 16, b'\x0c' + b'\0' * 15, b'\0', b'\0' * 160)
    expect(answered(rachnoel.reconstruct, shape, 8, *good)[0], 0, 'right')
    for i in range(4):
        for other in b'', good[i][:-1], good[i] + b'\0':
            expect(answered(rachnoel.reconstruct, shape, 8, *good[:i], other, *good[i + 1:]), (3, None), f'input {i} of {len(other)} bytes')
    for row_bits in 0, 7, 12, 65544, HUGE, 2**64, -8:
        expect(answered(rachnoel.reconstruct, shape, row_bits, *good), (2, None), f'rows of {row_bits}')
    for i in range(6):
        for other in HUGE, 2**64, -1, 2**57:
            wrong = rachnoel.Shape(*(other if i == j else x for j, x in enumerate(shape)))
            expect(answered(rachnoel.reconstruct, wrong, 8, *good), (1, None), f'{wrong}')
            expect(answered(rachnoel.plan, wrong, good[1]), (1, None), f'{wrong}')
            expect(set(rachnoel.lengths(wrong, 1)), {0}, f'{wrong}')
    for challenge in b'', b'\0' * 15, b'\0' * 17:
        expect(answered(rachnoel.plan, shape, challenge), (3, None), 'a challenge')
    expect((answered(rachnoel.check_record, b''), answered(rachnoel.check_named, bytearray())), ((9, None), (9, None)), 'no record')
    for what in 0, True, (4096, 99), 'text', None:
        for call in rachnoel.check_record, rachnoel.check_named, lambda x: rachnoel.plan(shape, x):
            try:
                call(what)
            except TypeError:
                continue
            expect(what, TypeError, 'what has no bytes')
    expect(answered(rachnoel.check_record, array.array('I', [1, 0])), (10, None), 'a record of wider items, by its bytes')
    expect(str(rachnoel.Refused(4)), 'refused 4 grinding: a grinding bit of the challenge is 1', 'the text')
    expect(set(rachnoel.lengths(rachnoel.FAEST_128F.shape, 8193)), {0}, 'a row that is none')


def missing_library():
    """One clear message where there is no library."""
    code = 'import rachnoel; rachnoel.check_record(b"")'
    done = subprocess.run([sys.executable, '-B', '-c', code], env={**os.environ, 'RACHNOEL_LIBDIR': '/nowhere', 'PYTHONPATH': str(PREFIX / 'share/rachnoel/python')},
                          capture_output=True, text=True)
    expect((done.returncode, done.stderr.strip().splitlines()[-1].startswith('ImportError: librachnoel_broker.so.0 is not found: make -C hosts install-broker')), (1, True), done.stderr)


def can_fail():
    """A changed module is found: the answer of another record, and a wrong length."""
    kept = rachnoel.lengths
    rachnoel.lengths = lambda shape, row: kept(shape, row)._replace(tree=kept(shape, row).tree + 1)
    number_found = answered(rachnoel.reconstruct, rachnoel.Shape(2, 2, 124, 4, 128, 0), 8, b'\0' * 16, b'\0' * 16, b'\0', b'\0' * 160)[0]
    rachnoel.lengths = kept
    expect(number_found, 3, 'a wrong length of the module')


for test in plans, proved_lengths, records, bad_lengths, bad_input, missing_library, can_fail:
    test()
print(f'{tried} answers of rachnoel.py as they must be')
