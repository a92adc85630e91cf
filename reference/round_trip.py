#!/usr/bin/env python3
"""What crates/run_round_trip prints, derived by the second implementation. Usage: round_trip.py STDOUT-FILE [--write]

The shapes, row lengths, stretches and challenges are those of crates/run_round_trip/src/main.rt. `reference roundtrip` ends with 0 only where every column of
Q is what the challenge asks for.
"""
import os
import subprocess
import sys

HERE = os.path.dirname(os.path.abspath(__file__))
PROGRAM = os.path.join(HERE, 'target', 'release', 'reference')
ROOT = bytes(range(16)).hex()
IV = bytes(range(16, 32)).hex()
CASES = [
    ('11 11 7 102', '1680', None, 'efe34b324e8cc9ab257940fe1bd03800'),
    ('2 2 124 4', '8', None, '0c000000000000000000000000000000'),
    ('3 3 119 8', '136', None, '6a010000000000000000000000000000'),
    ('11 11 7 102', '1680', ('13', '37'), 'efe34b324e8cc9ab257940fe1bd03800'),
]


def run(command, *args):
    done = subprocess.run([PROGRAM, command, *args], capture_output=True, text=True, check=True)
    return dict(line.split(' ', 1) for line in done.stdout.splitlines() if ' ' in line)


def text():
    lines = []
    for shape, bits, stretch, challenge in CASES:
        s = [*shape.split(), '128', '0']
        form, rows = ('_stretch', (bits, *stretch)) if stretch else ('', (bits,))
        commit = run('commit' + form, *s, *rows, ROOT, IV)
        opened = run('open' + form, *s, *rows, ROOT, IV, challenge)
        checked = run('reconstruct' + form, *s, *rows, ROOT, IV, challenge)
        run('roundtrip' + form, *s, *rows, ROOT, IV, challenge)
        lines.append(f'shape {shape}, rows of {bits} bits' + (f', {stretch[1]} bytes from byte {stretch[0]} on' if stretch else ''))
        for name, answer in ('commit', commit), ('open', opened), ('reconstruct', checked):
            lines.append(f"{name} answers {answer['number']} with count {answer['count']}")
        lines.append('commitment of the signing half  ' + commit['commitment'].split()[1])
        lines.append('commitment of the checking half ' + checked['commitment'].split()[1])
        lines.append('128 of 128 columns agree')
        lines.append('opened nodes ' + run('plan', *s, challenge)['nodes'].split(' ', 1)[1])
    return '\n'.join(lines) + '\n'


path = sys.argv[1]
if sys.argv[2:] == ['--write']:
    with open(path, 'w') as file:
        file.write(text())
elif open(path).read() != text():
    sys.exit(f'{path} is not what reference/ derives')
