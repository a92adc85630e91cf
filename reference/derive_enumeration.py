#!/usr/bin/env python3
"""What the second implementation lists for the input of crates/list_challenges, its file `stdin`, and for those of crates/list_challenges_runs, the texts of
the tables `SHORT`, `LONG` and `REFUSED` of its main.rt, one after another; of those of LONG the SHAKE128 digest, made by Python's hashlib.

    derive_enumeration.py            compares it with the file `stdout` of each; exit status 1 where one differs
    derive_enumeration.py --write    writes these files
"""
import ast
import hashlib
import re
import subprocess
import sys
from pathlib import Path

HERE = Path(__file__).resolve().parent
PROGRAM = HERE / 'target' / 'release' / 'reference'
CRATES = HERE.parent / 'crates'


def listed(line):
    return subprocess.run([PROGRAM, 'list_challenges'], input=line, capture_output=True, check=True).stdout


def run(name, line):
    text = listed(line)
    return text if name != 'LONG' else f'shake128 {hashlib.shake_128(text).hexdigest(32)}\n'.encode()


source = (CRATES / 'list_challenges_runs' / 'src' / 'main.rt').read_text()
tables = re.findall(r'^const (SHORT|LONG|REFUSED): \[&str; \d+\] = \[\n(.*?)^\];', source, re.S | re.M)
runs = [(name, ast.literal_eval('b' + text)) for name, table in tables for text in re.findall(r'^    ("(?:[^"\\]|\\.)*"),$', table, re.M)]
if len(runs) != 66:
    sys.exit(f'derive_enumeration: {len(runs)} inputs found, and not 66')
derived = {
    'list_challenges': listed((CRATES / 'list_challenges' / 'stdin').read_bytes()),
    'list_challenges_runs': b''.join(run(name, line) for name, line in runs),
}
for name, output in derived.items():
    stored = CRATES / name / 'stdout'
    if sys.argv[1:] == ['--write']:
        stored.write_bytes(output)
    elif stored.read_bytes() != output:
        sys.exit(f'{stored} is not what reference/ derives')
