#!/usr/bin/env python3
"""What the second implementation prints for the input of crates/list_nodes, its file `stdin`, and for those of crates/list_nodes_runs, the texts of
the table `INPUTS` of its main.rt, one after another.

    derive_listing.py            compares it with the file `stdout` of each; exit status 1 where one differs
    derive_listing.py --write    writes these files
"""
import ast
import re
import subprocess
import sys
from pathlib import Path

HERE = Path(__file__).resolve().parent
PROGRAM = HERE / 'target' / 'release' / 'reference'
CRATES = HERE.parent / 'crates'


def listed(line):
    return subprocess.run([PROGRAM, 'list'], input=line, capture_output=True, check=True).stdout


table = re.search(r'^const INPUTS: \[&str; \d+\] = \[\n(.*?)^\];', (CRATES / 'list_nodes_runs' / 'src' / 'main.rt').read_text(), re.S | re.M).group(1)
runs = [ast.literal_eval('b' + text) for text in re.findall(r'^    ("(?:[^"\\]|\\.)*"),$', table, re.M)]
if len(runs) != 60:
    sys.exit(f'derive_listing: {len(runs)} inputs found, and not 60')
derived = {
    'list_nodes': listed((CRATES / 'list_nodes' / 'stdin').read_bytes()),
    'list_nodes_runs': b''.join(map(listed, runs)),
}
for name, output in derived.items():
    stored = CRATES / name / 'stdout'
    if sys.argv[1:] == ['--write']:
        stored.write_bytes(output)
    elif stored.read_bytes() != output:
        sys.exit(f'{stored} is not what reference/ derives')
