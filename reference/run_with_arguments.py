#!/usr/bin/env python3
"""Runs the built programs list_nodes, list_challenges and report_openings with arguments: one line of usage on standard error, nothing on standard output, and
no waiting for input, which stays open here.

    run_with_arguments.py [FOLDER]      FOLDER has the programs; where it is not given, each is in out/ of its crate
"""
import subprocess
import sys
from pathlib import Path

FOLDER = Path(sys.argv[1]) if sys.argv[1:] else None
CRATES = Path(__file__).resolve().parent.parent / 'crates'


def program_of(name):
    return FOLDER / name if FOLDER else CRATES / name / 'out' / name


def main():
    for name in 'list_nodes', 'list_challenges', 'report_openings':
        for arguments in ['--help'], ['policy.rec'], [''], ['2', '2', '124', '4']:
            program = subprocess.Popen([program_of(name), *arguments], stdin=subprocess.PIPE, stdout=subprocess.PIPE, stderr=subprocess.PIPE)
            try:
                program.wait(30)
            except subprocess.TimeoutExpired:
                program.kill()
                sys.exit(f'{name} {arguments}: it waits for input')
            out, said = program.stdout.read(), program.stderr.read().decode()
            if out or not said.startswith(f'usage: {name} < ') or said.count('\n') != 1 or not said.endswith('\n'):
                sys.exit(f'{name} {arguments}: {out!r}, {said!r}')
    print('list_nodes, list_challenges, report_openings: with arguments a line of usage')


main()
