#!/usr/bin/env python3
"""Runs the built listing program, crates/list_nodes/out/list_nodes, on inputs of many lengths and compares what it writes with what the second
implementation lists.

    run_list_nodes.py [PROGRAM]      exit status 1 at the first input where the two differ

A good line has at most 57 bytes, of which the program reads 64: the inputs end before, at and behind both numbers. No contract can say how many bytes a program
reads, so this is run. Last, inputs that cannot be read and outputs that cannot be written: the program must say so on standard
error.
"""
import subprocess
import sys
from pathlib import Path

from odd_streams import failed_reads, failed_writes

HERE = Path(__file__).resolve().parent
REFERENCE = HERE / 'target' / 'release' / 'reference'
PROGRAM = sys.argv[1] if sys.argv[1:] else HERE.parent / 'crates' / 'list_nodes' / 'out' / 'list_nodes'

DIGITS = b'0c' + b'0' * 30
SHORT = b'2 2 124 4 ' + DIGITS                      # 42 bytes
LONG = b'00002 00002 00124 00004 ' + DIGITS         # 56 bytes, the longest line without its line feed


def inputs():
    for line in (SHORT, LONG):
        yield from (line, line + b'\n', line + b'\n\n', line + b'\nx', line + b'x', line + b' ', line + b'\0', line + b'\r', line + b'\r\n', line + b'\n\0')
        yield from (line[:-1], line[:-1] + b'\n', line[:-1] + b'C')
        for length in (58, 63, 64, 65, 66, 128, 5000):
            yield line + b'\n' * (length - len(line))
            yield line + b'\n' + b'0' * (length - len(line) - 1)
            yield line + b'0' * (length - len(line))
    yield from (b'', b'\n', b'\0', b'\r\n', b' ', b'0' * 64, b'\n' * 65, b'\0' * 5000)


def listed(command, text):
    return subprocess.run(command, input=text, capture_output=True, check=True)


def main():
    tried = 0
    for text in inputs():
        derived = listed([REFERENCE, 'list'], text).stdout
        found = listed([PROGRAM], text)
        if found.stdout != derived or found.stderr:
            sys.exit(f'list_nodes, {len(text)} bytes {text[:70]!r}: {found.stdout!r}, {found.stderr!r}; reference/ has {derived!r}')
        tried += 1
    failed_reads(PROGRAM, SHORT + b'\n')
    failed_writes(PROGRAM, (SHORT, LONG, b''))
    print(f'list_nodes: {tried} inputs as reference/ lists them, and a failed read or write is said')


main()
